"""Asks a session of the herd book the requests of standard input, one after the other, and prints each answer."""
import os
import subprocess
import sys


class Session:
    """A session that answers one request at a time."""

    def __init__(self, *words):
        pipe, program = subprocess.PIPE, os.environ.get("HERDBOOK", "./herdbook")
        self.process = subprocess.Popen([program, "session", *words], stdin=pipe, stdout=pipe, text=True)
        self.asked = 0

    def ask(self, request):
        """The lines that answer a request, without their tag."""
        self.asked += 1
        tag = f"t{self.asked}"
        print(tag, request, sep=",", file=self.process.stdin, flush=True)
        lines = []
        for line in self.process.stdout:
            lines.append(line.rstrip("\n").partition(",")[2])
            if request.startswith("desk,") or lines[-1].startswith(("end,", "fault,")):
                return lines
        raise EOFError("the session has ended")

    def close(self):
        """The last line: how many steps and animals there are."""
        self.process.stdin.close()
        return self.process.stdout.read().rstrip("\n")


session = Session("--desks", "2", "--inspectors", "1")
for request in sys.stdin.read().splitlines():
    for line in session.ask(request):
        print(line)
print(session.close())
