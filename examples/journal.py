"""Keeps a book: a session of the herd book with a journal on the disk. A command is answered once its line is there, and
whoever opens the journal again has all that was answered.

    python3 examples/journal.py JOURNAL < requests

Requests are commands as the command file has them, and questions as an inspector is asked. The journal is a command
file, which `herdbook file` reads too."""
import fcntl
import os
import subprocess
import sys

HEADER = b"kind,animal,day,sire,dam,from,to,embryo\n"
KINDS = ("birth", "parents", "transfer", "exit")
# so many commands are filed between two readings of the answers, which a pipe holds
AT_ONCE = 1_000


class Journal:
    """The lines that are filed, in the order of their serials. One process has it at a time."""

    def __init__(self, path):
        self.file = open(path, "a+b", buffering=0)
        fcntl.flock(self.file, fcntl.LOCK_EX | fcntl.LOCK_NB)
        self.file.seek(0)
        text = self.file.read()
        # a last line without its end was being written when the power went: nobody has its answer
        whole = text[: text.rfind(b"\n") + 1]
        if whole and not whole.startswith(HEADER):
            raise ValueError(f"{path} isn't a journal")
        self.file.truncate(len(whole))
        self.append([] if whole else [HEADER[:-1]])
        self.lines = whole.splitlines()[1:]
        # that the file is there has to be on the disk too
        folder = os.open(os.path.dirname(os.path.abspath(path)), os.O_RDONLY)
        os.fsync(folder)
        os.close(folder)

    def append(self, lines):
        left = b"".join(line + b"\n" for line in lines)
        while left:
            left = left[self.file.write(left) :]
        os.fsync(self.file)


class Book:
    """A session that has filed the journal. Where anything goes wrong it is ended, and to be opened again: it may have
    filed what the journal lacks."""

    def __init__(self, path, *words):
        self.journal, program = Journal(path), os.environ.get("HERDBOOK", "./herdbook")
        # with one desk the answers come in the order of the serials
        self.process = subprocess.Popen([program, "session", *words], stdin=subprocess.PIPE, stdout=subprocess.PIPE)
        lines = self.journal.lines
        for first in range(0, len(lines), AT_ONCE):
            for serial, reply in enumerate(self.replies(lines[first : first + AT_ONCE]), first + 1):
                if not reply.startswith(b"%d," % serial):
                    raise ValueError(f"line {serial} of the journal is answered by {reply.decode()}")

    def replies(self, commands):
        self.process.stdin.write(b"".join(b"t,desk,1," + line + b"\n" for line in commands))
        self.process.stdin.flush()
        return [self.line() for _ in commands]

    def line(self):
        line = self.process.stdout.readline()
        if not line.endswith(b"\n"):
            raise EOFError("the session has ended: open the journal again")
        return line[:-1].partition(b",")[2]

    def file(self, commands):
        """The replies to some commands, once all that are filed stand on the disk. A fault files nothing."""
        replies = self.replies(commands)
        self.journal.append([line for line, reply in zip(commands, replies) if not reply.startswith(b"fault,")])
        return replies

    def ask(self, question):
        """The lines of a report."""
        self.process.stdin.write(b"t,inspector,1," + question + b"\n")
        self.process.stdin.flush()
        lines = [self.line()]
        while not lines[-1].startswith((b"end,", b"fault,")):
            lines.append(self.line())
        return lines

    def close(self):
        """Ends the session, and reads its last line, so that it writes to nobody who has gone."""
        self.process.stdin.close()
        self.process.stdout.read()
        self.process.wait()


if __name__ == "__main__":
    book = Book(sys.argv[1])
    for request in sys.stdin.buffer:
        request = request.rstrip(b"\n")
        is_command = request.partition(b",")[0].decode() in KINDS
        for line in book.file([request]) if is_command else book.ask(request):
            sys.stdout.buffer.write(line + b"\n")
        sys.stdout.buffer.flush()
    book.close()
