"""A client of `herdbook session`, which reads answers on a thread while it asks."""
from __future__ import annotations

import dataclasses
import subprocess
import threading
import time
from collections.abc import Callable, Sequence

from outside.runs import SECONDS
from outside.session_requests import Request


@dataclasses.dataclass
class Answer:
    """The lines of an answer, without the tag, in the order in which answers came; the last is its end."""

    tag: str
    lines: list[str]

    def serial(self) -> int | None:
        """The place of a command in the journal."""
        first = self.lines[0].split(",")
        return int(first[0]) if len(self.lines) == 1 and first[0].isdigit() else None

    def steps(self) -> int | None:
        """The length of the history of a report."""
        word, _, steps = self.lines[-1].partition(",")
        return int(steps) if word == "end" else None

    def text(self) -> str:
        """A report."""
        return "".join(f"{line}\n" for line in self.lines[:-1])


class Client:
    """Asks, and gathers the answers of the requests that it asked."""

    def __init__(self, program: str, words: Sequence[str]) -> None:
        self.process = subprocess.Popen(
            [program, "session", *words],
            stdin=subprocess.PIPE,
            stdout=subprocess.PIPE,
            stderr=subprocess.PIPE,
            env={"PATH": "/usr/bin:/bin", "LANG": "C.UTF-8"},
        )
        assert self.process.stdin and self.process.stdout
        self.given, self.taken = self.process.stdin, self.process.stdout
        self.asked: dict[str, Request] = {}
        # how many steps were answered, as far as was read, when each request was written
        self.told_before: dict[str, int] = {}
        self.answers: list[Answer] = []
        self.last_line = ""
        self.most_told = 0
        self.torn: list[str] = []
        self.reader = threading.Thread(target=self.read, daemon=True)
        self.reader.start()

    def ask(self, request: Request) -> None:
        self.asked[request.tag] = request
        self.told_before[request.tag] = self.most_told
        self.given.write(request.line().encode())

    def flush(self) -> None:
        self.given.flush()

    def read(self) -> None:
        """Gathers the lines of each answer, which stand together."""
        open_answer: Answer | None = None
        for line in self.taken:
            tag, _, rest = line.decode().removesuffix("\n").partition(",")
            if tag == "closed":
                self.last_line = line.decode()
                continue
            if open_answer is None:
                open_answer = Answer(tag, [])
            if open_answer.tag != tag:
                self.torn.append(f"a line of {tag} within the answer of {open_answer.tag}")
            open_answer.lines.append(rest)
            if self.is_end(tag, rest):
                self.take(open_answer)
                open_answer = None

    def is_end(self, tag: str, rest: str) -> bool:
        request = self.asked.get(tag)
        is_report = request and request.inspector and not request.fault
        return not is_report or rest.startswith(("end,", "fault,"))

    def take(self, answer: Answer) -> None:
        self.answers.append(answer)
        self.most_told = max(self.most_told, answer.serial() or 0)

    def wait_until(self, is_so: Callable[[], bool]) -> None:
        """Waits for what answers come to. Where the session ends before, none comes any more."""
        while self.reader.is_alive() and not is_so():
            time.sleep(0.001)

    def end(self) -> int:
        """Ends the input, and gives the status."""
        self.given.close()
        self.reader.join(10 * SECONDS)
        return self.process.wait(SECONDS)
