"""A session of the program: one process with an office, of which desks and inspectors are asked, and whose answers are
collected by their tags."""
from __future__ import annotations

import contextlib
import io
import itertools
import queue
import subprocess
import threading
from collections.abc import Iterable
from dataclasses import dataclass, field

from gudokeyi.background import Background
from gudokeyi.domain.refusals import Refusal
from gudokeyi.domain.waiting import SECONDS_OF_PAGE, seconds_left
from gudokeyi.engine.program import Herdbook

# so much memory it may use, and so long an answer may take
MOST_BYTES, MOST_SECONDS = 2 << 30, 300
# so much of many replies is read at once
PIECE = 1 << 18
# what stands before each command of a journal that is replayed, and how the answer to one that is accepted ends
JOURNAL, ACCEPTED = b"journal,desk,1,", b",accepted\n"


@dataclass(frozen=True)
class Places:
    """How many desks and inspectors an office has: 1 to 16 of each."""

    desks: int = 1
    inspectors: int = 4


class SessionFault(Exception):
    """A command that the session doesn't answer, by the fault's name."""


class SessionBusy(Exception):
    """Others ask so much that there is no answer in the time of a page; it goes on."""


class SessionEnded(Exception):
    """The process ended, or gave no answer in time. What was asked may have been filed, and nobody knows of it."""


@dataclass
class Answer:
    """What is told of a request. Of an inspector `lines` are the report and `steps` the length of the history that it
    is made of; of a desk `lines` are the replies. A fault is the name of one."""

    count: int = 1
    lines: list[str] = field(default_factory=list)
    steps: int = 0
    fault: str = ""
    is_whole: threading.Event = field(default_factory=threading.Event)

    def take(self, rest: str, of_desk: bool) -> None:
        """A line without its tag."""
        what, _, value = rest.partition(",")
        if what == "fault":
            self.fault = value
            self.is_whole.set()
        elif what == "end" and not of_desk:
            self.steps = int(value)
            self.is_whole.set()
        else:
            self.lines.append(rest)
            if of_desk and len(self.lines) == self.count:
                self.is_whole.set()


class Session:
    """The process, with threads that wait for its answers."""

    def __init__(self, program: Herdbook, places: Places) -> None:
        words = ["session", "--desks", str(places.desks), "--inspectors", str(places.inspectors)]
        # it stays for as long as the desk is open
        self.process = program.start(words, subprocess.PIPE, subprocess.DEVNULL, MOST_BYTES, None)
        self.writing, self.lock = threading.Lock(), threading.Lock()
        self.tags = itertools.count(1)
        self.waiting: dict[str, tuple[Answer, bool]] = {}
        self.has_ended = False
        # the one that answered last comes first: it has frozen the book that is asked of most likely
        self.free: queue.LifoQueue[int] = queue.LifoQueue()
        for inspector in range(1, places.inspectors + 1):
            self.free.put(inspector)
        self.collects = False

    def begin_to_collect(self) -> None:
        with self.lock:
            if self.collects:
                return
            self.collects = True
        threading.Thread(target=self.collect, daemon=True).start()

    def replay(self, lines: bytes, count: int) -> dict[int, Refusal]:
        """Files a journal, which has so many lines, in a session of which nothing was asked yet. Answers the refusals:
        for each its place, from 0 on. So many replies are read here, one after the other, in a fraction of the time
        that answers take which are collected by their tags."""
        assert self.process.stdout and not self.collects
        ends = threading.Timer(MOST_SECONDS, self.process.kill)
        ends.start()
        try:
            text = JOURNAL + lines.rstrip(b"\n").replace(b"\n", b"\n" + JOURNAL) + b"\n"
            writing = Background(lambda: self.write(text if count else b""))
            replies = self.read_lines(count)
            writing.value()
        except (OSError, ValueError):
            raise SessionEnded from None
        finally:
            ends.cancel()
        self.begin_to_collect()
        if replies.count(ACCEPTED) == count:
            return {}
        told = enumerate(replies.decode("ascii", "replace").splitlines())
        return {at: refusal for at, line in told if (refusal := refusal_in(line))}

    def read_lines(self, count: int) -> bytes:
        """The next lines, of which there are so many. Nothing else is asked for behind them yet."""
        assert isinstance(self.process.stdout, io.BufferedReader)
        found, left = list[bytes](), count
        while left > 0:
            piece = self.process.stdout.read1(PIECE)
            if not piece:
                raise SessionEnded
            found.append(piece)
            left -= piece.count(b"\n")
        return b"".join(found)

    def collect(self) -> None:
        """Gives each line to the request whose tag it has, until the process ends."""
        assert self.process.stdout
        with contextlib.suppress(OSError, ValueError):
            for line in self.process.stdout:
                tag, _, rest = line.decode("ascii", "replace").rstrip("\n").partition(",")
                with self.lock:
                    answer, of_desk = self.waiting.get(tag, (None, False))
                if answer:
                    answer.take(rest, of_desk)
        with self.lock:
            self.has_ended = True
            for answer, _ in self.waiting.values():
                answer.is_whole.set()

    def begin(self, requests: Iterable[str], answer: Answer, of_desk: bool) -> str:
        """Asks; answers the tag that the answer comes with."""
        self.begin_to_collect()
        tag = f"t{next(self.tags)}"
        with self.lock:
            if self.has_ended:
                raise SessionEnded
            self.waiting[tag] = answer, of_desk
        try:
            self.write("".join(f"{tag},{request}\n" for request in requests).encode())
        except SessionEnded:
            self.forget(tag)
            raise
        return tag

    def forget(self, tag: str) -> None:
        with self.lock:
            del self.waiting[tag]

    def write(self, text: bytes) -> None:
        assert self.process.stdin
        try:
            with self.writing:
                self.process.stdin.write(text)
                self.process.stdin.flush()
        except (OSError, ValueError):
            raise SessionEnded from None

    def file(self, lines: list[str], desk: int = 1) -> list[Refusal | None]:
        """A desk's replies to commands, each written as in the command file, in their order. Without them in the time
        of a page nobody knows what is filed."""
        answer = Answer(len(lines))
        tag = self.begin((f"desk,{desk},{line}" for line in lines), answer, True)
        if not answer.is_whole.wait(min(MOST_SECONDS, max(seconds_left(), SECONDS_OF_PAGE))):
            self.process.kill()
        self.forget(tag)
        if answer.fault:
            raise SessionFault(answer.fault)
        if len(answer.lines) < answer.count:
            raise SessionEnded
        return [refusal_of(reply) for reply in answer.lines]

    def ask(self, question: list[str]) -> Answer:
        """The report of an inspector that is free; whoever asks waits for others, and for the report, no longer than a
        page does."""
        try:
            inspector = self.free.get(timeout=seconds_left())
        except queue.Empty:
            raise SessionBusy from None
        answer = Answer()
        try:
            tag = self.begin([",".join(["inspector", str(inspector), *question])], answer, False)
        except SessionEnded:
            self.free.put(inspector)
            raise
        if not answer.is_whole.wait(min(MOST_SECONDS, seconds_left())):
            threading.Thread(target=self.end_late, args=(tag, answer, inspector), daemon=True).start()
            raise SessionBusy
        self.end_answer(tag, inspector)
        if not answer.fault and not answer.steps:
            raise SessionEnded
        return answer

    def end_answer(self, tag: str, inspector: int) -> None:
        self.forget(tag)
        self.free.put(inspector)

    def end_late(self, tag: str, answer: Answer, inspector: int) -> None:
        """The inspector is asked again once that is answered for which nobody waits any more; one that never answers
        ends the process."""
        if not answer.is_whole.wait(MOST_SECONDS):
            self.process.kill()
        self.end_answer(tag, inspector)

    def status(self) -> int | None:
        """The status with which the process ended; none where it goes on."""
        try:
            return self.process.wait(1)
        except subprocess.TimeoutExpired:
            return None

    def end(self) -> None:
        self.process.kill()
        self.process.wait()
        for pipe in self.process.stdin, self.process.stdout:
            with contextlib.suppress(OSError):
                if pipe:
                    pipe.close()


def refusal_in(line: str) -> Refusal | None:
    """That of a journal's command; a fault where it isn't one."""
    _, _, reply = line.partition(",")
    if reply.startswith("fault,"):
        raise SessionFault(reply.partition(",")[2])
    return refusal_of(reply)


def refusal_of(reply: str) -> Refusal | None:
    _, told, *number = reply.split(",")
    return None if told == "accepted" else Refusal(int(number[0]))
