"""Runs `herdbook`, from which every refusal and coefficient comes."""
from __future__ import annotations

import contextlib
import fcntl
import functools
import io
import itertools
import os
import pathlib
import resource
import shlex
import signal
from collections.abc import Iterable
from typing import TYPE_CHECKING

import gudokeyi
from gudokeyi.background import Background
from gudokeyi.domain.commands import Command, text_of
from gudokeyi.domain.messages import Count, Mistake
from gudokeyi.domain.mistakes import ProgramFailed
from gudokeyi.domain.refusals import Refusal
from gudokeyi.engine.location import NAME, SAY, located
from gudokeyi.engine.messages import ProgramFault

# what begins another program is imported where one is begun: a call that asks it nothing would wait for that
if TYPE_CHECKING:
    import subprocess

# so much memory and time a run may use
MOST_BYTES, MOST_SECONDS = 4 << 30, 1200
# the reply to a command that is refused has its number in the journal before this, and that of the refusal behind it
REFUSED = b",refused,"
# so long it may take to say its version
SECONDS_TO_ANSWER = 30
# so much a pipe may hold, if the system allows it
PIPE_BYTES = 1 << 20


def in_memory() -> io.FileIO:
    """A file without a name, in memory."""
    return io.FileIO(os.memfd_create("herdbook"), "w+")


def write_all(file: io.FileIO, text: bytes) -> None:
    left = memoryview(text)
    while left:
        left = left[file.write(left) :]


def give(file: io.FileIO, pieces: Iterable[bytes]) -> None:
    """Writes pieces into a pipe, and closes it."""
    with file:
        with contextlib.suppress(OSError):
            # else each piece is parted into small ones
            fcntl.fcntl(file, fcntl.F_SETPIPE_SZ, PIPE_BYTES)
        for piece in pieces:
            write_all(file, piece)


def bytes_in(file: io.FileIO) -> bytes:
    """All that was written into a file in memory."""
    file.seek(0)
    return file.read()


def limit(process: subprocess.Popen[bytes], most_bytes: int, most_seconds: int | None) -> None:
    """Limits what a process uses. From outside, since in a process of many threads little may be done before another
    program is begun."""
    with contextlib.suppress(ProcessLookupError):
        resource.prlimit(process.pid, resource.RLIMIT_AS, (most_bytes, most_bytes))
        if most_seconds is not None:
            resource.prlimit(process.pid, resource.RLIMIT_CPU, (most_seconds, most_seconds + 1))


def refusals_in(answers: bytes) -> dict[int, Refusal]:
    """For each command that is refused its place, from 0 on, and the refusal. Few are: no other reply is looked at."""
    both = itertools.pairwise(answers.split(REFUSED))
    return {int(one.rpartition(b"\n")[2]) - 1: Refusal(int(other.partition(b"\n")[0])) for one, other in both}


class Herdbook:
    """The program. It is looked for once something is asked of it: a question that needs none asks for none."""

    @functools.cached_property
    def path(self) -> pathlib.Path:
        return located()

    def why_not_there(self) -> tuple[str, ...]:
        """Why it isn't found, without anybody being asked for a proof; nothing where it is."""
        try:
            if "path" not in self.__dict__:
                self.path = located(asks=False)
        except Mistake as mistake:
            return mistake.sentences
        return ()

    def look_for(self) -> None:
        """Finds it at once, or a mistake says what to do: a desk that is open asks nobody at the terminal."""
        assert self.path

    def refuse_other(self) -> None:
        """A mistake where the program doesn't answer, or is of another version than the front desk."""
        import subprocess

        wanted = f"{NAME} {gudokeyi.__version__}"
        try:
            done = subprocess.run(
                [str(self.path), "--version"], stdin=subprocess.DEVNULL, capture_output=True, text=True,
                errors="replace", timeout=SECONDS_TO_ANSWER,
            )  # fmt: skip
            told = done.stdout.strip() or f"status {done.returncode}"
        except (OSError, subprocess.TimeoutExpired) as error:
            told = str(error)
        if told != wanted:
            raise ProgramFailed(ProgramFault.OTHER.said(path=self.path, told=told, wanted=wanted, hint=SAY))

    def start(
        self, words: list[str], given: int, errors: int | None, most_bytes: int = MOST_BYTES,
        most_seconds: int | None = MOST_SECONDS, answers: int | None = None,
    ) -> subprocess.Popen[bytes]:  # fmt: skip
        """Begins it. Its answers go into a pipe, where nothing else is named."""
        import subprocess

        answers = subprocess.PIPE if answers is None else answers
        try:
            process = subprocess.Popen([str(self.path), *words], stdin=given, stdout=answers, stderr=errors)
            limit(process, most_bytes, most_seconds)
            return process
        except OSError as error:
            allow = f"allow it, as chmod u+x {shlex.quote(str(self.path))}"
            hint = allow if isinstance(error, PermissionError) else SAY
            raise ProgramFailed(ProgramFault.CANT_RUN.said(path=self.path, error=error, hint=hint)) from None

    def run(self, words: list[str], book: bytes) -> str:
        """What it writes of a command file."""
        return self.run_bytes(words, (book,)).decode()

    def run_bytes(self, words: list[str], pieces: Iterable[bytes]) -> bytes:
        """What it writes of a file that is given in pieces."""
        import subprocess

        # through pipes much of it would go in small pieces, each of which waits until Python has time
        with in_memory() as given, in_memory() as answers:
            try:
                for piece in pieces:
                    write_all(given, piece)
                given.seek(0)
            except OSError as error:
                told = error.strerror or str(error)
                raise ProgramFailed(
                    ProgramFault.CANT_DO.said(word=words[0], told=told, hint=": nothing is changed")
                ) from None
            running = self.start(words, given.fileno(), subprocess.PIPE, answers=answers.fileno())
            self.ended(running, self.waited_for(running, words), words)
            return bytes_in(answers)

    def run_meanwhile(self, words: list[str], pieces: Iterable[bytes]) -> str:
        """The same, while the pieces of the command file are still found. What goes wrong with these is raised, and not
        what the program says of those that it got."""
        import subprocess

        with in_memory() as answers:
            reads, writes = os.pipe()
            with io.FileIO(reads):
                giving = Background(lambda: give(io.FileIO(writes, "w"), pieces))
                running = self.start(words, reads, subprocess.PIPE, answers=answers.fileno())
            err = self.waited_for(running, words)
            # where it read no further its status says why
            with contextlib.suppress(BrokenPipeError):
                giving.value()
            self.ended(running, err, words)
            giving.value()
            return bytes_in(answers).decode()

    def waited_for(self, running: subprocess.Popen[bytes], words: list[str]) -> bytes:
        """What it told beside its answers, once it has ended."""
        import subprocess

        try:
            _, err = running.communicate(timeout=MOST_SECONDS)
        except subprocess.TimeoutExpired:
            running.kill()
            running.communicate()
            raise self.took_too_long(words) from None
        if running.returncode == -signal.SIGXCPU:
            raise self.took_too_long(words)
        return err

    def took_too_long(self, words: list[str]) -> Mistake:
        return ProgramFailed(ProgramFault.TOO_LONG.said(word=words[0], minutes=MOST_SECONDS // 60, path=self.path))

    def lines(self, words: list[str], book: bytes) -> list[str]:
        """The lines that it writes of a command file."""
        return self.run(words, book).splitlines()

    def ended(self, running: subprocess.Popen[bytes], err: bytes, words: list[str]) -> None:
        status = running.returncode
        if status:
            told = err.decode(errors="replace").strip().removeprefix("herdbook: ") or f"it ended with status {status}"
            hint = ". Somebody has changed the command file: restore it" if told.startswith("record ") else ""
            if told == "no memory" or status < 0:
                hint = f" (it may use {MOST_BYTES >> 30} GB of memory). Nothing is changed"
            raise ProgramFailed(ProgramFault.CANT_DO.said(word=words[0], told=told, hint=hint))

    def file(self, commands: list[Command]) -> dict[int, Refusal]:
        """The refusals of commands: for each refused one its place, from 0 on, and the refusal."""
        return self.file_text(text_of(commands), len(commands))

    def file_text(self, book: bytes, count: int) -> dict[int, Refusal]:
        """The same of a command file with so many commands."""
        answers = self.run_bytes(["file"], (book,))
        replies = answers.count(b"\n")
        if replies != count:
            commands = Count(count, "command")
            raise ProgramFailed(ProgramFault.REPLIES_LACK.said(replies=replies, commands=commands, path=self.path))
        return refusals_in(answers)
