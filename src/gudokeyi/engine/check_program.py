"""The program, asked whether a certificate is what it says under a seal. It needs no book for that."""
from __future__ import annotations

import io
from typing import IO, NamedTuple, TYPE_CHECKING

from gudokeyi.domain.seals import CHECK_FAULTS, CertificateRefused
from gudokeyi.engine.program import Herdbook, bytes_in, in_memory, write_all

if TYPE_CHECKING:
    import subprocess

# the status with which it says that a certificate is refused
REFUSED = 3
# so much memory it may use: it reads no more than a part of that of any file
MOST_BYTES = 1 << 30


class Accepted(NamedTuple):
    """What it says of a certificate that it accepts: its own lines are `text`. The records are those of the animal and
    of all its known ancestors, from the oldest on."""

    text: str
    number: str
    fraction: str
    percent: str
    steps: int
    animals: int
    records: tuple[str, ...]


class CheckProgram(Herdbook):
    """The program, without a book."""

    def check(self, certificate: IO[bytes], seal: str) -> Accepted:
        """What it accepts of a certificate's file; raises `CertificateRefused`."""
        import subprocess

        words = ["check", seal]
        with in_memory() as answers:
            running = self.start(words, certificate.fileno(), subprocess.PIPE, MOST_BYTES, answers=answers.fileno())
            self.ended(running, self.waited_for(running, words), words)
            return accepted(bytes_in(answers).decode())

    def ended(self, running: subprocess.Popen[bytes], err: bytes, words: list[str]) -> None:
        """That a certificate is refused is its answer."""
        if running.returncode != REFUSED:
            super().ended(running, err, words)


def accepted(text: str) -> Accepted:
    """Its answer, if that is that a certificate is accepted."""
    first, *records = text.splitlines()
    told, *values = first.split(",")
    if told != "accepted":
        fault, line = values
        raise CertificateRefused(CHECK_FAULTS[fault], int(line))
    number, fraction, percent, steps, animals = values
    return Accepted(text, number, fraction, percent, int(steps), int(animals), tuple(records))


def file_with(text: bytes) -> io.FileIO:
    """A file in memory, from whose beginning the program reads a text."""
    file = in_memory()
    write_all(file, text)
    file.seek(0)
    return file
