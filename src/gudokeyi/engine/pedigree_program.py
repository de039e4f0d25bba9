"""The program, asked of a bare pedigree: animals by number with the numbers of their parents, earlier ones, and 0 for
an unknown one."""
from __future__ import annotations

import re
import subprocess
from collections.abc import Iterator, Sequence
from typing import TYPE_CHECKING

from gudokeyi.domain.mistakes import ProgramFailed
from gudokeyi.engine.program import Herdbook

if TYPE_CHECKING:
    import numpy as np
    import numpy.typing as npt

FAULT = re.compile(r"herdbook: record (\d+): fault \d+ (\w+)\s*")
# so many records are written at a time
AT_ONCE = 100_000
# so many numbers may stand in one call: a command line has an end
MOST_NUMBERS = 40_000


class PedigreeRefused(ProgramFailed):
    """The program refuses a record, by the fault's name."""

    def __init__(self, record: int, fault: str) -> None:
        super().__init__(f"the program herdbook refuses animal {record} of the pedigree: {fault}")
        self.record, self.fault = record, fault


class PedigreeProgram(Herdbook):
    """Each question is a run of it, of a whole pedigree: the numbers of each animal's sire and dam, from 1 on."""

    def ask(self, words: Sequence[str], parents: npt.NDArray[np.int64]) -> bytes:
        """What it writes."""
        limit = ["--limit-animals", str(max(1, len(parents)))]
        return self.run_bytes(["pedigree", *words, *limit], records(parents))

    def ended(self, running: subprocess.Popen[bytes], err: bytes, words: list[str]) -> None:
        if running.returncode == 1 and (found := FAULT.fullmatch(err.decode(errors="replace"))):
            raise PedigreeRefused(int(found[1]), found[2])
        super().ended(running, err, words)


def records(parents: npt.NDArray[np.int64]) -> Iterator[bytes]:
    """The file of a pedigree in pieces."""
    yield b"sire,dam\n"
    for first in range(0, len(parents), AT_ONCE):
        some = parents[first : first + AT_ONCE]
        yield b"%d,%d\n" * len(some) % tuple(some.ravel().tolist())
