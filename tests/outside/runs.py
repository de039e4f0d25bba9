"""Runs of the program, and what is counted."""
from __future__ import annotations

import dataclasses
import pathlib
import subprocess
from collections.abc import Callable, Mapping, Sequence
from typing import IO, Self

import pytest

from counting import Counts, counts_of

TOP = pathlib.Path(__file__).resolve().parent.parent.parent
SECONDS = 180
# a script for a shell, which becomes the program
IN_ROOM = 'ulimit -v "$0"; exec "$@"'

Words = Sequence[str | bytes]
# a text, or the handle of an open file
Given = str | bytes | int


@dataclasses.dataclass(frozen=True, repr=False)
class Done:
    """What a run ended with."""

    status: int
    out: bytes
    err: bytes

    def __repr__(self) -> str:
        return f"status {self.status}, output {self.out[-160:]!r}, error {self.err[-160:]!r}"


def wrote(out: str, err: str = "", status: int = 0) -> Done:
    return Done(status, out.encode(), err.encode())


def fault(text: str, out: str = "", status: int = 1) -> Done:
    return wrote(out, f"herdbook: {text}\n", status)


class Checks:
    """Runs a program, in an environment without the caller's variables, and counts what passed and what failed.

    Each of its methods whose name begins with `test_` is a group of checks, and one test of pytest.
    """

    program: str
    room: pathlib.Path
    refuser: pathlib.Path
    counts: Counts

    @pytest.fixture(autouse=True)
    def begin(
        self, program: str, refuser: pathlib.Path, tmp_path: pathlib.Path, request: pytest.FixtureRequest
    ) -> None:
        self.program, self.refuser, self.room, self.counts = program, refuser, tmp_path, counts_of(request.node)

    def built(self, name: str) -> Self:
        """The checks of another program that the gate built, in the same room."""
        other = type(self)()
        other.program = str(TOP / f"crates/{name}/out/{name}")
        other.refuser, other.room, other.counts = self.refuser, self.room, self.counts
        return other

    def run(
        self,
        words: Words,
        given: Given = "",
        out: int | IO[bytes] = subprocess.PIPE,
        err: int | IO[bytes] = subprocess.PIPE,
        refuse: Mapping[str, object] | None = None,
        before: Callable[[], object] | None = None,
        kilobytes: int | None = None,
    ) -> Done:
        """Runs the program. `refuse` is what `refuse.c` reads; `before` is called in the new process, which may have so
        many kilobytes of memory. These are set by a shell: a copy of this process takes longer than a short run."""
        env = {"PATH": "/usr/bin:/bin", "LANG": "C.UTF-8"}
        if refuse:
            env |= {"LD_PRELOAD": str(self.refuser)} | {name: str(value) for name, value in refuse.items()}
        done = subprocess.run(
            [*(("/bin/sh", "-c", IN_ROOM, f"{kilobytes}") if kilobytes else ()), self.program, *words],
            input=None if isinstance(given, int) else given.encode() if isinstance(given, str) else given,
            stdin=given if isinstance(given, int) else None,
            stdout=out,
            stderr=err,
            env=env,
            timeout=SECONDS,
            preexec_fn=before,
        )
        return Done(done.returncode, done.stdout or b"", done.stderr or b"")

    def count(self, right: object, what: str) -> None:
        self.counts.count(right, what)

    def expect(
        self,
        what: str,
        wanted: Done,
        words: Words,
        given: Given = "",
        out: int | IO[bytes] = subprocess.PIPE,
        refuse: Mapping[str, object] | None = None,
        before: Callable[[], object] | None = None,
        kilobytes: int | None = None,
    ) -> None:
        found = self.run(words, given, out=out, refuse=refuse, before=before, kilobytes=kilobytes)
        self.count(found == wanted, f"{what}: {' '.join(map(repr, words))}: {found}; wanted {wanted}")
