"""Runs of the toolchain that are under way."""
from __future__ import annotations

import pathlib
import signal
import subprocess
import threading
from typing import Iterator

# How far a run steps back that gives way.
NICENESS = "10"
# The seconds that a call gets to end its runs once one has failed.
PAUSE = 0.5
# How a run ends that was killed, and one whose prover was.
KILLED = (-signal.SIGKILL, 256 - signal.SIGKILL)


class Runs:
    """The runs that are under way, which can be ended together; then none begins any more."""

    def __init__(self) -> None:
        self.lock, self.ended = threading.Lock(), threading.Event()
        self.under_way: set[subprocess.Popen[str]] = set()

    def lines(self, words: list[str], at: pathlib.Path, gives_way: bool) -> Iterator[str]:
        """Runs rt with these words in that folder, and gives the lines that it tells. One that gives way has the
        processors that others leave."""
        with self.lock:
            if self.ended.is_set():
                raise Ended
            run = subprocess.Popen(
                [*(("nice", "-n", NICENESS) if gives_way else ()), "rt", *words],
                cwd=at,
                stdin=subprocess.DEVNULL,
                stdout=subprocess.PIPE,
                stderr=subprocess.STDOUT,
                text=True,
                errors="replace",
            )
            self.under_way.add(run)
        with run:
            yield from run.stdout or ()
        with self.lock:
            self.under_way.discard(run)
        # Control-C reaches the run too, and it may be the first to end.
        if self.ended.wait(PAUSE if run.returncode else 0):
            raise Ended
        if run.returncode:
            raise Failed(run.returncode in KILLED)

    def end(self) -> None:
        with self.lock:
            self.ended.set()
            for run in self.under_way:
                run.terminate()


class Failed(Exception):
    """A run ended with another status than 0."""

    def __init__(self, is_killed: bool) -> None:
        super().__init__()
        self.is_killed = is_killed


class Ended(Exception):
    """All runs were ended together."""
