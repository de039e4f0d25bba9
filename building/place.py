"""The folders in which the repository has a program, and the libraries that it stands on, once they are built."""
from __future__ import annotations

import contextlib
import errno
import fcntl
import os
import pathlib
import shutil
from typing import IO, Callable, Iterator

from building.built import text_now
from building.crates import Crates, folder
from building.telling import Stop

REFUSED = (errno.EACCES, errno.EPERM, errno.EROFS)


class Place:
    """Where the program goes, and the locks on that folder and on those of the crates that it stands on."""

    def __init__(self, crates: Crates) -> None:
        self.crates = crates
        self.out = out(crates.program)
        self.program = self.out / crates.program
        # what the program was built of
        self.built = self.out / f"{crates.program}.built"

    @contextlib.contextmanager
    def alone(self, waits: Callable[[], None]) -> Iterator[bool]:
        """Keeps other calls from building these crates here, and gives whether one had to end first."""
        with contextlib.ExitStack() as held:
            # All calls lock them in one order, so that none waits for one that waits for it.
            locks = [held.enter_context(lock_file(out(name))) for name in sorted(self.crates.lines)]
            has_waited = False
            for lock in locks:
                try:
                    fcntl.flock(lock, fcntl.LOCK_EX | fcntl.LOCK_NB)
                except BlockingIOError:
                    if not has_waited:
                        waits()
                    has_waited = True
                    fcntl.flock(lock, fcntl.LOCK_EX)
            yield has_waited

    def is_new(self) -> bool:
        """Whether the program is there, and was built of what is there."""
        with contextlib.suppress(FileNotFoundError):
            return self.program.exists() and self.built.read_text(encoding="utf-8") == text_now(self.crates)
        return False

    def put(self, made: pathlib.Path, built: str) -> None:
        """Puts the program there, and beside it what it was built of.

        What the one before was built of is removed first: a call that is killed meanwhile leaves nothing that tells it
        of this one.
        """
        self.out.mkdir(exist_ok=True)
        self.built.unlink(missing_ok=True)
        beside = self.out / f"{self.program.name}.new"
        shutil.copy(made, beside)
        os.replace(beside, self.program)
        beside.write_text(built, encoding="utf-8")
        os.replace(beside, self.built)


def out(name: str) -> pathlib.Path:
    """The folder in which a crate has what is made of it."""
    return folder(name) / "out"


def lock_file(at: pathlib.Path) -> IO[str]:
    """The file that a build locks in such a folder, which tells too whether the folder can be written."""
    try:
        at.mkdir(exist_ok=True)
        if os.access(at, os.W_OK):
            return open(at / "build.lock", "a", encoding="utf-8")
    except OSError as error:
        if error.errno not in REFUSED:
            raise
    raise Stop(f"{at} can't be written: copy the repository to a folder of your own")
