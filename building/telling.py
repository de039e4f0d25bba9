"""What a call tells on standard error, a line each."""
from __future__ import annotations

import contextlib
import errno
import os
import shutil
import sys
import tempfile
import threading
import time


class Stop(Exception):
    """Why nothing is built, in a sentence, and the status that the call ends with."""

    def __init__(self, why: str, status: int = 1) -> None:
        super().__init__(why)
        self.status = status


class Teller:
    """Tells lines that begin with a name and the minutes since the call began."""

    def __init__(self, name: str) -> None:
        self.name, self.start, self.one_by_one = name, time.monotonic(), threading.Lock()

    def say(self, text: str) -> None:
        minutes = (time.monotonic() - self.start) / 60
        self.write([f"{self.name}: {minutes:5.1f} min: {text}\n"])

    def write(self, lines: list[str]) -> None:
        """Writes lines, where standard error is there and somebody still reads it."""
        with self.one_by_one, contextlib.suppress(OSError, AttributeError):
            sys.stderr.writelines(lines)
            sys.stderr.flush()


def reason(error: OSError) -> str:
    """Why the system couldn't do a thing, in one line."""
    if os.strerror(errno.ENOSPC) in str(error):
        return f"the disk is full: make room, also in {tempfile.gettempdir()}"
    if isinstance(error, shutil.Error) and error.args and isinstance(error.args[0], list):
        # what a copy tells of each file
        return "; ".join(str(it[-1]) for it in error.args[0][:1])
    where = f"{error.filename}: " if error.filename else ""
    return f"{where}{error.strerror or error}"
