"""With which status a call ends: whoever calls from a script reads no message."""
from __future__ import annotations

import enum

from gudokeyi.domain.messages import Mistake
from gudokeyi.domain.mistakes import BookBusy, RegisterRefused, WrongWords


class Status(enum.IntEnum):
    """Each with what it says."""

    DONE = 0
    NOT_DONE = 1
    WRONG_WORDS = 2
    REFUSED = 3
    BUSY = 4


ABOUT = """status: 0 done; 1 it couldn't be done, and why is told; 2 wrong words; 3 the register refused; 4 the book is
busy, or was changed meanwhile"""
# the status of each kind of mistake that has one of its own
STATUSES: dict[type[Mistake], Status] = {
    WrongWords: Status.WRONG_WORDS,
    RegisterRefused: Status.REFUSED,
    BookBusy: Status.BUSY,
}


def status_of(mistake: Mistake) -> Status:
    """That of a mistake by which a call ended."""
    return next((status for kind, status in STATUSES.items() if isinstance(mistake, kind)), Status.NOT_DONE)
