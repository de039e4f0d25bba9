"""How long somebody waits for others who change the book or its accounts: a call of the terminal long, a page until a
moment of its own."""
from __future__ import annotations

import contextlib
import contextvars
import time
from collections.abc import Iterator

# so long a call waits, and so long a page does from its arrival on, in seconds
MOST_SECONDS, SECONDS_OF_PAGE = 900, 10
# so long also what came late waits, which may have to wait for nobody
LEAST_SECONDS = 0.2
# the moment until which is waited, by the clock that only goes on; none for a call
UNTIL: contextvars.ContextVar[float | None] = contextvars.ContextVar("until", default=None)


def seconds_left() -> float:
    until = UNTIL.get()
    return MOST_SECONDS if until is None else max(until - time.monotonic(), LEAST_SECONDS)


def is_short() -> bool:
    """Does whoever asks wait at a page?"""
    return UNTIL.get() is not None


@contextlib.contextmanager
def waiting(until: float | None) -> Iterator[None]:
    token = UNTIL.set(until)
    try:
        yield
    finally:
        UNTIL.reset(token)
