"""How much time and memory a process may use that looks at a sheet: a terminal and a worker of the pages set it."""
from __future__ import annotations

import contextlib
import resource
import signal
from collections.abc import Iterator

from gudokeyi.domain.messages import Mistake
from gudokeyi.ingest.messages import SheetFault

# of its own work, and behind that until it is ended where it doesn't see that its time is over
MOST_SECONDS, MORE_SECONDS = 180.0, 30.0
MOST_MEMORY = 3 << 30


def bound_look(seconds: float = MOST_SECONDS) -> None:
    """From here on this process may use so much; a mistake comes of it where its time is over, and a `MemoryError`
    where its memory is."""

    def end(*_: object) -> None:
        raise Mistake(SheetFault.TOO_SLOW.said(seconds=round(seconds)))

    signal.signal(signal.SIGVTALRM, end)
    signal.setitimer(signal.ITIMER_VIRTUAL, seconds)
    # this one ends the process
    signal.signal(signal.SIGPROF, signal.SIG_DFL)
    signal.setitimer(signal.ITIMER_PROF, seconds + MORE_SECONDS)
    most = resource.getrlimit(resource.RLIMIT_AS)[1]
    bytes_now = MOST_MEMORY if most == resource.RLIM_INFINITY else min(MOST_MEMORY, most)
    resource.setrlimit(resource.RLIMIT_AS, (bytes_now, most))


@contextlib.contextmanager
def bounded_reading(seconds: float = MOST_SECONDS) -> Iterator[None]:
    """What is done within is bounded as a look is; what comes behind it, such as the writing of the book, isn't."""
    memory = resource.getrlimit(resource.RLIMIT_AS)
    handlers = {number: signal.getsignal(number) for number in (signal.SIGVTALRM, signal.SIGPROF)}
    bound_look(seconds)
    try:
        yield
    finally:
        for timer in signal.ITIMER_VIRTUAL, signal.ITIMER_PROF:
            signal.setitimer(timer, 0)
        for number, handler in handlers.items():
            signal.signal(number, handler)
        resource.setrlimit(resource.RLIMIT_AS, memory)
