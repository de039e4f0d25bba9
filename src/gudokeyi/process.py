"""What is set of the process in which a call is made: a terminal and the pages set it. Who uses the library has the
process as it was."""
from __future__ import annotations

import contextlib
import os
import signal
import sys
import threading
from typing import Any, NoReturn, TextIO

# A process that makes one call and ends: what the call made goes with the process, all at once. To give it back piece
# by piece would take long after a large sheet, and serve nobody.

# what is kept to the end of the process; nothing is where a process goes on, as a desk does
kept: list[object] = []
is_the_last = False


def is_the_only_one() -> None:
    """From here on this process makes one call, and ends with it."""
    global is_the_last
    is_the_last = True


def keep(*made: object) -> None:
    """Keeps what was made to the end, if the process ends with this call."""
    if is_the_last:
        kept.extend(made)


def give_back_freed() -> None:
    """Before more is made the C library gives back what was freed, as SQLite's pages, if the process ends with this
    call: Python's own pieces never come where those were, so the most memory that a call has would be of both."""
    if is_the_last:
        import ctypes

        with contextlib.suppress(OSError, AttributeError):
            ctypes.CDLL(None).malloc_trim(0)


def end(status: int) -> NoReturn:
    """Ends the process. What it has written was flushed where it is well."""
    if kept and status == 0:
        sys.stdout.flush()
        sys.stderr.flush()
        os._exit(status)
    sys.exit(status)


# Ctrl-C: once a change is made, somebody who stops the call would be told something else.

ignores_stops = False
# what a stop did before the change was made
before_change: Any = None


def is_for_one_change() -> None:
    """From here on this process isn't stopped any more once its change is made."""
    global ignores_stops
    ignores_stops = True


def stop_no_more() -> None:
    """A change is made now."""
    global before_change
    if ignores_stops and threading.current_thread() is threading.main_thread():
        before = signal.signal(signal.SIGINT, signal.SIG_IGN)
        before_change = before if before_change is None else before_change


def stop_again() -> None:
    """The change is told, and another one begins: until that is made the process may be stopped."""
    global before_change
    if before_change is not None and threading.current_thread() is threading.main_thread():
        signal.signal(signal.SIGINT, before_change)
        before_change = None


# How this process reads and computes.

# so long, in seconds, one thread keeps the others waiting that read, write or answer
SECONDS_IN_TURN = 0.0005


def with_short_turns() -> None:
    """What writes a book or reads its journal waits for Python between two statements, while something else is done
    beside: of Python's own turns each is ten times as long."""
    sys.setswitchinterval(SECONDS_IN_TURN)


def with_cells_of_any_length() -> None:
    """The bounds of a sheet say which cells are too long, in a sentence of their own."""
    import csv

    csv.field_size_limit(sys.maxsize)


# What this process tells where systemd reads it: journald takes from a line's beginning how grave that is, as syslog
# counts.

FAULT, REFUSED, CHANGED, USUAL = 3, 4, 5, 6


def how_grave(priority: int, out: TextIO) -> str:
    """What stands before a line; nothing does where it isn't read by journald, of whose stream systemd tells the device
    and the number."""
    with contextlib.suppress(OSError, ValueError):
        found = os.fstat(out.fileno())
        if os.environ.get("JOURNAL_STREAM") == f"{found.st_dev}:{found.st_ino}":
            return f"<{priority}>"
    return ""


# A process beside others that somebody waits for takes what these leave. Linux parts its time first among sessions and
# then among the processes of each, and a process beside has a session of its own.

# how much of the time a session takes, where the system parts it so
OF_SESSION = "/proc/self/autogroup"


def take_what_is_left(niceness: int) -> None:
    with contextlib.suppress(OSError):
        os.setpriority(os.PRIO_PROCESS, 0, niceness)
    with contextlib.suppress(OSError), open(OF_SESSION, "w", encoding="ascii") as file:
        file.write(str(niceness))


def take_as_others() -> None:
    """From here on somebody waits for this process; where the system doesn't allow it all stays as it is."""
    with contextlib.suppress(OSError):
        os.setpriority(os.PRIO_PROCESS, 0, 0)
    with contextlib.suppress(OSError), open(OF_SESSION, "w", encoding="ascii") as file:
        file.write("0")


# SQLite without statistics of its memory: else all threads wait for one lock at each piece of memory, and two that read
# take longer than one after the other. It is asked for before the module `sqlite3` is imported, and where that can't be
# done nothing else changes.

# SQLITE_CONFIG_MEMSTATUS
STATISTICS = 9


def without_statistics() -> None:
    # every call would wait for these, and few need them
    import ctypes
    import importlib.util

    spec = importlib.util.find_spec("_sqlite3")
    with contextlib.suppress(OSError, AttributeError):
        # the module's own library, or that which it is linked with
        library = ctypes.CDLL(spec.origin if spec and spec.has_location else None)
        library.sqlite3_config(STATISTICS, 0)


# A process that goes on, as a desk does, gives back what an answer took. By itself the C library has a pool of memory
# for each of many threads, and of each pool what lies before a piece that is in use stays: so after some large answers
# each thread keeps as much as the largest of its answers took. Another library than glibc has nothing to set here.

# mallopt's names of what is set, from malloc.h
TRIM_THRESHOLD, MMAP_THRESHOLD, ARENA_MAX = -1, -3, -8
# so many pools there are, and a piece of so many bytes, which is in none of them, goes back at once
POOLS, LARGE_PIECE = 2, 128 << 10


def give_memory_back() -> None:
    """From here on memory that isn't used goes back to the system. It is asked for before threads are started."""
    import ctypes

    with contextlib.suppress(OSError, AttributeError):
        library = ctypes.CDLL(None)
        # what counts as large would grow with what is given back, unless it is set
        for name, value in (ARENA_MAX, POOLS), (MMAP_THRESHOLD, LARGE_PIECE), (TRIM_THRESHOLD, LARGE_PIECE):
            library.mallopt(name, value)
