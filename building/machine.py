"""What the machine gives: memory, processors, and folders for runs."""
from __future__ import annotations

import contextlib
import os
import pathlib
import re
import shutil
import tempfile
from typing import Iterator

# What the proof of one crate by one process takes, and what each further process of it may take.
MEMORY = 4_000_000_000
MEMORY_OF_JOB = 2_000_000_000
# A crate proved by four processes takes half as much again of the processor as by one; more shorten it no further.
MOST_JOBS = 4
# With so many processors the crate that most others wait for has two processes from the start.
MANY_PROCESSORS = 4
# A container's limit, and what it holds of that.
GROUPS = (
    ("/sys/fs/cgroup/memory.max", "/sys/fs/cgroup/memory.stat", r"^anon (\d+)"),
    ("/sys/fs/cgroup/memory/memory.limit_in_bytes", "/sys/fs/cgroup/memory/memory.stat", r"^total_rss (\d+)"),
)


class Machine:
    """The processors and the memory that runs share.

    Both are asked for before any run has begun: later those that have grown would be taken for others.
    """

    def __init__(self) -> None:
        self.memory, self.processors = free_memory(), len(os.sched_getaffinity(0))
        self.most_runs = max(1, min(self.processors, self.memory // MEMORY))

    def jobs(self, running: list[int], ready: int, leads: bool) -> int:
        """The processes of the next run, beside runs of so many and with so many crates ready, its own among them; none
        while there is no room. It has one, or its share of the processors that nobody has yet. The crate that most
        others wait for leads: it has two where processors are many, even if others are to wait for theirs."""
        idle = self.processors - sum(running)
        if len(running) >= self.most_runs or idle <= 0 and not leads:
            return 0
        least = 2 if leads and self.processors >= MANY_PROCESSORS else 1
        return max(1, min(max(least, idle // ready), MOST_JOBS, self.fitting(running)))

    def fitting(self, running: list[int]) -> int:
        """The processes of a further run for which there is memory beside runs of so many."""
        taken = sum(MEMORY + MEMORY_OF_JOB * (jobs - 1) for jobs in running)
        return 1 + (self.memory - taken - MEMORY) // MEMORY_OF_JOB


def free_memory() -> int:
    """The free memory in bytes."""
    available = number_in("/proc/meminfo", r"^MemAvailable:\s+(\d+) kB")
    found = [MEMORY if available is None else 1024 * available]
    for limit_file, held_file, pattern in GROUPS:
        limit, held = number_in(limit_file, r"^(\d+)"), number_in(held_file, pattern)
        if limit is not None and held is not None:
            found.append(max(0, limit - held))
    return min(found)


def number_in(file: str, pattern: str) -> int | None:
    """The number that a file of the system has there, if it has one."""
    try:
        found = re.search(pattern, pathlib.Path(file).read_text(encoding="utf-8"), re.MULTILINE)
    except OSError:
        return None
    return int(found[1]) if found else None


@contextlib.contextmanager
def room() -> Iterator[pathlib.Path]:
    """A folder for a run, which bears the number of this process."""
    with tempfile.TemporaryDirectory(prefix=f"herdbook-{os.getpid()}-", ignore_cleanup_errors=True) as at:
        yield pathlib.Path(at)


def sweep() -> None:
    """Removes the folders of this user's calls that were killed."""
    for at in pathlib.Path(tempfile.gettempdir()).glob("herdbook-*"):
        found = re.match(r"herdbook-(\d+)-", at.name)
        with contextlib.suppress(OSError):
            if found and at.lstat().st_uid == os.geteuid() and not is_call(found[1]):
                shutil.rmtree(at, ignore_errors=True)


def is_call(number: str) -> bool:
    """Whether a process of this number is a call: one that was killed may still be listed, but without its words."""
    try:
        return b"build.py" in pathlib.Path("/proc", number, "cmdline").read_bytes()
    except FileNotFoundError:
        return False
