#!/usr/bin/env python3
"""Measures what an office takes for births and transfers at desks on threads, beside inspectors who freeze without
pause.

    office.sh PROGRAM HERDBOOK [--million] [--runs 5] [--desks 1,2,4,16] [--inspectors 0,1,4]
              [--births 59000] [--transfers 20000]

PROGRAM is the executable of the crate office_timing, HERDBOOK that of herdbook, as `rt run` leaves
them; nothing is proved or built. The births are of founders. `--million` adds a million births.

`calls a second` is by the clock, the best of several runs, each a whole run of the program: opening
the office, starting threads and closing count. `cpu` is the least processor time of a call, that of
the inspectors with it; `by file` is that time by what `herdbook file` takes for the same births,
which it reads from a file. `memory` is the most that a run had, though never less than this script.

The second table is of one desk: so many births without readers, and then transfers, which are timed,
with a pause before each, while an inspector freezes or none does. `a call` is the least of several
runs, `the longest` the median of what the longest call of each run took, `books` the fewest that a
run froze meanwhile.

The status is 1 where a run doesn't print the counts that it is to have, or froze fewer than ten books.
"""

from __future__ import annotations

import argparse
import os
import re
import statistics
import subprocess
import sys
import tempfile
import time
from typing import IO

from command_file import limit_words

# so many freezings at least are to fall among the transfers
FEWEST_BOOKS = 10


def measured(words: list[str], given: int | IO[bytes] = subprocess.DEVNULL) -> tuple[str, str, float, float, int]:
    """What a run prints to its outputs, and its wall time, processor time and memory (s, s, bytes)."""
    with tempfile.TemporaryFile() as out, tempfile.TemporaryFile() as told:
        start = time.perf_counter()
        child = subprocess.Popen(words, stdin=given, stdout=out, stderr=told)
        _, status, used = os.wait4(child.pid, 0)
        wall = time.perf_counter() - start
        child.returncode = os.waitstatus_to_exitcode(status)
        out.seek(0)
        told.seek(0)
        texts = out.read().decode(), told.read().decode()
    if child.returncode:
        sys.exit(f"{' '.join(words)} ended with status {child.returncode}: {texts[1]}")
    return *texts, wall, used.ru_utime + used.ru_stime, used.ru_maxrss * 1024


def counts(births: int) -> str:
    """What a run with so many births is to print."""
    return f"{births} accepted, {births} steps\n"


def write_births(path: str, births: int) -> None:
    """The same births as a command file."""
    with open(path, "w", encoding="ascii") as file:
        file.write("kind,animal,day,sire,dam,from,to\n")
        for place in range(births):
            file.write(f"birth,HOLGBRM{place:012},2000-01-01,0,0,,1\n")


def filed(herdbook: str, births: int, runs: int) -> float:
    """The least processor time of `file` on these births."""
    with tempfile.TemporaryDirectory() as folder:
        path = os.path.join(folder, "births.csv")
        write_births(path, births)
        least = float("inf")
        for _ in range(runs):
            with open(path, "rb") as given:
                least = min(least, measured([herdbook, "file", *limit_words(births, births)], given)[3])
    return least


def crowds(given: argparse.Namespace, births: int) -> bool:
    """A line of the first table for each number of desks and of inspectors; whether all counts are right."""
    alone = filed(given.herdbook, births, given.runs)
    well = True
    for desks in given.desks.split(","):
        for inspectors in given.inspectors.split(","):
            words = [given.program, "births", str(births), desks, inspectors]
            tried = [measured(words) for _ in range(given.runs)]
            well &= all(printed == counts(births) for printed, *_ in tried)
            wall, cpu = min(it[2] for it in tried), min(it[3] for it in tried)
            memory = max(it[4] for it in tried)
            print(
                f"| {births:,} | {desks} | {inspectors} | {births / wall:,.0f} | {1e6 * cpu / births:.2f}"
                f" | {cpu / alone:.1f} | {memory / 1e6:.0f} |",
                flush=True,
            )
    return well


def beside(given: argparse.Namespace, inspectors: int) -> bool:
    """A line of the second table; whether all counts are right."""
    words = [given.program, "beside", str(given.births), str(given.transfers), str(inspectors)]
    tried = [measured(words) for _ in range(given.runs)]
    found = [re.fullmatch(r"(\d+) ns longest, (\d+) ns in all, (\d+) books frozen\n", told) for _, told, *_ in tried]
    times = [it for it in found if it]
    if len(times) < len(found):
        return False
    longest, total, books = ([int(it[group]) for it in times] for group in (1, 2, 3))
    print(
        f"| {given.births:,} | {given.transfers:,} | {inspectors} | {min(total) / 1000 / given.transfers:.2f}"
        f" | {statistics.median(longest) / 1000:,.0f} | {min(books)} | {max(it[4] for it in tried) / 1e6:.0f} |"
    )
    steps = given.births + given.transfers
    right = all(printed == f"{steps} accepted, {steps} steps\n" for printed, *_ in tried)
    return right and (not inspectors or min(books) >= FEWEST_BOOKS)


def main() -> int:
    takes = argparse.ArgumentParser(description=__doc__, formatter_class=argparse.RawDescriptionHelpFormatter)
    takes.add_argument("program")
    takes.add_argument("herdbook")
    takes.add_argument("--million", action="store_true")
    takes.add_argument("--runs", type=int, default=5)
    takes.add_argument("--desks", default="1,2,4,16")
    takes.add_argument("--inspectors", default="0,1,4")
    takes.add_argument("--births", type=int, default=59_000)
    takes.add_argument("--transfers", type=int, default=20_000)
    given = takes.parse_args()
    well = True
    print("| births | desks | inspectors | calls a second | cpu, µs | by file | memory, MB |")
    print("|--:|--:|--:|--:|--:|--:|--:|")
    for births in [60_000, 1_000_000] if given.million else [60_000]:
        well &= crowds(given, births)
    print("\n| births | transfers | inspectors | a call, µs | the longest, µs | books | memory, MB |")
    print("|--:|--:|--:|--:|--:|--:|--:|")
    for inspectors in (0, 1):
        well &= beside(given, inspectors)
    return 0 if well else 1


if __name__ == "__main__":
    sys.exit(main())
