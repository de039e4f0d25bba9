#!/usr/bin/env python3
"""Measures what births, freezing and corrections take in a pedigree: processor time and memory.

    pedigree.sh [PROGRAM] [--sizes 5000,20000,60000] [--corrections 20000] [--runs 5]

PROGRAM is the executable of the crate pedigree_timing, as `rt run` leaves it. It is run as it is:
nothing is proved or built. Each line is a run of it: `births` of a few pairs and of their calves in
no order of age, `freeze` of their book, `corrections` of the first animals of lines of 60, each of
which changes 60 depths.

`cpu` is the least processor time of several runs; of `freeze` and `corrections` that of the same
births is taken off. `each` is that time for one animal, or for one correction. `bytes` is the most
memory that a run had less that of a run with one animal, for each animal. The program prints how
many animals there are; the status is 1 where that isn't the number that was asked for.
"""

from __future__ import annotations

import argparse
import fcntl
import os
import subprocess
import sys
import time
from typing import Iterator

HERE = os.path.dirname(os.path.abspath(__file__))
PROGRAM = os.path.join(HERE, "..", "crates", "pedigree_timing", "out", "pedigree_timing")
PIPE = 4096


def full_pipe() -> tuple[int, int]:
    """A pipe with no room left, so that a program waits before it prints."""
    reader, writer = os.pipe()
    fcntl.fcntl(writer, fcntl.F_SETPIPE_SZ, PIPE)
    os.write(writer, bytes(PIPE))
    return reader, writer


def peak_once_it_waits(process: int) -> int:
    """The most memory that a process had, in bytes, once it waits to print or has ended."""
    peak = 0
    while True:
        with open(f"/proc/{process}/status", encoding="ascii") as status:
            fields = dict(line.split(":", 1) for line in status)
        peak = max(peak, 1024 * int(fields.get("VmHWM", "0").split()[0]))
        if fields["State"].split()[0] in "SZ":
            return peak
        time.sleep(0.001)


def measured(words: list[str]) -> tuple[str, float, int]:
    """What a run prints, its processor time in seconds, and the most memory that it had in bytes.

    The system's own figure of a child's memory counts what this script had when it started it."""
    reader, writer = full_pipe()
    with subprocess.Popen(words, stdout=writer) as child:
        os.close(writer)
        peak = peak_once_it_waits(child.pid)
        with open(reader, "rb") as output:
            printed = output.read()[PIPE:].decode().strip()
        _, status, usage = os.wait4(child.pid, 0)
        child.returncode = os.waitstatus_to_exitcode(status)
    return printed, usage.ru_utime + usage.ru_stime, peak


def best(words: list[str], runs: int) -> tuple[float, int, bool]:
    """The least time and the least memory of several runs, and whether each printed its number."""
    tried = [measured(words) for _ in range(runs)]
    well = all(printed == words[2] for printed, _, _ in tried)
    return min(cpu for _, cpu, _ in tried), min(peak for _, _, peak in tried), well


def tasks(size: int, corrections: int) -> Iterator[tuple[list[str], list[str] | None, int]]:
    """For a book of this size: the words, those of what is taken off, and how often it is done."""
    births = ["births", str(size)]
    yield births, None, size
    yield ["freeze", str(size)], births, size
    yield ["corrections", str(size), str(corrections)], ["corrections", str(size), "0"], corrections


def main() -> int:
    parser = argparse.ArgumentParser(description=__doc__, formatter_class=argparse.RawDescriptionHelpFormatter)
    parser.add_argument("program", nargs="?", default=PROGRAM)
    parser.add_argument("--sizes", default="5000,20000,60000")
    parser.add_argument("--corrections", type=int, default=20000)
    parser.add_argument("--runs", type=int, default=5)
    given = parser.parse_args()
    empty = best([given.program, "births", "1"], given.runs)[1]
    all_well = True
    print("| task | animals | cpu, ms | each, µs | bytes an animal |\n|---|--:|--:|--:|--:|")
    for size in map(int, given.sizes.split(",")):
        for words, before, count in tasks(size, given.corrections):
            cpu, peak, well = best([given.program, *words], given.runs)
            if before is not None:
                cpu -= best([given.program, *before], given.runs)[0]
            all_well &= well
            each = 1_000_000 * cpu / count
            print(f"| {words[0]} | {size:,} | {1000 * cpu:.1f} | {each:.2f} | {(peak - empty) / size:.0f} |")
    return 0 if all_well else 1


if __name__ == "__main__":
    sys.exit(main())
