#!/usr/bin/env python3
"""Runs a herd book program on a long command file, and prints what a command costs.

    commands.sh PROGRAM [--animals 60000] [--commands 1000000] [--shapes narrow,dairy] [--runs 3] [--work FOLDER]

The file has births, and then corrections of parents, transfers and exits in turn (generate.py --further).
The program runs on the births alone and on the whole file; the least processor time (user and system)
and the greatest memory of each count. The status is 1 where a run takes 500 MB or more.
"""

from __future__ import annotations

import argparse
import collections
import os
import subprocess
import sys

from command_file import command_file, work_folder

MOST_MEMORY = 500e6


def births_and(work: str, shape: str, animals: int, further: int) -> str:
    """The command file of that shape, with so many further commands."""
    name = f"{shape}-{animals}-and-{further}.csv"
    return command_file(work, name, shape, animals, "--further", further)


def ran(program: str, file: str, out: str) -> tuple[float, int]:
    """Seconds of processor and bytes of memory of one run."""
    with open(file, "rb") as given, open(out, "wb") as taken:
        child = subprocess.Popen([program, "file"], stdin=given, stdout=taken)
        _, status, used = os.wait4(child.pid, 0)
        child.returncode = os.waitstatus_to_exitcode(status)
    if child.returncode:
        sys.exit(f"{program} ended with status {child.returncode}")
    return used.ru_utime + used.ru_stime, used.ru_maxrss * 1024


def best(program: str, file: str, out: str, runs: int) -> tuple[float, int]:
    """The least time and the greatest memory of some runs."""
    each = [ran(program, file, out) for _ in range(runs)]
    return min(it[0] for it in each), max(it[1] for it in each)


def accepted(file: str, out: str) -> str:
    """How many commands of each kind were accepted, of how many."""
    counts = collections.Counter[tuple[str, str]]()
    with open(file, "rb") as given, open(out, "rb") as replies:
        next(given)
        for command, reply in zip(given, replies, strict=True):
            kind = command.split(b",", 1)[0].decode()
            counts[kind, "all"] += 1
            counts[kind, "accepted"] += reply.endswith(b",accepted\n")
    kinds = ("birth", "parents", "transfer", "exit")
    return ", ".join(f"{it} {counts[it, 'accepted']:,} of {counts[it, 'all']:,}" for it in kinds)


def main() -> int:
    takes = argparse.ArgumentParser(description=__doc__, formatter_class=argparse.RawDescriptionHelpFormatter)
    takes.add_argument("program")
    takes.add_argument("--animals", type=int, default=60_000)
    takes.add_argument("--commands", type=int, default=1_000_000)
    takes.add_argument("--shapes", default="narrow,dairy")
    takes.add_argument("--runs", type=int, default=3)
    takes.add_argument("--work", default=work_folder())
    said = takes.parse_args()
    os.makedirs(said.work, exist_ok=True)
    program = os.path.abspath(said.program)
    out = os.path.join(said.work, "commands.out")
    print(f"program {program}, best of {said.runs}, load {os.getloadavg()[0]:.1f} on {os.cpu_count()} cores")
    is_small = True
    for shape in said.shapes.split(","):
        births = births_and(said.work, shape, said.animals, 0)
        whole = births_and(said.work, shape, said.animals, said.commands - said.animals)
        for name, file, count in (("births alone", births, said.animals), ("whole file", whole, said.commands)):
            cpu, memory = best(program, file, out, said.runs)
            is_small = is_small and memory < MOST_MEMORY
            print(
                f"{shape:8} {name:12} {count:9,} commands  cpu {cpu * 1e3:8.1f} ms, {cpu / count * 1e6:6.3f} us each"
                f"  memory {memory / 1e6:6.1f} MB"
            )
        print(f"         accepted: {accepted(whole, out)}", flush=True)
    return 0 if is_small else 1


if __name__ == "__main__":
    sys.exit(main())
