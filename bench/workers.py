#!/usr/bin/env python3
"""Times the list of coefficients by one worker and by more, whole runs by the clock.

    workers.sh PROGRAM [--size 60000] [--shapes narrow,dairy,broad,deep,fullsib,pairs,founders]
               [--workers 2,4] [--block 256] [--runs 15] [--work FOLDER]

For each shape the program's `file` and its `inbreeding` by each number of workers run in turn, and the native
workers that go by sires beside them; the least of the runs counts, so that only an idle machine tells anything.

A line for each number of workers: the clock's milliseconds by one worker and by so many, the second by the first, the
same of processor time, and the speed-up of what a list takes beyond `file`: whole runs less that of `file`, of the
program and of the native one. The status is 1 where two lists differ.
"""

from __future__ import annotations

import argparse
import os
import sys

from bench import baseline, digest, ran
from command_file import command_file, work_folder

SHAPES = "narrow,dairy,broad,deep,fullsib,pairs,founders"


def book(work: str, shape: str, size: int) -> str:
    """The births of a book of that shape; founders are the narrow book's animals without their parents."""
    if shape == "founders":
        return command_file(work, f"founders-{size}.csv", "narrow", size, "--unknown", "1")
    return command_file(work, f"{shape}-{size}-60.csv", shape, size, "--depth", "60")


def jobs_of(program: str, native: str, workers: list[int], block: int) -> dict[str, list[str]]:
    """The words of each run, by its name."""
    jobs = {"file": [program, "file"], "one": [program, "inbreeding"]}
    for n in workers:
        jobs[f"x{n}"] = [program, "inbreeding", "--workers", str(n), "--block", str(block)]
    jobs["native file"] = [native, "file", "--depth", "60"]
    for n in [1, *workers]:
        jobs[f"native x{n}"] = [native, "sires", "--workers", str(n), "--block", str(block), "--depth", "60"]
    return jobs


def measured(
    jobs: dict[str, list[str]], file: str, runs: int, out: str
) -> tuple[dict[str, float], dict[str, float], dict[str, str]]:
    """The least seconds of the clock and of the processor of each job, and what it wrote."""
    wall: dict[str, float] = {}
    processor: dict[str, float] = {}
    wrote: dict[str, str] = {}
    for _ in range(runs):
        for name, words in jobs.items():
            used, took, status, told, _ = ran(words, file, out)
            if status:
                sys.exit(f"{name} ended with status {status}: {told.strip()}")
            wall[name] = min(wall.get(name, 9e9), took)
            processor[name] = min(processor.get(name, 9e9), used)
            wrote[name] = digest(out)
    return wall, processor, wrote


def speed_up(wall: dict[str, float], file: str, one: str, more: str) -> float:
    """How many times as fast a list is by more workers, beyond what the replies to the same file take."""
    return (wall[one] - wall[file]) / max(wall[more] - wall[file], 1e-6)


def main() -> int:
    takes = argparse.ArgumentParser(description=__doc__, formatter_class=argparse.RawDescriptionHelpFormatter)
    takes.add_argument("program")
    takes.add_argument("--size", type=int, default=60000)
    takes.add_argument("--shapes", default=SHAPES)
    takes.add_argument("--workers", default="2,4")
    takes.add_argument("--block", type=int, default=256)
    takes.add_argument("--runs", type=int, default=15)
    takes.add_argument("--work", default=work_folder())
    said = takes.parse_args()
    os.makedirs(said.work, exist_ok=True)
    native, workers = baseline(said.work), [int(it) for it in said.workers.split(",")]
    jobs = jobs_of(os.path.abspath(said.program), native, workers, said.block)
    load = f"load {os.getloadavg()[0]:.1f} on {os.cpu_count()} cores"
    print(f"{said.size} animals, blocks of {said.block}, least of {said.runs}, {load}")
    all_same = True
    for shape in said.shapes.split(","):
        file = book(said.work, shape, said.size)
        wall, processor, wrote = measured(jobs, file, said.runs, os.path.join(said.work, "list.out"))
        same = len({wrote[name] for name in jobs if name not in ("file", "native file")}) == 1
        all_same = all_same and same
        for n in workers:
            ours = speed_up(wall, "file", "one", f"x{n}")
            theirs = speed_up(wall, "native file", "native x1", f"native x{n}")
            print(
                f"{shape:9} x{n}: file {wall['file'] * 1e3:5.0f} one {wall['one'] * 1e3:6.0f}"
                f" x{n} {wall[f'x{n}'] * 1e3:6.0f}"
                f"  clock {wall[f'x{n}'] / wall['one']:.2f}  processor {processor[f'x{n}'] / processor['one']:.2f}"
                f"  speed-up {ours:.2f} native {theirs:.2f}  {'same bytes' if same else 'OTHER BYTES'}",
                flush=True,
            )
    return 0 if all_same else 1


if __name__ == "__main__":
    sys.exit(main())
