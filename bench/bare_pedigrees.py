#!/usr/bin/python3
"""Measures `gudokeyi inbreeding` on pedigree files beside a plain program of NumPy and C.

    bare_pedigrees.py [--sizes 60000,1000000,5000000] [--rounds 2] [--folder FOLDER] [--without-plain]

HERDBOOK names the program, which is run as it is. The files are drawn (seeded): years of births by
some sires and many dams, in any order of lines, with ids of ten characters. The plain program
(`plain_inbreeding.py`) reads one by numpy.loadtxt, numbers it by numpy.unique, and computes in C by
the method of Meuwissen and Luo (1992) in doubles; it is run beside, round by round.

`cpu` is user and system time of all processes of a call, the least of the rounds, and behind it
what it is to be at most; `memory` the most of all its processes together with what they hold in
files in memory. `apart` is the most by which a coefficient differs. The status is 1 where a time
or the memory is above what it is to be, or coefficients are more than 1e-9 apart.
"""

from __future__ import annotations

import argparse
import os
import pathlib
import subprocess
import sys
import tempfile
import time

import numpy as np

HERE = pathlib.Path(__file__).resolve().parent
# seconds of processor time that a call may take, by its animals, and bytes of memory
MOST_SECONDS = {60_000: 1.0, 1_000_000: 12.0, 5_000_000: 70.0}
MOST_MEMORY = 4e9
YEARS, MOST_APART = 30, 1e-9


def draw(count: int, path: pathlib.Path) -> None:
    """Years of births: sires of the four years before the last, a hundred a year at most, and dams of six years."""
    draws = np.random.default_rng(count)
    a_year = count // YEARS
    sires, dams = np.zeros(count, np.int64), np.zeros(count, np.int64)
    for year in range(2, YEARS + 1):
        first, last = year * a_year, min((year + 1) * a_year, count)
        size = max(0, last - first)
        bull_years = draws.integers(max(0, year - 5), year - 1, size)
        sires[first:last] = (
            1 + bull_years * a_year + (min(100, a_year // 20) * draws.random(size) ** 2).astype(np.int64)
        )
        cow_years = draws.integers(max(0, year - 7), year - 1, size)
        dams[first:last] = 1 + cow_years * a_year + a_year // 3 + draws.integers(0, a_year - a_year // 3, size)
    # bought animals
    for parents in sires, dams:
        parents[draws.random(count) < 0.1] = 0
    names = np.char.add("DE", np.char.zfill((draws.permutation(count) + 1).astype(str), 8))
    names = np.concatenate([["0"], names])
    order = draws.permutation(count)
    with open(path, "w", encoding="ascii") as file:
        file.write("id sire dam\n")
        for first in range(0, count, 100_000):
            some = order[first : first + 100_000]
            rows = zip(names[some + 1].tolist(), names[sires[some]].tolist(), names[dams[some]].tolist())
            file.write("".join(f"{id} {sire} {dam}\n" for id, sire, dam in rows))


def shared_memory() -> int:
    with open("/proc/meminfo", encoding="ascii") as lines:
        return next(1024 * int(line.split()[1]) for line in lines if line.startswith("Shmem:"))


def resident(process: int) -> int:
    """The memory of a process and of those that it started."""
    found = 0
    try:
        with open(f"/proc/{process}/statm", encoding="ascii") as file:
            found += int(file.read().split()[1]) * os.sysconf("SC_PAGESIZE")
        with open(f"/proc/{process}/task/{process}/children", encoding="ascii") as file:
            children = file.read().split()
    except (OSError, IndexError):
        return found
    return found + sum(resident(int(child)) for child in children)


def measured(words: list[str], folder: pathlib.Path) -> tuple[float, int]:
    """The processor time of a call with all that it starts, and the most memory of all of them."""
    before, peak = shared_memory(), 0
    with subprocess.Popen(words, cwd=folder, stdout=subprocess.DEVNULL, stderr=subprocess.PIPE) as child:
        while os.waitid(os.P_PID, child.pid, os.WEXITED | os.WNOHANG | os.WNOWAIT) is None:
            peak = max(peak, resident(child.pid) + max(0, shared_memory() - before))
            time.sleep(0.02)
        _, status, usage = os.wait4(child.pid, 0)
        child.returncode = os.waitstatus_to_exitcode(status)
        assert child.stderr
        told = child.stderr.read().decode()
    if child.returncode:
        raise SystemExit(f"{words}: {told}")
    return usage.ru_utime + usage.ru_stime, peak


def coefficients(path: pathlib.Path) -> np.ndarray:  # type: ignore[type-arg]
    """The decimals of a file of `id,..,decimal` or `id,decimal`, by id."""
    with open(path, encoding="ascii") as file:
        at = file.readline().rstrip().split(",").index("decimal")
        rows = sorted((line.split(",", 1)[0], line.split(",", at + 1)[at]) for line in file)
    return np.array([float(value) for _, value in rows])


def main() -> int:
    parser = argparse.ArgumentParser(description=__doc__, formatter_class=argparse.RawDescriptionHelpFormatter)
    parser.add_argument("--sizes", default="60000,1000000,5000000")
    parser.add_argument("--rounds", type=int, default=2)
    parser.add_argument("--folder", type=pathlib.Path)
    parser.add_argument("--without-plain", action="store_true")
    given = parser.parse_args()
    folder = given.folder or pathlib.Path(tempfile.mkdtemp())
    is_well = True
    print(
        "| animals | cpu, s | at most | memory, MB | plain cpu, s | plain memory, MB | apart |\n|--:|--:|--:|--:|--:|--:|--:|"
    )
    for size in map(int, given.sizes.split(",")):
        file = folder / f"{size}.txt"
        if not file.exists():
            draw(size, file)
        ours = [str(HERE.parent / "gudokeyi"), "inbreeding", str(file), "--out", "ours.csv", "--force"]
        plain = ["/usr/bin/python3", str(HERE / "plain_inbreeding.py"), str(file), "plain.csv"]
        times: dict[str, list[tuple[float, int]]] = {"ours": [], "plain": []}
        for _ in range(given.rounds):
            times["ours"].append(measured(ours, folder))
            times["plain"] += [] if given.without_plain else [measured(plain, folder)]
        seconds, memory = (min(column) for column in zip(*times["ours"]))
        row = f"| {size:,} | {seconds:.2f} | {MOST_SECONDS.get(size, 0):g} | {memory / 1e6:.0f} "
        is_well &= memory <= MOST_MEMORY and seconds <= MOST_SECONDS.get(size, seconds)
        if not given.without_plain:
            plain_seconds, plain_memory = (min(column) for column in zip(*times["plain"]))
            apart = float(np.abs(coefficients(folder / "ours.csv") - coefficients(folder / "plain.csv")).max())
            is_well &= apart <= MOST_APART
            row += f"| {plain_seconds:.2f} | {plain_memory / 1e6:.0f} | {apart:.1e} "
        print(f"{row}|", flush=True)
    return 0 if is_well else 1


if __name__ == "__main__":
    sys.exit(main())
