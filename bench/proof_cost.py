#!/usr/bin/env python3
"""Prints what proofs cost: each crate in the gate, or the dearest functions of crates.

    proof_cost.py gate [--of PID]
    proof_cost.py functions CRATE.. [--most 20] [--tests]

Both run at the top of the repository, on an idle machine. `gate` runs `rt ci`, or watches one that runs already, and
prints minutes of the processor for each crate: its proof, the proof and building of its tests, its must-fail edits (the
crate's second proof among them), all. It looks twice a second, so what a process takes after the last look isn't counted.

`functions` proves each crate from nothing in one process, over what is kept of the libraries below it, and prints seconds
by the clock: the prover writes a file for each part of each function, and a part took what lies between its file and the
one before. Of the parts, `Lts` is the walk over borrows, `Proof` what answers and automatic search take, `Tie` the code's
link with its contract. With `--tests` each crate is proved with its tests."""
from __future__ import annotations

import argparse
import collections
import os
import pathlib
import re
import shutil
import subprocess
import sys
import tempfile
import time
from typing import Iterator

TICKS = os.sysconf("SC_CLK_TCK")
KINDS = ("proof", "tests", "edits")
SECONDS_BETWEEN_LOOKS = 0.5
# a module's files, as in Rattle-herd_pool-proofs.crew.start_all.Proof.oantt and .Proof.decls.oantt: the first that is
# written took the time
MODULE = re.compile(r"Rattle-\w+-proofs\.(.+?)\.([A-Z]\w*(?:\.[A-Z]\w*)*)(?:\.decls)?\.oantt")


def below(pid: int) -> Iterator[int]:
    """A process and all that it started."""
    yield pid
    try:
        tasks = os.listdir(f"/proc/{pid}/task")
        started = [int(it) for task in tasks for it in open(f"/proc/{pid}/task/{task}/children").read().split()]
    except OSError:
        return
    for it in started:
        yield from below(it)


def seconds_of(pid: int) -> float:
    """What a process and those that it has waited for took of the processor."""
    fields = open(f"/proc/{pid}/stat").read().rpartition(")")[2].split()
    return sum(int(it) for it in fields[11:15]) / TICKS


def part_of_gate(pid: int) -> tuple[str, str] | None:
    """The crate and the kind of work of a prover that the gate started itself, if this is one."""
    words = open(f"/proc/{pid}/cmdline").read().split("\0")
    if os.path.basename(words[0]) != "rattle" or "--crate-name" not in words:
        return None
    kind = "tests" if "--test" in words else "edits" if "rt-edit-" in os.readlink(f"/proc/{pid}/cwd") else "proof"
    return words[words.index("--crate-name") + 1], kind


def look(gate: int, found: dict[tuple[int, str, str], float]) -> None:
    """Notes what each prover of the gate has taken by now."""
    inside: set[int] = set()
    for pid in below(gate):
        try:
            named = None if pid in inside else part_of_gate(pid)
            if named:
                # copies of a prover count with it
                copies = [*below(pid)]
                inside.update(copies)
                found[pid, *named] = sum(map(seconds_of, copies))
        except (OSError, ProcessLookupError):
            continue


def print_gate(gate: int) -> None:
    """Watches a gate until it ends, and prints its table."""
    found: dict[tuple[int, str, str], float] = {}
    while os.path.exists(f"/proc/{gate}"):
        look(gate, found)
        time.sleep(SECONDS_BETWEEN_LOOKS)
    minutes: dict[str, collections.Counter[str]] = collections.defaultdict(collections.Counter)
    for (_, crate, kind), seconds in found.items():
        minutes[crate][kind] += seconds / 60
        minutes["all"][kind] += seconds / 60
    print(f"{'crate':28}{''.join(f'{it:>8}' for it in (*KINDS, 'all'))}")
    for crate, by_kind in sorted(minutes.items(), key=lambda it: it[1].total()):
        figures = [*(by_kind[kind] for kind in KINDS), by_kind.total()]
        print(f"{crate:28}{''.join(f'{it:8.1f}' for it in figures)}", flush=True)


def run_gate(pid: int | None) -> int:
    if pid is not None:
        print_gate(pid)
        return 0
    with subprocess.Popen(["rt", "ci"], stdout=sys.stderr) as gate:
        # the entry of a process that ended stays until it is waited for, so another process watches
        watch = subprocess.Popen([sys.executable, __file__, "gate", "--of", str(gate.pid)])
        status = gate.wait()
    watch.wait()
    return status


def parts(kept: pathlib.Path) -> Iterator[tuple[str, str, float]]:
    """Each function's parts with their seconds, by the times at which their files were written."""
    written = sorted((it.stat().st_mtime, it.name) for it in kept.rglob("*.oantt"))
    for (before, _), (at, name) in zip(written, written[1:]):
        named = MODULE.fullmatch(name)
        if named:
            yield named[1], named[2].partition(".")[0], at - before


def proved_from_nothing(crate: str, kept: pathlib.Path, more: list[str]) -> bool:
    """Proves a crate in one process, over libraries that stand; what its own earlier checks kept lies aside meanwhile."""
    own = pathlib.Path("crates", crate, "out", "incremental")
    aside = kept / "aside"
    if own.exists():
        shutil.move(own, aside)
    try:
        words = ["rt", "check", "--jobs", "1", *more]
        ran = subprocess.run(words, cwd=f"crates/{crate}", stdout=subprocess.PIPE, text=True)
        if own.exists():
            shutil.move(own, kept / "made")
        return ran.returncode == 0
    finally:
        if aside.exists():
            shutil.move(aside, own)


def print_functions(crates: list[str], most: int, more: list[str]) -> int:
    by_function: dict[tuple[str, str], collections.Counter[str]] = collections.defaultdict(collections.Counter)
    for crate in crates:
        with tempfile.TemporaryDirectory() as room:
            if not proved_from_nothing(crate, pathlib.Path(room), more):
                print(f"{crate} is not proved: rt check in crates/{crate} says why", file=sys.stderr)
                return 1
            for function, part, seconds in parts(pathlib.Path(room, "made")):
                by_function[crate, function][part] += seconds
    for (crate, function), by_part in sorted(by_function.items(), key=lambda it: -it[1].total())[:most]:
        told = ", ".join(f"{part} {seconds:.1f}" for part, seconds in by_part.most_common(3))
        print(f"{by_part.total():7.1f}  {crate}::{function.replace('.', '::')}  ({told})")
    return 0


def main() -> int:
    parser = argparse.ArgumentParser(description=__doc__, formatter_class=argparse.RawDescriptionHelpFormatter)
    tables = parser.add_subparsers(dest="table", required=True)
    gate = tables.add_parser("gate")
    gate.add_argument("--of", type=int, metavar="PID")
    functions = tables.add_parser("functions")
    functions.add_argument("crates", nargs="+", metavar="CRATE")
    functions.add_argument("--most", type=int, default=20)
    functions.add_argument("--tests", action="store_const", const=["--test"], default=[])
    words = parser.parse_args()
    if words.table == "gate":
        return run_gate(words.of)
    return print_functions(words.crates, words.most, words.tests)


if __name__ == "__main__":
    sys.exit(main())
