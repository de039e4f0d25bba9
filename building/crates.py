"""The crates of a repository, as crates.txt names them."""
from __future__ import annotations

import functools
import graphlib
import os
import pathlib
import re
import shutil

from building.telling import Stop

# Where rt keeps the library that a crate is proved as.
RLIB = pathlib.Path("out", "rlib")
# Each crate takes by itself, to read libraries, what so many bytes of sources take, and each of its functions that may
# wait for a lock or a thread takes what so many more take.
BYTES_OF_CRATE, BYTES_OF_WAIT = 40_000, 2_000
MAY_WAIT = re.compile(r"\bmay_wait=(\d+)")
TOP = pathlib.Path(__file__).resolve().parent.parent


class Crates:
    """A program and the crates of the repository that it stands on."""

    def __init__(self, program: str) -> None:
        lines = lines_of(TOP / "crates.txt")
        if program not in lines:
            raise Stop(f"crates.txt names no crate {program}: its programs are {programs(lines)}", 2)
        if not is_program(program):
            raise Stop(f"{program} is a library, and this builds programs: {programs(lines)}", 2)
        self.program = program
        self.lines = {name: lines[name] for name in lines if name in closure(lines, program)}
        self.below = {name: named(line) & {*self.lines} for name, line in self.lines.items()}
        try:
            # those below first
            self.upwards = [*graphlib.TopologicalSorter(self.below).static_order()]
        except graphlib.CycleError as error:
            raise Stop(
                f"crates.txt has crates that stand on themselves: {' > '.join(error.args[1][::-1])}", 2
            ) from None

    def all_below(self, name: str) -> set[str]:
        """A crate and all that it stands on."""
        return closure(self.lines, name)

    @functools.cached_property
    def chains(self) -> dict[str, int]:
        """The longest chain of each and of others that wait for it, by their lengths."""
        chains: dict[str, int] = {}
        for name in reversed(self.upwards):
            chains[name] = self.length(name) + max((chains[it] for it in chains if name in self.below[it]), default=0)
        return chains

    def length(self, name: str) -> int:
        """How long a crate is, in bytes of sources."""
        waits = MAY_WAIT.search(self.lines[name])
        length = BYTES_OF_CRATE + (BYTES_OF_WAIT * int(waits[1]) if waits else 0)
        return length + sum(it.stat().st_size for it in sources(folder(name)) if it.suffix == ".rt")

    def copy_to(self, room: pathlib.Path, name: str) -> None:
        """Makes a repository of a crate and those below it alone, with what is kept of their proofs."""
        wanted = [it for it in self.lines if it in self.all_below(name)]
        (room / ".git").mkdir()
        (room / "crates.txt").write_text("".join(f"{self.lines[it]}\n" for it in wanted), encoding="utf-8")
        for it in wanted:
            shutil.copytree(folder(it), room / "crates" / it, ignore=shutil.ignore_patterns("out", "must-fail"))
            if (folder(it) / RLIB).exists():
                shutil.copytree(folder(it) / RLIB, room / "crates" / it / RLIB, copy_function=link)

    def keep(self, room: pathlib.Path, name: str) -> None:
        """Keeps the library that a crate was proved as, for those above it and for later calls."""
        kept = folder(name) / RLIB
        beside, before = kept.with_name("rlib.new"), kept.with_name("rlib.old")
        for it in (beside, before):
            shutil.rmtree(it, ignore_errors=True)
        shutil.move(room / "crates" / name / RLIB, beside)
        # It isn't removed in its place: a call that is killed meanwhile would leave a part of it to be taken for all.
        if kept.exists():
            kept.rename(before)
        beside.rename(kept)
        shutil.rmtree(before, ignore_errors=True)


def lines_of(file: pathlib.Path) -> dict[str, str]:
    """The lines of crates.txt by the crate that each begins with."""
    lines = file.read_text(encoding="utf-8").splitlines()
    return {line.split(":")[0].split()[0]: line for line in lines if line.partition(":")[0].strip() and ":" in line}


def named(line: str) -> set[str]:
    """What a line of crates.txt says that its crate stands on, the kit's crates too."""
    return {*line.split(":")[1].split()}


def closure(lines: dict[str, str], name: str) -> set[str]:
    """A crate and all of these that it stands on."""
    found: set[str] = set()
    left = [name]
    while left:
        one = left.pop()
        if one in lines and one not in found:
            found.add(one)
            left += named(lines[one])
    return found


def folder(name: str, top: pathlib.Path = TOP) -> pathlib.Path:
    return top / "crates" / name


def is_program(name: str) -> bool:
    return (folder(name) / "src" / "main.rt").exists()


def programs(lines: dict[str, str]) -> str:
    return ", ".join(sorted(filter(is_program, lines)))


def sources(crate: pathlib.Path) -> list[pathlib.Path]:
    """The files of a crate's folder that are proved and built: all of these kinds but those that were made of it."""
    files = (it for kind in ("*.rt", "*.antt") for it in crate.rglob(kind))
    return [it for it in files if "out" not in it.relative_to(crate).parts]


def link(file: str, to: str) -> None:
    """Has another name lead to a file that is only read, or copies it to another file system."""
    try:
        os.link(file, to)
    except OSError:
        shutil.copy(file, to)
