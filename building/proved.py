"""How many functions of a crate were proved, and by which kit: a line that is kept beside what came of the proof, with
a checksum of the sources that it tells of."""
from __future__ import annotations

import contextlib
import hashlib
import os
import pathlib
import re
import subprocess
from collections.abc import Iterable, Iterator
from dataclasses import dataclass

from building.built import checksums
from building.crates import folder

COUNTED = re.compile(r"logic=proved\b.*?\bfunctions=(\d+)")
PROVED = re.compile(r"rt: (\w+) proved")
LINE = re.compile(r"functions=(\d+) sources=(\w+) kit=(.*)\n")


@dataclass(frozen=True)
class Proof:
    """The prover counts what a contract stands for, also what macros and types make of one."""

    functions: int
    kit: str


def kit() -> str:
    """The kit's one line about itself."""
    return subprocess.run(["rt", "version"], capture_output=True, text=True, errors="replace").stdout.strip()


def digest(summed: Iterable[str]) -> str:
    return hashlib.blake2b("\n".join(summed).encode()).hexdigest()


def counted(told: Iterable[str]) -> int | None:
    """The functions that a proof of one crate told of."""
    found = [int(one[1]) for one in map(COUNTED.match, told) if one]
    return found[-1] if found else None


def counted_by_gate(told: Iterable[str]) -> Iterator[tuple[str, int]]:
    """The crates of which the gate told, with their functions."""
    functions: int | None = None
    for line in told:
        count, proved = COUNTED.match(line), PROVED.match(line)
        if count:
            functions = int(count[1])
        elif proved and functions is not None:
            yield proved[1], functions
            functions = None


def places(name: str, digest: str) -> tuple[pathlib.Path, pathlib.Path]:
    """Where it is kept: beside the crate, and for other clones on this machine, where a gate that has proved the same
    sources before doesn't count them again."""
    given = os.environ.get("XDG_CACHE_HOME")
    cache = pathlib.Path(given) if given else pathlib.Path.home() / ".cache"
    return folder(name) / "out/proved", cache / f"herdbook-check/proved/{name}-{digest[:32]}"


def keep(name: str, functions: int, kit: str, summed: Iterable[str]) -> None:
    """Keeps what is known of the proof of a crate's sources."""
    sources = digest(summed)
    for path in places(name, sources):
        with contextlib.suppress(OSError):
            path.parent.mkdir(parents=True, exist_ok=True)
            path.write_text(f"functions={functions} sources={sources} kit={kit}\n", encoding="utf-8")


def kept(name: str) -> Proof | None:
    """What is known of the proof of a crate as it is now."""
    sources = digest(checksums(name))
    for path in places(name, sources):
        with contextlib.suppress(OSError):
            found = LINE.fullmatch(path.read_text(encoding="utf-8"))
            if found and found[2] == sources:
                return Proof(int(found[1]), found[3])
    return None
