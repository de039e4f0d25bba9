"""What a program is built of: lines of crates.txt, and sources with their checksums."""
from __future__ import annotations

import hashlib
import pathlib
from typing import Iterable

from building.crates import TOP, Crates, folder, sources


def checksums(name: str, top: pathlib.Path = TOP) -> list[str]:
    """The lines of `b2sum` for the sources of a crate, in the repository or in a copy of it."""
    return [f"{checksum(file)}  {file.relative_to(top).as_posix()}" for file in sources(folder(name, top))]


def checksum(file: pathlib.Path) -> str:
    return hashlib.blake2b(file.read_bytes()).hexdigest()


def text_of(crates: Crates, summed: Iterable[str]) -> str:
    """What is left beside a program for `herdbook` and later builds: its lines of crates.txt behind a #, so that
    `b2sum --check` passes them over, and then its sources by their paths."""
    lines = [f"# {line}" for _, line in sorted(crates.lines.items())]
    by_path = sorted(summed, key=lambda line: line.partition("  ")[2])
    return "".join(f"{line}\n" for line in [*lines, *by_path])


def text_now(crates: Crates) -> str:
    """What is to be left beside a program that is built of what the repository has now."""
    return text_of(crates, (line for name in crates.lines for line in checksums(name)))
