"""The files that a package has, by their paths in it, and how they are laid down with one moment for all."""
from __future__ import annotations

import os
import pathlib
from collections.abc import Mapping
from dataclasses import dataclass

PLAIN, RUN, FOLDER = 0o644, 0o755, 0o755


@dataclass(frozen=True)
class File:
    content: bytes
    mode: int = PLAIN


@dataclass(frozen=True)
class Link:
    """A name that leads to another path."""

    to: str


Files = Mapping[str, File | Link]


def text(content: str, mode: int = PLAIN) -> File:
    return File(content.encode(), mode)


def from_file(path: pathlib.Path, mode: int = PLAIN) -> File:
    return File(path.read_bytes(), mode)


def below(folder: str, files: Files) -> dict[str, File | Link]:
    """The same files in a folder."""
    return {f"{folder}/{name}": one for name, one in files.items()}


def lay_down(files: Files, at: pathlib.Path, moment: int) -> None:
    """Writes them, with modes and times of their own, whatever this process has set."""
    for name, one in sorted(files.items()):
        path = at / name
        path.parent.mkdir(parents=True, exist_ok=True)
        if isinstance(one, Link):
            path.symlink_to(one.to)
        else:
            path.write_bytes(one.content)
            path.chmod(one.mode)
    for folder, folders, names in os.walk(at, topdown=False):
        for name in [*names, *folders]:
            os.utime(pathlib.Path(folder, name), (moment, moment), follow_symlinks=False)
        pathlib.Path(folder).chmod(FOLDER)
    os.utime(at, (moment, moment))
