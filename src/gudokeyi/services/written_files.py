"""Files that are written for somebody: where one may be, and all of them or none."""
from __future__ import annotations

import contextlib
import pathlib

from gudokeyi.domain.messages import Mistake
from gudokeyi.store.files import cant_be_written, kept_beside, put


def write_beside(file: pathlib.Path, texts: dict[pathlib.Path, bytes], force: bool) -> None:
    """Writes what was made of a file, which is never written over, nor another one unless that is wished."""
    for path in texts:
        check_path(path)
        if is_one_of(path, [file]):
            raise Mistake(f"{path} is the file that was read, and is never written over: name another one")
        if (path.exists() or path.is_symlink()) and not force:
            raise is_there(path)
    write_all(texts, force)


def write_all(texts: dict[pathlib.Path, bytes], force: bool) -> None:
    """Writes files, or none of them: one that was there is then as it was."""
    written: dict[pathlib.Path, pathlib.Path | None] = {}
    try:
        for path, text in texts.items():
            try:
                before = kept_beside(path) if force else None
                written[path] = before
                put(path, text, replaces=force)
            except OSError as error:
                put_back(written, path)
                raise is_there(path) if isinstance(error, FileExistsError) else cant_be_written(path, error) from None
    finally:
        for before in written.values():
            if before:
                before.unlink(missing_ok=True)


def put_back(written: dict[pathlib.Path, pathlib.Path | None], failed: pathlib.Path) -> None:
    """Takes away what was written before a file failed, and puts those back that were there."""
    for path, before in written.items():
        with contextlib.suppress(OSError):
            if path != failed and before:
                before.replace(path)
            elif path != failed:
                path.unlink()


def check_path(path: pathlib.Path) -> None:
    """A mistake where no file can be written."""
    if not path.parent.is_dir():
        raise Mistake(f"{path} can't be written: there is no folder {path.parent}: make it, or name another file")
    if path.is_dir():
        raise Mistake(f"{path} can't be written: it is a folder: name a file")
    # a device would be replaced by a file, and a pipe read for ever
    if path.exists() and not path.is_file():
        raise Mistake(f"{path} can't be written: it isn't an ordinary file: name another one")


def is_there(path: pathlib.Path) -> Mistake:
    return Mistake(f"{path} is there already: name another file, or write over it with --force")


def is_one_of(path: pathlib.Path, files: list[pathlib.Path]) -> bool:
    """Is a file one of these, by its name or by a link?"""
    place = path.resolve()
    return any(place == one.resolve() or (path.exists() and one.exists() and path.samefile(one)) for one in files)
