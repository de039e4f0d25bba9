"""Writes files, each whole or not at all, and none that is wanted for something else."""
from __future__ import annotations

import contextlib
import errno
import os
import pathlib
import re
import time
from collections.abc import Collection, Iterable, Sequence

from gudokeyi.domain.cells import column_for_spreadsheets, csv_text
from gudokeyi.domain.changes import Source
from gudokeyi.domain.messages import Mistake
from gudokeyi.store.messages import BookFault

# what a disk says that can't give a file two names, as memory sticks and some shares can't
NO_LINKS = (errno.EPERM, errno.EOPNOTSUPP, errno.ENOSYS)
# so many make the name beside a place that nobody knows before
RANDOM_BYTES = 8
BESIDE = re.compile(rf"\.(.+)\.[0-9a-f]{{{2 * RANDOM_BYTES}}}")
# so old, in seconds, is no file there that somebody still writes
LEFT = 3600


def table(
    titles: list[str], columns: Iterable[Sequence[object]], semicolons: bool = False, order: Sequence[int] | None = None
) -> bytes:
    """A file of columns below their titles, in an order of their rows' places if one is given; spreadsheets that want
    semicolons tell UTF-8 by a byte-order mark."""
    text = csv_text(titles, map(column_for_spreadsheets, columns), ";" if semicolons else ",", order)
    return text.encode("utf-8-sig" if semicolons else "utf-8")


def has_titles(path: pathlib.Path, titles: list[str]) -> bool:
    """Are these the titles of a file, with commas or with semicolons?"""
    try:
        with open(path, encoding="utf-8-sig") as file:
            first = file.readline().strip()
    except (OSError, ValueError):
        return False
    return first in (",".join(titles), ";".join(titles))


def put(path: pathlib.Path, text: bytes, changed: int | None = None, replaces: bool = True) -> None:
    """Writes a file beside its place, under a name that nobody knows before, and then puts it there. `changed` is the
    time at which it was changed. Where it doesn't replace another, one that is there is a `FileExistsError`."""
    # whoever asks the book would wait for it
    import secrets

    beside = path.with_name(f".{path.name[:100]}.{secrets.token_hex(RANDOM_BYTES)}")
    try:
        descriptor = os.open(beside, os.O_WRONLY | os.O_CREAT | os.O_EXCL | os.O_NOFOLLOW | os.O_CLOEXEC, 0o666)
        with open(descriptor, "wb") as file:
            file.write(text)
            file.flush()
            if changed is not None:
                os.utime(descriptor, ns=(changed, changed))
            os.fsync(descriptor)
        if replaces:
            os.replace(beside, path)
        else:
            name_once(beside, path)
    except OSError:
        with contextlib.suppress(OSError):
            beside.unlink()
        raise
    sync_folder(path.parent)


def kept_beside(path: pathlib.Path) -> pathlib.Path | None:
    """What is in a file's place, under a second name there until that goes; none where nothing is."""
    import secrets

    if not path.is_file():
        return None
    beside = path.with_name(f".{path.name[:100]}.{secrets.token_hex(RANDOM_BYTES)}")
    try:
        os.link(path, beside, follow_symlinks=False)
    except OSError as error:
        if error.errno not in NO_LINKS:
            raise
        beside.write_bytes(path.read_bytes())
    return beside


def take_away_left(folder: pathlib.Path, mine: Collection[str], others: Collection[str]) -> None:
    """Takes away what calls that were killed left beside the places of some files: of those that nobody but the caller
    writes now, and of others what is old."""
    with contextlib.suppress(OSError), os.scandir(folder) as entries:
        for entry in entries:
            found = BESIDE.fullmatch(entry.name)
            if not found or found[1] not in (*mine, *others) or not entry.is_file(follow_symlinks=False):
                continue
            # the time at which a file was changed may be given to it; this one can't be
            if found[1] in mine or time.time() - entry.stat(follow_symlinks=False).st_ctime > LEFT:
                os.unlink(entry.path)


def name_once(beside: pathlib.Path, path: pathlib.Path) -> None:
    """Gives a file a name that nothing has; where something has it, that stays, and this is a `FileExistsError`."""
    try:
        os.link(beside, path)
    except OSError as error:
        if error.errno not in NO_LINKS:
            raise
        # an empty file has the name first, so that nobody else takes it
        os.close(os.open(path, os.O_WRONLY | os.O_CREAT | os.O_EXCL | os.O_CLOEXEC, 0o666))
        try:
            os.replace(beside, path)
        except OSError:
            path.unlink()
            raise
        return
    # it is written, also where the name beside it stays
    with contextlib.suppress(OSError):
        beside.unlink()


def sync_folder(folder: pathlib.Path) -> None:
    """What was put into a folder stays there, whatever happens to the machine."""
    descriptor = os.open(folder, os.O_RDONLY | os.O_DIRECTORY)
    try:
        os.fsync(descriptor)
    finally:
        os.close(descriptor)


def digest_of(text: bytes) -> str:
    import hashlib

    return hashlib.sha256(text).hexdigest()


def place_of(path: pathlib.Path) -> str:
    """Where a file is, as it is kept. Bytes of a folder's name that aren't UTF-8 text are told by their numbers."""
    return os.fsencode(path.resolve()).decode(errors="backslashreplace")


def source_of(path: pathlib.Path, text: bytes) -> Source:
    """What is kept of a file that was read."""
    return Source(path.name, place_of(path), digest_of(text))


def cant_be_written(path: pathlib.Path, error: OSError) -> Mistake:
    return Mistake(BookFault.FILE_CLOSED.said(path=path, error=error))
