"""A file that somebody gave, as it was read: once, since it may be a pipe, or another file a moment later; and how
large it may be."""
from __future__ import annotations

import itertools
import pathlib
from collections.abc import Callable, Sequence
from dataclasses import dataclass, field
from typing import BinaryIO

from gudokeyi.domain.messages import Mistake
from gudokeyi.ingest.messages import SheetFault

# How large a file of a society may be: a sheet, a pedigree, or a list of animals.

# bytes of the file, rows, and letters of a cell
MOST_BYTES, MOST_ROWS, MOST_LETTERS = 50_000_000, 200_000, 10_000
# cells of a workbook or of a text, also empty ones between others, and those of a row, as many as a spreadsheet has
MOST_CELLS, MOST_COLUMNS = 4_000_000, 16_384
# bytes of a backup, which has a book's whole history: 64 MB of 60,000 animals that were taken once
MOST_BACKUP_BYTES = 500_000_000


def read_bytes(path: pathlib.Path) -> bytes:
    """All that a file of a society has, which may be a pipe."""
    return read_by(path, lambda file: bounded(path, file))


def read_all(path: pathlib.Path) -> bytes:
    """All that a file has, however large."""
    return read_by(path, lambda file: file.read())


def read_by(path: pathlib.Path, read: Callable[[BinaryIO], bytes]) -> bytes:
    try:
        with open(path, "rb") as file:
            return read(file)
    except IsADirectoryError:
        raise Mistake(SheetFault.IS_FOLDER.said(path=path)) from None
    except OSError as error:
        raise Mistake(SheetFault.CANT_BE_READ.said(path=path, error=error)) from None


def bounded(path: pathlib.Path, file: BinaryIO) -> bytes:
    """All that comes of it; a mistake where that is more than a sheet of a society has."""
    data = file.read(MOST_BYTES + 1)
    if len(data) > MOST_BYTES:
        size = path.stat().st_size if path.is_file() else len(data)
        raise Mistake(SheetFault.TOO_LARGE.said(path=path, size=round(size / 1e6), most=round(MOST_BYTES / 1e6)))
    return data


def check_bounds(path: pathlib.Path, rows: Sequence[tuple[int, list[str]]], titles: int) -> None:
    """A mistake where rows, each with its line, are more than a sheet of a society has. The first ones, up to the
    titles, don't count."""
    if len(rows) - titles > MOST_ROWS:
        raise Mistake(SheetFault.TOO_MANY_ROWS.said(path=path, rows=len(rows) - titles, most=MOST_ROWS))
    widths = [len(cells) for _, cells in rows]
    if sum(widths) > MOST_CELLS or max(widths, default=0) > MOST_COLUMNS:
        raise Mistake(SheetFault.TOO_MANY_CELLS.said(path=path, most=MOST_CELLS))
    if max(map(len, itertools.chain.from_iterable(cells for _, cells in rows)), default=0) > MOST_LETTERS:
        line = next(line for line, cells in rows if max(map(len, cells), default=0) > MOST_LETTERS)
        raise Mistake(SheetFault.LONG_CELL.said(line=line, most=MOST_LETTERS))


# A file that somebody gave, as it was read: once, since it may be a pipe, or another file a moment later.


@dataclass(frozen=True)
class GivenFile:
    """What the file had, and its path, by which it is told of."""

    path: pathlib.Path
    data: bytes = field(repr=False)

    def is_zipped(self) -> bool:
        """So are the files of spreadsheets."""
        return self.data.startswith(b"PK")

    def is_workbook(self) -> bool:
        """Is it an .xlsx file? Whether it can be read at all is told later."""
        return self.is_zipped() and self.path.suffix.lower() != ".ods"


def read_file(path: pathlib.Path) -> GivenFile:
    return GivenFile(path, read_bytes(path))
