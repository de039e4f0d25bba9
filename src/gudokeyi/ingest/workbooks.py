"""Reads `.xlsx` files by openpyxl: which worksheet, and each cell as the spreadsheet shows it. Cells are counted before
they are made, since a file of few bytes may ask for very many."""
from __future__ import annotations

import contextlib
import datetime
import importlib
import io
import itertools
import lzma
import pathlib
import re
import xml.parsers.expat
import zipfile
import zlib
from collections import Counter
from collections.abc import Callable, Collection, Mapping
from typing import Any, NamedTuple

from gudokeyi.domain.cells import from_spreadsheets
from gudokeyi.domain.findings import ImportRefused
from gudokeyi.domain.messages import Mistake
from gudokeyi.ingest.files import MOST_CELLS, MOST_ROWS
from gudokeyi.ingest.fills import filled_lines
from gudokeyi.ingest.findings.columns import SheetFinding
from gudokeyi.ingest.findings.files import DigitsLost, FormulasWithoutValue, NotesAtCells, StruckWithin
from gudokeyi.ingest.findings.worksheets import WorksheetLacks, WorksheetUnclear
from gudokeyi.ingest.messages import SheetFault
from gudokeyi.ingest.number_formats import number_text
from gudokeyi.ingest.other_worksheets import OtherIds, are_titles_of_animals, ids_below
from gudokeyi.ingest.shown_cells import Shown, shown_cells
from gudokeyi.ingest.struck_texts import Place, Struck, StruckText, number_of, struck_texts
from gudokeyi.ingest.texts import clean
from gudokeyi.ingest.exit_words import says_exits

# What the parts of a workbook would become: their cells are counted before they are made, since a file of few bytes may
# ask for very many.

# so many bytes the parts of a file have at most, unpacked, and so many are read at once
MOST_UNPACKED, AT_ONCE = 400_000_000, 256 << 10
# what stands between two angle brackets is read again and again until its end is there
LONGEST_TAG = 256 << 10
# what a part is that isn't XML, or is damaged
UNREAD = (
    xml.parsers.expat.ExpatError, zipfile.BadZipFile, zlib.error, lzma.LZMAError, EOFError, OSError,
    NotImplementedError, RuntimeError,
)  # fmt: skip
# so many rows has a sheet with what stands above its titles
MOST_LINES = MOST_ROWS + 1000
# elements of which much is made, each with as how many cells it counts: those of a kind are bounded together
WEIGHTS = {
    "c": 1, "si": 1, "row": MOST_CELLS // MOST_LINES, "xf": 10, "definedName": 10, "Relationship": 10, "tablePart": 100,
    "sheet": 100,
}  # fmt: skip
# elements with the text of a cell, which many cells may have together, and how many letters one has at most
OF_TEXT, MOST_IN_TEXT = ("si", "c"), 100_000
# what strikes letters through, within the text of a cell and elsewhere
STRIKE = "strike"
# elements that make all cells of a range
OF_RANGE = ("mergeCell", "hyperlink", "comment")
RANGE = re.compile(r"\$?([A-Z]{1,3})\$?([0-9]{1,7}):\$?([A-Z]{1,3})\$?([0-9]{1,7})")


def check_unpacked(path: pathlib.Path, data: bytes) -> bool:
    """Is a part of a cell's text struck through? A mistake where a small file would become a very large one."""
    try:
        with zipfile.ZipFile(io.BytesIO(data)) as archive:
            size = sum(one.file_size for one in archive.infolist())
            if size > MOST_UNPACKED:
                most = round(MOST_UNPACKED / 1e6)
                raise Mistake(SheetFault.UNPACKED.said(path=path, size=round(size / 1e6), most=most))
            cells = Cells(path)
            for part in archive.infolist():
                cells.count(archive, part)
            return cells.are_struck
    except zipfile.BadZipFile:
        # openpyxl tells what is wrong with it
        return False


class Cells:
    """Counts those of all worksheets, and what else is made of elements."""

    def __init__(self, path: pathlib.Path) -> None:
        self.path, self.found = path, Counter[str]()
        # how many letters the text has that is read; none where it isn't a cell's
        self.letters: int | None = None
        self.are_struck = False

    def count(self, archive: zipfile.ZipFile, part: zipfile.ZipInfo) -> None:
        parser = xml.parsers.expat.ParserCreate(namespace_separator=" ")
        parser.StartElementHandler, parser.EndElementHandler = self.begin, self.end
        parser.CharacterDataHandler, parser.buffer_text = self.read_text, True
        parser.StartDoctypeDeclHandler = self.refuse
        given, self.letters = 0, None
        try:
            with archive.open(part) as file:
                while text := file.read(AT_ONCE):
                    parser.Parse(text, False)
                    given += len(text)
                    if given - max(parser.CurrentByteIndex, 0) > LONGEST_TAG:
                        self.refuse()
        except UNREAD:
            # openpyxl tells what is wrong with it, if it reads this part
            return

    def begin(self, name: str, attributes: dict[str, str]) -> None:
        kind = name.rpartition(" ")[2]
        if kind in OF_TEXT:
            self.letters = 0
        if kind in WEIGHTS:
            self.add(kind, WEIGHTS[kind])
        elif kind in OF_RANGE:
            count = cells_of(attributes.get("ref", ""))
            if count is None:
                self.refuse()
            else:
                self.add("c", count)
        elif kind == STRIKE and self.letters is not None:
            self.are_struck = True

    def end(self, name: str) -> None:
        if name.rpartition(" ")[2] in OF_TEXT:
            self.letters = None

    def read_text(self, text: str) -> None:
        if self.letters is not None:
            self.letters += len(text)
            if self.letters > MOST_IN_TEXT:
                self.refuse()

    def add(self, kind: str, count: int) -> None:
        self.found[kind] += count
        if self.found[kind] > MOST_CELLS:
            raise Mistake(SheetFault.TOO_MANY_CELLS.said(path=self.path, most=MOST_CELLS))

    def refuse(self, *_: object) -> None:
        """A mistake where a part is written as no spreadsheet writes it."""
        raise odd(self.path)


def odd(path: pathlib.Path) -> Mistake:
    return Mistake(SheetFault.NO_WORKBOOK.said(path=path, error="it is written as no spreadsheet writes it"))


def cells_of(ref: str) -> int | None:
    """How many a range has, as `A1:C5`; none where it is written otherwise, as one without an end is."""
    found = RANGE.fullmatch(ref.upper())
    if found is None:
        return None if ":" in ref else 1
    (first, last), (top, bottom) = sorted(map(number_of, found.group(1, 3))), sorted(map(int, found.group(2, 4)))
    return (last - first + 1) * (bottom - top + 1)


# Reads `.xlsx` files by openpyxl: which worksheet, and each cell as the spreadsheet shows it.

# a number with more digits than a spreadsheet keeps
TOO_LONG = 10**15
# so great a part of a row's cells is struck through where the row is, but for empty ones
NEARLY_ALL = 0.75
# what stands between quotation marks, brackets or behind a backslash in a format isn't part of a date
QUOTED = re.compile(r'"[^"]*"|\[[^\]]*\]|\\.')
Score = Callable[[list[str]], int]
# rows with their numbers, by the titles of worksheets, and of so many rows at most
RowsOfExits = Mapping[str, list[tuple[int, list[str]]]]
MOST_OF_EXITS = 2000
# the first rows of worksheets, by their titles
Tops = Mapping[str, list[list[str]]]


class Formulas(NamedTuple):
    """The cells with a formula that has no value, by the places of their columns, from 0 on."""

    worksheet: str = ""
    cells: Mapping[int, list[str]] = {}

    def told(self, columns: Collection[int]) -> list[SheetFinding]:
        """What keeps a sheet from being taken of which these columns are read."""
        found = [cell for at in columns for cell in self.cells.get(at, [])]
        return [FormulasWithoutValue(self.worksheet, len(found), found[0])] if found else []


class Worksheet(NamedTuple):
    """The rows of a worksheet that have a cell with text, each with its number, and which one it is, in words."""

    rows: list[tuple[int, list[str]]]
    how: str
    faults: list[SheetFinding]
    formulas: Formulas
    # what its cells show besides their text
    unread: list[SheetFinding]
    # the numbers of rows that are filled grey
    grey: list[int]
    # and of those that have a fill of another colour, which has a number too
    colored: Mapping[int, int]
    # and of those that it hides
    hidden: list[int]
    # and what is struck through
    struck: Struck
    # the cells of which it shows another text than is read
    shown: Shown
    # the rows of cells with days, by the places of their columns, from 0 on
    days: Mapping[int, list[int]]
    # the rows of others whose titles tell of exits
    of_exits: RowsOfExits
    # its title, and the first rows of each worksheet among which it was chosen
    title: str
    tops: Tops
    # the titles of all worksheets, and whether it was chosen since it was named before
    titles: tuple[str, ...]
    as_before: bool
    # the ids of animals on others
    other_ids: OtherIds


class NamedBefore(NamedTuple):
    """The worksheet that was named at an earlier time, and all that the file had then."""

    title: str = ""
    titles: frozenset[str] = frozenset()


def read_workbook(
    path: pathlib.Path, data: bytes, score: Score, most: int, named: str, before: NamedBefore = NamedBefore()
) -> Worksheet:
    """The worksheet that is named, or else the one whose titles fit: `score` says how many titles of a row are known,
    and they stand in one of the first `most` rows. Of several that fit it is the one of before."""
    are_struck = check_unpacked(path, data)
    shown, written = opened(path, data, True), opened(path, data, False)
    titles: list[str] = [sheet.title for sheet in shown.worksheets]
    tops = tops_of(path, shown, most, named)
    title, as_before = chosen(path, tops, score, before)
    tops, at = {title: []} if as_before else tops, titles.index(title)
    values, texts = shown.worksheets[at], written.worksheets[at]
    struck = struck_texts(data, titles[at]) if are_struck else {}
    leave_out_struck(values, struck)
    rows = as_texts(path, values)
    others = [f"'{title}'" for title in titles if title != titles[at]]
    how = f"the worksheet '{titles[at]}' of an .xlsx file" + (f"; not read: {', '.join(others)}" if others else "")
    how = how if others else "an .xlsx file"
    return Worksheet(
        rows, how, faults(texts), formulas(values, texts), unread(values, struck), *filled_lines(values, rows),
        hidden_lines(values), struck_through(values, struck), shown_cells(values), days_of(values),
        rows_of_exits(path, [one for one in shown.worksheets if one is not values]), titles[at], tops, tuple(titles),
        as_before, ids_of_others(path, shown, title, most),
    )  # fmt: skip


def rows_of_exits(path: pathlib.Path, worksheets: list[Any]) -> RowsOfExits:
    """The first rows of those whose titles tell of exits, as `Abgänge`."""
    found: dict[str, list[tuple[int, list[str]]]] = {}
    for one in worksheets:
        if says_exits(one.title):
            with contextlib.suppress(Mistake):
                found[one.title] = as_texts(path, one, MOST_OF_EXITS)
    return found


def opened(path: pathlib.Path, data: bytes, values: bool) -> Any:
    try:
        import openpyxl
    except ImportError:
        raise Mistake(SheetFault.NO_OPENPYXL.said(path=path)) from None
    try:
        from openpyxl.reader.excel import ExcelReader

        check_sheets(path, ExcelReader(io.BytesIO(data), keep_links=False))
        return openpyxl.load_workbook(io.BytesIO(data), data_only=values)
    except (Mistake, MemoryError):
        raise
    except Exception as error:  # openpyxl raises whatever its parts raise
        raise Mistake(SheetFault.NO_WORKBOOK.said(path=path, error=str(error))) from None


# the kinds of parts that a worksheet has beside it, of which something is made in it
BESIDE = ("/comments", "/drawing", "/table", "/pivotTable")


def check_sheets(path: pathlib.Path, reader: Any) -> None:
    """A mistake where two worksheets are the same part, or have the same one beside them: what it has would be made for
    each of them."""
    reader.read_manifest()
    reader.read_workbook()
    sheets = [of.target for _, of in reader.parser.find_sheets()]
    parts = [*sheets, *itertools.chain.from_iterable(beside(reader, sheet) for sheet in sheets)]
    if len(set(parts)) < len(parts):
        raise odd(path)


def beside(reader: Any, sheet: str) -> list[str]:
    """The parts that a worksheet names, of which something is made in it."""
    # some of its versions have types for these, and others not
    relationships: Any = importlib.import_module("openpyxl.packaging.relationship")
    names = relationships.get_rels_path(sheet)
    if names not in reader.valid_files:
        return []
    named = relationships.get_dependents(reader.archive, names).Relationship
    return [one.target for one in named if one.Type.endswith(BESIDE)]


def as_texts(path: pathlib.Path, sheet: Any, last: int | None = None) -> list[tuple[int, list[str]]]:
    """The rows that have a cell with text, those behind the last one not. Each is as wide as the widest: a mistake
    where these would be too many cells."""
    rows: dict[int, dict[int, str]] = {}
    # openpyxl would make each cell between those that are there
    for (row, column), cell in sheet._cells.items():
        if (last is None or row <= last) and (text := cell_text(cell)):
            rows.setdefault(row, {})[column] = text
    fill_merged(sheet, rows)
    width = max((max(cells) for cells in rows.values()), default=0)
    if len(rows) * width > MOST_CELLS:
        raise Mistake(SheetFault.TOO_MANY_CELLS.said(path=path, most=MOST_CELLS))
    columns = range(1, width + 1)
    return [(row, [cells.get(column, "") for column in columns]) for row, cells in sorted(rows.items())]


def fill_merged(sheet: Any, rows: dict[int, dict[int, str]]) -> None:
    """A cell that is merged with those below it stands for each of them, where their rows have cells too."""
    for range in sheet.merged_cells.ranges:
        text = rows.get(range.min_row, {}).get(range.min_col, "")
        for row in [row for row in rows if range.min_row < row <= range.max_row] if text else ():
            rows[row].setdefault(range.min_col, text)


def tops_of(path: pathlib.Path, workbook: Any, most: int, named: str) -> Tops:
    """The first rows of each worksheet that may be meant; of the only one they aren't looked at."""
    titles: list[str] = [sheet.title for sheet in workbook.worksheets]
    if named and named not in titles:
        raise ImportRefused(WorksheetLacks(str(path), named, tuple(titles)))
    if named or len(titles) == 1:
        return {named or titles[0]: []}
    return {sheet.title: [cells for _, cells in as_texts(path, sheet, most)] for sheet in workbook.worksheets}


def ids_of_others(path: pathlib.Path, workbook: Any, taken: str, most: int) -> OtherIds:
    """The ids on the worksheets that aren't read and have titles of animals in one of their first rows."""
    found = {}
    for sheet in workbook.worksheets:
        # one with too many cells keeps the other from nothing
        with contextlib.suppress(Mistake):
            tops = [cells for _, cells in as_texts(path, sheet, most)] if sheet.title != taken else []
            if any(map(are_titles_of_animals, tops)):
                found[sheet.title] = ids_below([cells for _, cells in as_texts(path, sheet)])
    return found


def best_of(tops: Tops, score: Score) -> tuple[list[str], int]:
    """The worksheets whose titles fit best, and how many of these are known."""
    scores = {title: max(map(score, rows), default=0) for title, rows in tops.items()}
    most = max(scores.values())
    return [title for title, points in scores.items() if points == most], most


def chosen(path: pathlib.Path, tops: Tops, score: Score, before: NamedBefore) -> tuple[str, bool]:
    """The title, and whether it is that of before. One that came since may be what is meant now."""
    best, most = best_of(tops, score)
    if len(best) > 1 and before.title in best and before.titles.issuperset(best):
        return before.title, True
    if len(best) > 1:
        raise ImportRefused(WorksheetUnclear(str(path), tuple(best), most > 0))
    return best[0], False


def faults(texts: Any) -> list[SheetFinding]:
    """Long numbers that have lost digits."""
    numbers = [cell for _, cell in sorted(texts._cells.items()) if isinstance(cell.value, (int, float))]
    long = [cell.coordinate for cell in numbers if abs(cell.value) >= TOO_LONG]
    return [DigitsLost(texts.title, len(long), long[0])] if long else []


def formulas(values: Any, texts: Any) -> Formulas:
    """Those without a value."""
    found: dict[int, list[str]] = {}
    for place, cell in sorted(texts._cells.items()):
        if cell.data_type == "f" and (place not in values._cells or values._cells[place].value is None):
            found.setdefault(cell.column - 1, []).append(cell.coordinate)
    return Formulas(texts.title, found)


def days_of(sheet: Any) -> dict[int, list[int]]:
    found: dict[int, list[int]] = {}
    for (row, column), cell in sheet._cells.items():
        if isinstance(cell._value, datetime.date):
            found.setdefault(column - 1, []).append(row)
    return found


def leave_out_struck(sheet: Any, struck: Mapping[Place, StruckText]) -> None:
    """What is struck through isn't part of a cell's text, unless it is all of it, as where the cell itself is so."""
    for place, text in struck.items():
        if text.kept.strip() and place in sheet._cells:
            sheet._cells[place]._value = text.kept


def unread(sheet: Any, struck: Mapping[Place, StruckText]) -> list[SheetFinding]:
    """Notes at cells, and parts of texts that are struck through: neither says anything of an animal here."""
    cells = [cell for _, cell in sorted(sheet._cells.items())]
    noted = [cell for cell in cells if cell.comment]
    found: list[SheetFinding] = []
    if noted:
        found.append(NotesAtCells(len(noted), noted[0].coordinate, clean(noted[0].comment.text or "")))
    parts = [(place, text) for place, text in struck.items() if text.kept.strip()]
    for place, text in parts[:1]:
        cell = sheet._cells[place].coordinate
        found.append(StruckWithin(len(parts), cell, clean(text.whole), clean(text.kept)))
    return found


def struck_through(sheet: Any, struck: Mapping[Place, StruckText]) -> Struck:
    """What is struck through whole, a cell or all of its text."""
    there = {place for place, text in struck.items() if not text.kept.strip() and place in sheet._cells}
    fonts = {at for at, font in enumerate(sheet.parent._fonts) if font.strike}
    # few workbooks have such a font
    if any(style.fontId in fonts for style in sheet.parent._cell_styles):
        there |= {place for place, cell in sheet._cells.items() if cell._style.fontId in fonts}
    texts = {place: text for place in sorted(there) if (text := cell_text(sheet._cells[place]))}
    in_row = Counter(row for row, _ in texts)
    beside = ((row, cell) for (row, _), cell in sheet._cells.items() if row in in_row) if texts else ()
    with_text = Counter(row for row, cell in beside if cell_text(cell))
    rows = {row: None for row, count in in_row.items() if count >= NEARLY_ALL * with_text[row]}
    return Struck([*rows], {(row, at - 1): text for (row, at), text in texts.items() if row not in rows})


def hidden_lines(sheet: Any) -> list[int]:
    """The numbers of the rows that aren't shown, by hand, by a filter or by an outline."""
    return sorted(row for row, shown in sheet.row_dimensions.items() if shown.hidden or shown.height == 0)


def cell_text(cell: Any) -> str:
    """A cell's value as the spreadsheet shows it, but for days, which are written as 2001-03-01."""
    value = cell.value
    if value is None:
        return ""
    if isinstance(value, (datetime.datetime, datetime.date)):
        return day_text(value, str(cell.number_format or ""))
    if isinstance(value, bool):
        return str(value).upper()
    if isinstance(value, float) and value.is_integer():
        value = int(value)
    if isinstance(value, int):
        return number_text(value, str(cell.number_format or ""))
    return from_spreadsheets(clean(str(value)))


def day_text(day: datetime.date, shown: str) -> str:
    """The day, or the month or the year alone where the cell's format shows no more."""
    letters = QUOTED.sub("", shown).lower()
    if "y" in letters and "d" not in letters:
        return f"{day:%Y-%m}" if "m" in letters else f"{day:%Y}"
    return f"{day:%Y-%m-%d}"
