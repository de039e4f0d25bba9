"""A spreadsheet as rows of cells: CSV in one of three separators and three encodings, or `.xlsx`."""
from __future__ import annotations

import collections
import csv
import functools
import io
import itertools
import operator
import re
import unicodedata
from collections.abc import Callable, Mapping
from dataclasses import dataclass, field
from typing import NamedTuple

from gudokeyi.domain.cells import TEXT, from_spreadsheets, may_have_texts
from gudokeyi.domain.collections import made
from gudokeyi.domain.messages import Mistake
from gudokeyi.domain.requests import seen_of
from gudokeyi.ingest.encodings import decoding
from gudokeyi.ingest.files import MOST_LETTERS, GivenFile, check_bounds
from gudokeyi.ingest.findings.cells import TitleFor
from gudokeyi.ingest.findings.columns import SheetFinding
from gudokeyi.ingest.findings.exits import Remark
from gudokeyi.ingest.findings.files import Apostrophes, MarksAlone, RowsBetweenMarks
from gudokeyi.ingest.messages import SheetFault
from gudokeyi.ingest.other_worksheets import OtherIds
from gudokeyi.ingest.shown_cells import Shown
from gudokeyi.ingest.stray_quotes import with_marks_doubled, with_rows_parted
from gudokeyi.ingest.struck_texts import NOTHING_STRUCK, Struck
from gudokeyi.ingest.texts import clean
from gudokeyi.ingest.titles_above import tell_joined, titles_joined
from gudokeyi.ingest.titles_within import in_order, needed_in
from gudokeyi.ingest.workbooks import Formulas, NamedBefore, RowsOfExits, best_of, read_workbook

SEPARATORS = ";\t,"
# blanks that cells are read without
BLANKS = ("  ", " \n", "\n ", " \r", "\r ")
# the titles stand in one of so many rows, and at least so many of them are known where it isn't the first
BEGINNING, LEAST = 5, 3
# an apostrophe by which a spreadsheet knows a text; names such as `'t Hof`, and quoted ones, have one of their own
APOSTROPHE = re.compile(rf"{TEXT}(?=\w)(?!(?i:[stnk])[ -][^\W\d])(?!.*{TEXT}$)")
# so great a part of the rows at most is marked by grey, and by other colours
MOST_MARKED = 0.4
Score = Callable[[list[str]], int]


Unseen = dict[tuple[int, int], str]
# the first rows of a file, by the separators with which they may be read, or of a workbook by its worksheets
Tops = Mapping[str, list[list[str]]]


@dataclass(frozen=True)
class Decision:
    """Which separator or worksheet was taken, and which row for the titles, with the rows by which that was decided."""

    tops: Tops
    best: Callable[[Tops, Score], str]
    taken: str
    rows: list[list[str]]
    at: int

    def is_same(self, score: Score) -> bool:
        """Is it the same where other titles are known?"""
        return self.best(self.tops, score) == self.taken and title_row(self.rows, score) == self.at


class SheetRow(NamedTuple):
    """A row that has a cell with text. `line` is its row as a spreadsheet counts them, the first is 1: a cell may have
    several lines of the file."""

    line: int
    cells: list[str]


def cell_of(row: SheetRow, at: int) -> str:
    """Its text at a place, which a short row may lack."""
    return row.cells[at] if at < len(row.cells) else ""


def with_cell(row: SheetRow, at: int, text: str) -> SheetRow:
    """The row with another text at a place."""
    cells = row.cells + [""] * (at + 1 - len(row.cells))
    return SheetRow(row.line, [*cells[:at], text, *cells[at + 1 :]])


@dataclass(frozen=True)
class Sheet:
    """The row of titles with its line, the rows below it, how the file was read, in words, and what keeps it from
    being taken."""

    line: int
    titles: list[str]
    rows: list[SheetRow]
    how: str
    faults: list[SheetFinding]
    # the columns that were asked for, by their places
    kept: dict[int, list[str]] = field(default_factory=dict)
    # cells that were written with signs that no one sees, as they were, by their lines and places
    unseen: Unseen = field(default_factory=dict)
    # its formulas without a value; none where the file doesn't say whether a cell is a text or a formula
    formulas: Formulas | None = None
    # what cells of a workbook show besides their text
    unread: list[SheetFinding] = field(default_factory=list)
    # the row above the titles, which may be the first of two lines of these
    above: list[str] = field(default_factory=list)
    # cells of a column that is read beside another one
    remarks: list[Remark] = field(default_factory=list)
    # the titles of such columns, by the lines whose cell for an exit is their day or word
    exit_titles: Mapping[int, str] = field(default_factory=dict)
    # what that column says beside the day of an exit, by lines
    reasons: Mapping[int, str] = field(default_factory=dict)
    # what other columns tell of sales beside the day of another exit, by lines
    sales: Mapping[int, str] = field(default_factory=dict)
    decision: Decision | None = None
    # the worksheets of a workbook, and the one that is taken since it was named before
    worksheets: tuple[str, ...] = ()
    as_before: str = ""
    # the ids of animals on the others
    other_ids: OtherIds = field(default_factory=dict)
    # the rows of other worksheets whose titles tell of exits
    of_exits: RowsOfExits = field(default_factory=dict)
    # the lines of rows that are filled grey
    grey: list[int] = field(default_factory=list)
    # and of the few that have another fill of their own
    colored: list[int] = field(default_factory=list)
    # and of those that a workbook hides
    hidden: list[int] = field(default_factory=list)
    # what is struck through in a workbook
    struck: Struck = NOTHING_STRUCK
    # the cells of a workbook of which it shows another text, by their lines and places
    shown: Shown = field(default_factory=dict)
    # the lines of cells of a workbook that are days, by the places of their columns
    days: Mapping[int, list[int]] = field(default_factory=dict)
    # the lines of rows with the titles in another order, in which the cells of those below stood, and those of these
    # titles that stand for others; and the lines of such rows that add titles, by the places of these
    other_orders: Mapping[int, tuple[TitleFor, ...]] = field(default_factory=dict)
    added: Mapping[int, int] = field(default_factory=dict)
    # the ids that are read without a sign by which animals leave, as they are written, by their lines
    marked: Mapping[int, str] = field(default_factory=dict)

    def is_same(self, meant: Sheet) -> bool:
        """Has another sheet that was made of the same one the same rows?"""
        return (
            meant.rows, meant.unseen, meant.remarks, meant.exit_titles, meant.reasons, meant.sales, meant.marked
        ) == (
            self.rows, self.unseen, self.remarks, self.exit_titles, self.reasons, self.sales, self.marked
        )  # fmt: skip

    def column(self, at: int) -> list[str]:
        """The cells of a column; a row that ends before it has an empty one."""
        if at not in self.kept:
            self.kept[at] = column_of(self.rows, at)
        return self.kept[at]

    @functools.cached_property
    def together(self) -> str:
        """The cells of all rows as one text: that none of them has a sign is seen there at once."""
        return "\t".join(itertools.chain.from_iterable(cells for _, cells in self.rows))


def column_of(rows: list[SheetRow], at: int) -> list[str]:
    """The cells of a column; a row that ends before it has an empty one."""
    try:
        return [*map(operator.itemgetter(at), map(operator.itemgetter(1), rows))]
    except IndexError:
        return [cells[at] if at < len(cells) else "" for _, cells in rows]


def marked_by_grey(grey: list[int], line: int, rows: int) -> list[int]:
    """The grey lines below that of the titles; none where so many rows are grey that it marks none, as every second."""
    below = [one for one in grey if one > line]
    return below if len(below) <= MOST_MARKED * rows else []


def marked_by_color(colored: Mapping[int, int], line: int, rows: int) -> list[int]:
    """The lines below that of the titles that have a fill that few rows have; none where many have such fills."""
    below = {one: fill for one, fill in colored.items() if one > line}
    counts, most = collections.Counter(below.values()), max(1, MOST_MARKED * rows)
    few = sorted(one for one, fill in below.items() if counts[fill] <= most)
    return few if len(few) <= most else []


@dataclass
class FileRead:
    """The rows of a file with the titles among them, and what is read beside them, as `Sheet` has it."""

    rows: list[SheetRow]
    how: str
    faults: list[SheetFinding]
    unread: list[SheetFinding]
    # the first rows, by which it was decided what is taken
    tops: Tops
    best: Callable[[Tops, Score], str]
    taken: str
    formulas: Formulas | None = None
    grey: list[int] = field(default_factory=list)
    colored: Mapping[int, int] = field(default_factory=dict)
    hidden: list[int] = field(default_factory=list)
    struck: Struck = NOTHING_STRUCK
    shown: Shown = field(default_factory=dict)
    days: Mapping[int, list[int]] = field(default_factory=dict)
    worksheets: tuple[str, ...] = ()
    as_before: str = ""
    other_ids: OtherIds = field(default_factory=dict)
    of_exits: RowsOfExits = field(default_factory=dict)


def read_file_of_workbook(file: GivenFile, score: Score, worksheet: str, before: NamedBefore) -> FileRead:
    found = read_workbook(file.path, file.data, score, BEGINNING, worksheet, before)
    rows = [SheetRow(*one) for one in found.rows]
    return FileRead(
        rows, found.how, found.faults, found.unread, found.tops, best_worksheet, found.title, found.formulas,
        found.grey, found.colored, found.hidden, found.struck, found.shown, found.days, found.titles,
        found.title * found.as_before, found.other_ids, found.of_exits,
    )  # fmt: skip


def read_file_of_text(file: GivenFile, score: Score) -> FileRead:
    text, encoding, fault, note = decoding(file.path, file.data)
    tops = tops_of(text)
    taken = best_separator(tops, score)
    rows, unread = rows_of_text(text, taken, score)
    how = f"{encoding}, cells separated by " + {";": "semicolons", "\t": "tabs", ",": "commas"}[taken]
    notes = [note] if note else []
    return FileRead(rows, how, [fault] if fault else [], unread + notes, tops, best_separator, taken)


def read_file(file: GivenFile, score: Score, worksheet: str, before: NamedBefore) -> FileRead:
    if file.is_workbook():
        return read_file_of_workbook(file, score, worksheet, before)
    if file.is_zipped():
        raise Mistake(SheetFault.ODS.said(path=file.path))
    if worksheet:
        raise Mistake(SheetFault.NO_WORKSHEETS.said(path=file.path))
    return read_file_of_text(file, score)


def read_sheet(file: GivenFile, score: Score, worksheet: str = "", before: NamedBefore = NamedBefore()) -> Sheet:
    """The rows of a file. `score` says how many titles of a row are known: the separator that gives most is taken, and
    the worksheet where none is named, or was before."""
    read = read_file(file, score, worksheet, before)
    rows, unseen = without_unseen(read.rows)
    together = "\t".join(itertools.chain([""], *map(operator.itemgetter(1), rows), [""]))
    rows, apostrophes = without_apostrophes(rows, together)
    if not rows:
        raise Mistake(SheetFault.EMPTY.said(path=file.path))
    first = [row.cells for row in rows[:BEGINNING]]
    at = title_row(first, score)
    line, titles = rows[at]
    check_bounds(file.path, rows, at + 1)
    below, above = rows[at + 1 :], rows[at - 1].cells if at else []
    ordered = in_order(below, titles, together)
    if ordered.again:
        others = ordered.orders.keys() | ordered.again
        below = [row._replace(cells=ordered.cells(*row)) if row.line in others else row for row in below]
    texts = [one for one in apostrophes if one > line]
    unread = read.unread + ([Apostrophes(len(texts), texts[0])] if texts else [])
    joined = titles_joined(titles, above)
    unread += tell_joined(titles, joined)
    all_titles = [joined.get(at, title) for at, title in enumerate(ordered.titles)] if joined else ordered.titles
    return Sheet(
        line, all_titles, below, read.how, read.faults, {}, ordered.places(unseen), read.formulas, unread, above,
        decision=Decision(read.tops, read.best, read.taken, first, at), worksheets=read.worksheets,
        as_before=read.as_before, of_exits=read.of_exits, grey=marked_by_grey(read.grey, line, len(below)),
        colored=marked_by_color(read.colored, line, len(below)), hidden=read.hidden,
        struck=read.struck._replace(cells=ordered.places(read.struck.cells)), shown=ordered.places(read.shown),
        days=ordered.columns(read.days), other_ids=read.other_ids, other_orders=ordered.moved, added=ordered.added,
    )  # fmt: skip


def best_worksheet(tops: Tops, score: Score) -> str:
    """Empty where it is unclear."""
    titles, _ = best_of(tops, score)
    return titles[0] if len(titles) == 1 else ""


def without_unseen(rows: list[SheetRow]) -> tuple[list[SheetRow], Unseen]:
    """The rows without signs that no one sees, and the cells that have some as they are written."""
    are_printed = [*map(str.isprintable, map("".join, map(operator.itemgetter(1), rows)))]
    if all(are_printed):
        return rows, {}
    seen = [*rows]
    unseen: Unseen = {}
    for at in itertools.compress(itertools.count(), map(operator.not_, are_printed)):
        line, cells = rows[at]
        seen[at] = SheetRow(line, [*map(seen_of, cells)])
        unseen |= {(line, place): cell for place, cell in enumerate(cells) if cell != seen[at].cells[place]}
    return seen, unseen


def without_apostrophes(rows: list[SheetRow], together: str) -> tuple[list[SheetRow], list[int]]:
    """The rows without the apostrophes by which a spreadsheet knows texts, and the line of each cell that had one. Few
    sheets have any: `together` are all cells."""
    if f"\t{TEXT}" not in together:
        return rows, []
    read = [SheetRow(line, [*map(without_apostrophe, cells)]) for line, cells in rows]
    both = zip(rows, read)
    return read, [row.line for row, other in both for cell, text in zip(row.cells, other.cells) if cell != text]


def without_apostrophe(cell: str) -> str:
    return cell[1:] if APOSTROPHE.match(cell) else cell


def title_row(rows: list[list[str]], score: Score) -> int:
    """The first row, or a later one that has the titles where the first has less of them, as below a heading; one that
    has them again below animals isn't the first."""
    scores = [*map(score, rows)]
    best = scores.index(max(scores))
    if scores[best] < LEAST or scores[best] <= scores[0]:
        return 0
    likely = next(at for at, row in enumerate(rows) if at == best or scores[at] >= LEAST and needed_in(row) >= LEAST)
    return likely if any(map(may_be_animal, rows[likely + 1 : best])) else best


def may_be_animal(cells: list[str]) -> bool:
    """Has a row an id and something beside it?"""
    return sum(map(bool, cells)) > 1 and any(map(str.isdigit, "".join(cells)))


def is_named(text: str) -> bool:
    """Does a first line name the separator, as Excel reads it?"""
    return text[:4].lower() == "sep=" and text[4:5] in [*SEPARATORS]


def tops_of(text: str) -> Tops:
    """The file's first lines, each with any separator."""
    if is_named(text):
        return {text[4:5]: []}
    beginning = [line for line in text[:20_000].splitlines() if line.strip()][:BEGINNING]
    return {one: [next(csv.reader([line], delimiter=one)) for line in beginning] for one in SEPARATORS}


def best_separator(tops: Tops, score: Score) -> str:
    return max(tops, key=lambda one: max(((score(row), len(row)) for row in tops[one]), default=(0, 0)))


class Cleaned(dict[str, str]):
    """Cells as they are read, by what the file has. The same texts stand in many cells, and each is cleaned once."""

    def __missing__(self, cell: str) -> str:
        # `="007"` is how some programs keep a spreadsheet from taking away zeros
        is_kept = cell[:2] == '="' and cell[-1:] == '"'
        self[cell] = found = from_spreadsheets(clean(cell[2:-1] if is_kept else cell))
        return found


def is_clean(text: str, separator: str) -> bool:
    """Is each cell of a text as it is read, so that none has to be cleaned? Those of most sheets are. A text in quotes,
    or with a sign that isn't printed, isn't looked at any closer."""
    if '"' in text or any(around in text for around in BLANKS) or text[:1] == " " or text[-1:] == " ":
        return False
    if f" {separator}" in text or f"{separator} " in text or may_have_texts(text):
        return False
    in_lines = text.replace("\n", "").replace("\r", "").replace(separator, "")
    return in_lines.isprintable() and unicodedata.is_normalized("NFC", text)


def rows_of_text(text: str, separator: str, score: Score) -> tuple[list[SheetRow], list[SheetFinding]]:
    """The rows, and what is told of marks that are no beginning of a text."""
    rows = read_records(text, separator)[is_named(text) :]
    first = [row.cells for row in rows[:BEGINNING]]
    titles = len(first[title_row(first, score)]) if first else 0
    found = list[SheetFinding]()
    if (doubled := with_marks_doubled(text, separator, titles)) is not None:
        found.append(MarksAlone(doubled.rows, doubled.first))
    text = doubled.text if doubled else text
    has_longer = '"' in text and titles > 1 and text.count("\n") > len(rows)
    if has_longer and (parted := with_rows_parted(text, separator, titles)) is not None:
        found.append(RowsBetweenMarks(parted.rows, parted.first))
        text = parted.text
    return (read_records(text, separator)[is_named(text) :] if found else rows), found


def read_records(text: str, separator: str) -> list[SheetRow]:
    if not is_clean(text, separator):
        return cleaned_records(text, separator)
    reader = csv.reader(io.StringIO(text, newline=""), delimiter=separator, strict=True)
    try:
        # without quotes each line is a row
        return [made(SheetRow, (line, cells)) for line, cells in enumerate(reader, 1) if any(cells)]
    except csv.Error as error:
        raise unreadable(error, reader.line_num) from None


def cleaned_records(text: str, separator: str) -> list[SheetRow]:
    """A quotation mark alone in a cell, which people write for the cell above, is one where the text can't be read
    otherwise."""
    try:
        return records_of(text, separator)
    except Mistake:
        alone = re.compile(rf'(?<=[{separator}\n])"(?=[{separator}\r\n])')
        doubled = alone.sub('""""', text)
        if doubled == text:
            raise
        return records_of(doubled, separator)


def records_of(text: str, separator: str) -> list[SheetRow]:
    reader = csv.reader(io.StringIO(text, newline=""), delimiter=separator, strict=True)
    rows, begins, cleaned = [], 1, Cleaned()
    try:
        for at, cells in enumerate(reader, 1):
            texts = list(map(cleaned.__getitem__, cells))
            if any(texts):
                rows.append(made(SheetRow, (at, texts)))
            begins = reader.line_num + 1
    except csv.Error as error:
        raise unreadable(error, begins) from None
    return rows


def unreadable(error: csv.Error, line: int) -> Mistake:
    """What is wrong with a cell; one that is longer than Python's module reads is too long in any case."""
    if str(error).startswith("field larger"):
        return Mistake(SheetFault.LONG_CELL.said(line=line, most=MOST_LETTERS))
    return Mistake(SheetFault.OPEN_QUOTE.said(line=line))
