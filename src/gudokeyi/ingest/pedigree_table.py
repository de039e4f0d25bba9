"""A pedigree of any size as three columns of ids: its lines are parted many at a time, with the titles, separators and
comments that a smaller one may have."""
from __future__ import annotations

import gzip
import functools
import operator
import re
import zlib
from collections.abc import Callable, Container, Iterator, Mapping, Sequence
from dataclasses import dataclass, field

from gudokeyi.domain.commands import COLUMNS
from gudokeyi.domain.kinds import Field
from gudokeyi.domain.messages import Mistake
from gudokeyi.ingest.encodings import decoded
from gudokeyi.ingest.files import GivenFile
from gudokeyi.ingest.pedigree_files import (
    NEEDED, STANDARD_INPUT, TITLES_OF_PLINK, WITHOUT_TITLES, Columns, Line, are_titles, cells_of, check_cells,
    columns_read, family_column, find_pedigree_columns, separator_of,
)  # fmt: skip
from gudokeyi.ingest.plain_cells import NumberedCells, PlainCells, numbered_cells, plain_cells
from gudokeyi.ingest.texts import composed

# so many lines are parted at a time
AT_ONCE = 100_000
GZIPPED = b"\x1f\x8b"
# so archives begin, and the files of spreadsheets
ARCHIVED = b"PK\x03\x04"
# what makes a line one that is parted by itself: quotation marks, apostrophes, and comments
ODD = ('"', "'", "#")
# where blanks stand between cells nothing else does
OTHER_SEPARATORS = (";", ",")
# a comment behind the last cell of a line whose cells may have blanks
BEHIND = re.compile(r"\s+#.*")
# the files of PLINK have no titles: a family, the animal, its sire and dam, its sex and a trait
FAMILY_FILE = ".fam"
SEXES_OF_FAMILY_FILE = ("0", "1", "2")
OF_FAMILY_FILE: Columns = {Field.ID: 1, Field.SIRE: 2, Field.DAM: 3}
CELLS_OF_FAMILY_FILE = 6


@dataclass
class PedigreeTable:
    """The cells of each animal as they are written, with its line. `families` is empty where no column has them, and
    `numbered` has the ids, the sires and the dams, one column after the other, where these were numbered at once."""

    ids: list[str] = field(default_factory=list)
    sires: Sequence[str] = ()
    dams: Sequence[str] = ()
    lines: Sequence[int] = ()
    families: Sequence[str] = ()
    told: str = ""
    numbered: NumberedCells | None = None
    # the titles of what is read, and what looks for the cells of each column that isn't
    titles: dict[Field, str] = field(default_factory=dict)
    others: Callable[[], dict[str, list[str]]] | None = None


def read_table(file: GivenFile, given: Mapping[Field, str], unknown: Container[str]) -> PedigreeTable:
    """The animals of a file, which may be packed by gzip."""
    text, _ = decoded(file.path, unpacked(file))
    if plain := plain_table(file, text, given):
        return plain
    numbers, lines = lines_with_cells(text)
    if not lines:
        raise no_animals(file)
    layout = layout_of(file, numbers[0], lines[0], given)
    if layout.titles:
        numbers, lines = numbers[1:], lines[1:]
    if not lines:
        raise no_animals(file)
    table = PedigreeTable(lines=numbers, told=layout.told())
    if layout.titles and Field.ID not in given:
        table.titles = {one: layout.titles.cells[at] for one, at in layout.columns.items()}
        table.others = functools.partial(other_columns, layout, numbers, lines) if layout.unread() else None
    places = [layout.columns[one] for one in NEEDED]
    ids, sires, dams = (operator.itemgetter(place) for place in places)
    table.sires, table.dams, table.families = of_sires, of_dams, families = list[str](), list[str](), list[str]()
    for rows in layout.parted(numbers, lines):
        table.ids += map(ids, rows)
        of_sires += map(sires, rows)
        of_dams += map(dams, rows)
        if layout.family is not None:
            families += (row[layout.family] if len(row) > layout.family else "" for row in rows)
    if layout.separator and "#" in text:
        last = {places[1]: of_sires, places[2]: of_dams}.get(max(places))
        cut_comments({*table.ids}, last or [], table.lines, unknown)
    return table


def plain_table(file: GivenFile, text: str, given: Mapping[Field, str]) -> PedigreeTable | None:
    """The animals of a plain text, whose cells are found at once; nothing where it isn't one, or a line has other cells
    than the first."""
    line, _, rest = text.partition("\n")
    line = line.removesuffix("\r")
    if not text.isascii() or not line.strip() or line.lstrip()[0] == "#" or not line.replace("\t", " ").isprintable():
        return None
    layout = layout_of(file, 1, line, given)
    data, first = (rest.encode(), 2) if layout.titles else (text.encode(), 1)
    cells = plain_cells(data.replace(b"\r\n", b"\n"), layout.separator, first)
    if cells is None or not layout.last < cells.starts.shape[1] <= layout.most:
        return None
    places = [layout.columns[one] for one in NEEDED]
    numbered = numbered_cells(cells.data, *(edges[:, places].T.ravel() for edges in (cells.starts, cells.ends)))
    sires, dams = map(cells.column, places[1:])
    table = PedigreeTable(cells.texts(places[0]), sires, dams, cells.numbers, told=layout.told())
    if numbered is None or (layout.titles and layout.titles.cells[places[0]] in table.ids):
        return None
    table.numbered = numbered
    table.families = () if layout.family is None else cells.column(layout.family)
    if layout.titles and Field.ID not in given:
        table.titles = {one: layout.titles.cells[at] for one, at in layout.columns.items()}
        unread = layout.unread()
        table.others = functools.partial(plain_columns, cells, unread) if unread else None
    return table


def plain_columns(cells: PlainCells, places: Mapping[str, int]) -> dict[str, list[str]]:
    return {title: cells.texts(at) for title, at in places.items() if at < cells.starts.shape[1]}


def other_columns(layout: Layout, numbers: Sequence[int], lines: list[str]) -> dict[str, list[str]]:
    """The cells of each column that isn't read, by its title."""
    places = layout.unread()
    found: dict[str, list[str]] = {title: [] for title in places}
    for rows in layout.parted(numbers, lines):
        for title, at in places.items():
            found[title] += (row[at] for row in rows if len(row) > at)
    return found


def unpacked(file: GivenFile) -> bytes:
    if file.data.startswith(ARCHIVED):
        raise Mistake(f"{file.path} is a zip archive or a spreadsheet: give the text file in it, or one packed by gzip")
    if not file.data.startswith(GZIPPED):
        return file.data
    try:
        return gzip.decompress(file.data)
    except (OSError, EOFError, zlib.error):
        raise Mistake(
            f"{file.path} is packed by gzip, and is cut off or damaged, so that not all of it can be read: pack or copy "
            "it anew"
        ) from None


def no_animals(file: GivenFile) -> Mistake:
    what = "standard input" if file.path == STANDARD_INPUT else str(file.path)
    return Mistake(f"{what} has no animals: write a line `id sire dam` for each")


def lines_with_cells(text: str) -> tuple[Sequence[int], list[str]]:
    """The lines that have cells, with their numbers."""
    lines = text.splitlines()
    if "#" not in text and all(lines) and not any(map(str.isspace, lines)):
        return range(1, len(lines) + 1), lines
    lines = [TITLES_OF_PLINK.sub("", line) if line[:1] == "#" else line for line in lines]
    bare = [*map(str.strip, lines)]
    numbers = [number for number, line in enumerate(bare, 1) if line and line[0] != "#"]
    return numbers, [lines[number - 1] for number in numbers]


@dataclass(frozen=True)
class Layout:
    """What stands between the cells of a file, and which of its columns has what."""

    separator: str | None
    columns: Columns
    titles: Line | None
    first: Line
    family: int | None

    @property
    def last(self) -> int:
        """The last column that is read."""
        return max(self.columns.values())

    @property
    def most(self) -> int:
        """So many cells a line may have."""
        return len(self.titles.cells) if self.titles else CELLS_OF_FAMILY_FILE if self.family is not None else 3

    def unread(self) -> dict[str, int]:
        """The columns with a title that aren't read."""
        titles = self.titles.cells if self.titles else []
        return {title: at for at, title in enumerate(titles) if title and at not in self.columns.values()}

    def told(self) -> str:
        if self.titles:
            return columns_read(self.titles.cells, self.columns)
        if self.family is not None:
            return "columns: family, id, sire and dam, as a .fam file of PLINK has them; not read: sex and trait"
        return f"{self.first} has none of the known titles, and is taken for an animal"

    def parted(self, numbers: Sequence[int], lines: list[str]) -> Iterator[list[list[str]]]:
        """The cells of the lines, many lines at a time."""
        for first in range(0, len(lines), AT_ONCE):
            some = lines[first : first + AT_ONCE]
            rows = self.rows_of(numbers[first : first + AT_ONCE], some)
            counts = {*map(len, rows)}
            if min(counts) <= self.last or max(counts) > self.most:
                self.check(numbers[first : first + AT_ONCE], rows)
            if self.titles and self.titles.cells in rows:
                line = Line(numbers[first + rows.index(self.titles.cells)], self.titles.cells)
                raise Mistake(f"{line} is that of the titles again: leave it out, it would be an animal")
            yield rows

    def rows_of(self, numbers: Sequence[int], lines: list[str]) -> list[list[str]]:
        text = "\n".join(lines)
        odd = (*ODD, *OTHER_SEPARATORS) if self.separator is None else ODD
        if any(sign in text for sign in odd):
            rows = [self.odd_cells(number, line) for number, line in zip(numbers, lines)]
        elif self.separator is None:
            rows = [*map(str.split, lines)]
        else:
            rows = [line.split(self.separator) for line in lines]
            bare = "".join(lines).replace(self.separator, "")
            if " " in bare or not bare.isprintable():
                rows = [[*map(str.strip, row)] for row in rows]
        return rows if text.isascii() else [[*map(composed, row)] for row in rows]

    def odd_cells(self, number: int, line: str) -> list[str]:
        """The cells of a line, without a comment behind those that are read."""
        if self.separator is None and "#" in line:
            line = self.without_comment(line)
        cells = cells_of(number, line, self.separator)
        ends = (at for at in range(self.last + 1, len(cells)) if cells[at].startswith("#"))
        return cells[: next(ends, len(cells))]

    def without_comment(self, line: str) -> str:
        """A line of cells with blanks between them up to a comment, in which anything may stand."""
        before, _, _ = line.partition(" #")
        return before if '"' not in before and len(before.split()) > self.last else line

    def check(self, numbers: Sequence[int], rows: list[list[str]]) -> None:
        for number, row in zip(numbers, rows):
            if self.titles or self.family is None:
                check_cells(Line(number, row), self.titles, self.last)
            elif len(row) != self.most:
                raise Mistake(
                    f"{Line(number, row)} has {len(row)} cells, and a .fam file of PLINK has six: write all of them"
                )


def layout_of(file: GivenFile, number: int, line: str, given: Mapping[Field, str]) -> Layout:
    before = line.partition(" #")[0]
    separator = separator_of(before)
    cells = [*map(composed, cells_of(number, before, separator))]
    first = Line(number, cells)
    if cells in (COLUMNS, COLUMNS[:-1]):
        raise Mistake(
            f"{file.path} is a command file, whose animals are numbers and no ids: take what `export --triples` writes "
            "of its book"
        )
    if are_titles(cells, given):
        found = find_pedigree_columns(number, cells, given)
        return Layout(separator, {one: found[one] for one in NEEDED}, first, first, family_column(cells))
    if given:
        raise Mistake(f"{first} has none of the titles that --columns names: write a first line with titles")
    if is_family_file(file, cells):
        return Layout(separator, OF_FAMILY_FILE, None, first, 0)
    return Layout(separator, WITHOUT_TITLES, None, first, None)


def is_family_file(file: GivenFile, cells: list[str]) -> bool:
    """Is it one of PLINK, by its first line? Standard input has no name: there a sex tells."""
    if len(cells) != CELLS_OF_FAMILY_FILE:
        return False
    return FAMILY_FILE in file.path.suffixes or (file.path == STANDARD_INPUT and cells[4] in SEXES_OF_FAMILY_FILE)


def cut_comments(ids: Container[str], cells: list[str], lines: Sequence[int], unknown: Container[str]) -> None:
    """Takes comments out of the cells of parents that are the last ones of their lines, in which blanks may stand:
    where what stands before one is an id or a word for an unknown parent, and the whole is none."""
    for row in [row for row, cell in enumerate(cells) if "#" in cell and BEHIND.search(cell)]:
        cut = BEHIND.sub("", cells[row])
        if cells[row] not in ids:
            cells[row] = checked(cells[row], cut, cut in ids or cut in unknown, lines[row])


def checked(cell: str, cut: str, is_parent: bool, line: int) -> str:
    """What stands before a comment, if that is a parent."""
    if is_parent:
        return cut
    raise Mistake(
        f"line {line}: is '{cell}' an id, or does a comment begin in it? Write the comment into a line of its own"
    )
