"""Rows below a list that tell of exits of the animals above: their ids a second time with a day or a word alone, as
under `Abgänge 2025:`, or in a table that has titles of its own."""
from __future__ import annotations

from collections.abc import Mapping
from dataclasses import dataclass, field, replace
from typing import NamedTuple

from gudokeyi.domain.findings import Finding
from gudokeyi.domain.kinds import Field
from gudokeyi.ingest.days import is_span
from gudokeyi.ingest.exits_beside import is_same_day
from gudokeyi.ingest.findings.exit_tables import ExitsBelow, ExitsBelowUnread
from gudokeyi.ingest.sheets import Sheet, SheetRow, cell_of, with_cell
from gudokeyi.ingest.texts import plain
from gudokeyi.ingest.titles import KNOWN_DOUBTFUL, KNOWN_TITLES, names_exits_alone
from gudokeyi.ingest.exit_words import DEAD, TELLING_EXITS, is_still_there, lives, says_exits
from gudokeyi.ingest.words import has_word

# so many cells of such a row may say more of an exit than its day and its kind, as why
MOST_MORE = 2
# fields whose cells have no days: one that stands there belongs to another column
TEXTS = Field.NAME, Field.SEX, Field.SIRE, Field.DAM, Field.OWNER
# so many rows with days in such columns are no slips
SEVERAL = 2


def is_title_of_exits(title: str) -> bool:
    """Does a title of a table name exits or their days?"""
    return plain(title) in {*KNOWN_TITLES[Field.EXIT]} - KNOWN_DOUBTFUL or names_exits_alone(title) or says_exits(title)


class Said(NamedTuple):
    """What a row says of an exit: the text for that, and what stands beside it; and whether its column or a word tells
    that it is one."""

    text: str
    more: str
    is_sure: bool


@dataclass
class Below:
    """The lines of rows that are no animals, the place of the animal of each that tells of an exit, and what it
    tells."""

    heads: set[int] = field(default_factory=set)
    found: dict[int, tuple[int, Said]] = field(default_factory=dict)

    def is_sure(self) -> bool:
        return bool(self.heads) or all(said.is_sure for _, said in self.found.values())


class RowsBelow:
    """Looks at the rows of a sheet."""

    def __init__(self, sheet: Sheet, columns: Mapping[str, int]) -> None:
        self.sheet, self.columns, self.id = sheet, columns, columns[Field.ID]
        self.exit, self.name = columns.get(Field.EXIT), columns.get(Field.NAME)
        self.texts = {columns[name] for name in TEXTS if name in columns}

    def find(self) -> Below:
        found, first, heads, is_under = Below(), dict[str, int](), list[int](), False
        for place, row in enumerate(self.sheet.rows):
            id = cell_of(row, self.id)
            above = first.get(id)
            said = None if above is None else self.said(row, self.sheet.rows[above], is_under)
            if above is not None and said:
                found.found[row.line] = above, said
                found.heads.update(heads)
                heads = []
            elif self.is_head(row, is_under):
                heads, is_under = [*heads, row.line], True
            else:
                heads, is_under = [], False
                first.setdefault(id, place)
        return found

    def is_head(self, row: SheetRow, is_under: bool) -> bool:
        """Is it a heading that tells of exits, or the titles of a table of these?"""
        texts = [cell for cell in row.cells if cell]
        if len(texts) == 1:
            return says_exits(texts[0])
        are_titles = plain(cell_of(row, self.id)) in KNOWN_TITLES[Field.ID] and row.cells != self.sheet.titles
        are_titles = are_titles and not any(map(str.isdigit, "".join(texts)))
        return are_titles and (is_under or any(map(is_title_of_exits, texts)))

    def said(self, row: SheetRow, above: SheetRow, is_under: bool) -> Said | None:
        """What a row says of the exit of the animal above with its id; nothing where it says anything else."""
        others = [(at, cell) for at, cell in enumerate(row.cells) if cell and at != self.id]
        name = "" if self.name is None else plain(cell_of(above, self.name))
        rest = [(at, cell) for at, cell in others if cell != cell_of(above, at) and plain(cell) != name]
        days = [(at, cell) for at, cell in rest if is_span(cell)]
        words = [(at, cell) for at, cell in rest if not is_span(cell) and self.tells_exit(at, cell)]
        more = [cell for at, cell in rest if (at, cell) not in days + words]
        if not (days or words) or len(days) > 1 or len(words) > 1 or len(more) > MOST_MORE * is_under:
            return None
        places = {at for at, _ in days + words}
        if not is_under and not places <= self.texts | {self.exit}:
            return None
        text = " ".join(cell for _, cell in words + days)
        is_sure = is_under or bool(words) or self.exit in places
        return Said(text, ", ".join(more), is_sure) if self.is_free(above, text) else None

    def tells_exit(self, at: int, cell: str) -> bool:
        tells = at == self.exit or has_word(cell, TELLING_EXITS) or DEAD.search(cell) is not None
        return tells and not lives(cell) and not is_still_there(cell)

    def is_free(self, above: SheetRow, text: str) -> bool:
        """Has the row above no exit, or the same?"""
        exit = "" if self.exit is None else cell_of(above, self.exit)
        return lives(exit) or exit == text or any(map(str.isdigit, exit)) and is_same_day(exit, text)


def may_have_exits_below(sheet: Sheet, columns: Mapping[str, int]) -> bool:
    """Has it an id twice?"""
    ids = sheet.column(columns[Field.ID])
    return len({*ids}) < len(ids)


def with_exits_below(sheet: Sheet, columns: Mapping[str, int]) -> tuple[Sheet, Finding | None]:
    """The sheet without rows that tell of exits of animals above, with these exits where its column has them; and what
    is told of that."""
    below = RowsBelow(sheet, columns).find() if may_have_exits_below(sheet, columns) else Below()
    at, is_read = columns.get(Field.EXIT), below.is_sure() and Field.EXIT in columns
    if not below.found or not below.is_sure() and len(below.found) < SEVERAL:
        return sheet, None
    places = dict(below.found.values()) if at is not None and is_read else {}
    rows, reasons = [*sheet.rows], dict(sheet.reasons)
    for place, said in places.items():
        assert at is not None
        if lives(cell_of(rows[place], at)):
            rows[place] = with_cell(rows[place], at, said.text)
        reasons |= {rows[place].line: said.more} if said.more else {}
    dropped = below.heads | below.found.keys()
    line, (place, said) = next(iter(below.found.items()))
    kind = ExitsBelow if is_read else ExitsBelowUnread
    finding = kind(len(below.found), line, cell_of(rows[place], columns[Field.ID]), said.text)
    rows = [row for row in rows if row.line not in dropped]
    return replace(sheet, rows=rows, kept={}, reasons=reasons), finding
