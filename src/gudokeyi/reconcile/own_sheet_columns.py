"""The society's own columns in a sheet: which of its columns are kept so, and what their cells say of the animals."""
from __future__ import annotations

import collections
import functools
import re
from collections.abc import Mapping, Sequence
from dataclasses import dataclass
from typing import NamedTuple

from gudokeyi.domain.animals import LETTERS
from gudokeyi.domain.messages import MOST_NAMED, Mistake
from gudokeyi.domain.mistakes import InvalidValue
from gudokeyi.domain.own_columns import MOST_CHOICES, MOST_COLUMNS, MOST_IN_TITLE, OwnColumn, OwnKind
from gudokeyi.domain.requests import OwnFault
from gudokeyi.ingest.animals import SheetAnimal
from gudokeyi.ingest.columns import Columns
from gudokeyi.ingest.days import NAME
from gudokeyi.ingest.sheets import Sheet
from gudokeyi.ingest.spellings import CUT
from gudokeyi.ingest.texts import clean, plain
from gudokeyi.reconcile.findings.animals import OwnValueWritten
from gudokeyi.reconcile.findings.own_columns import (
    OwnCellsUnread, OwnCellUnread, OwnColumnRead, OwnDaysAmongTexts, OwnNumbersCut, OwnValuesChanged, OwnValuesEmptied,
)  # fmt: skip
from gudokeyi.reconcile.next_book import NextBook
from gudokeyi.reconcile.own_values import value_read
from gudokeyi.store.book import Book
from gudokeyi.store.own_data import columns_now, next_place, rows_of_columns, value_row, value_rows_at
from gudokeyi.store.state import OWN_COLUMNS, OWN_VALUES, Rows, Values


@dataclass(frozen=True)
class OwnSheetColumns:
    """The columns before an import and after it, and at which place of the sheet the values of each stand."""

    before: list[OwnColumn]
    after: list[OwnColumn]
    places: dict[int, int]


def kind_said(word: str) -> tuple[str, OwnKind]:
    """What `--own 'CAE=choice'` says: a title, and what stands in its column."""
    title, equals, kind = word.rpartition("=")
    if not equals or not clean(title) or kind not in list(OwnKind):
        raise Mistake(OwnFault.OWN_OPTION.said(word=word))
    if len(clean(title)) > MOST_IN_TITLE:
        raise InvalidValue(OwnFault.LONG_TITLE.said(most=MOST_IN_TITLE, count=len(clean(title))))
    return clean(title), OwnKind(kind)


def find_own_columns(book: Book, columns: Columns, said: Sequence[str]) -> OwnSheetColumns:
    """The columns that are kept by what is said now, or was once."""
    titles = columns.titles_not_read()
    before = columns_now(book.connection)
    now = {plain(one.title): one for one in before}
    place = next_place(book.connection)
    for word in said:
        title, kind = kind_said(word)
        if plain(title) not in {plain(one) for one in titles}:
            raise Mistake(OwnFault.NO_OTHER_COLUMN.said(title=title, titles=", ".join(titles)))
        known = now.get(plain(title))
        now[plain(title)] = known._replace(kind=kind) if known else OwnColumn(place, title, kind)
        place += known is None
    if sum(one.is_kept for one in now.values()) > MOST_COLUMNS:
        raise InvalidValue(OwnFault.MANY_COLUMNS.said(most=MOST_COLUMNS))
    at_places = {plain(title): at for at, title in reversed([*enumerate(columns.sheet.titles)]) if columns.is_free(at)}
    places = {one.place: at_places[title] for title, one in now.items() if one.is_kept and title in at_places}
    after = [with_choices(one, columns.sheet, places, one in before) for one in now.values()]
    return OwnSheetColumns(before, after, places)


def with_choices(column: OwnColumn, sheet: Sheet, places: dict[int, int], is_known: bool) -> OwnColumn:
    """A new column of choices has those of the sheet, of several in other capitals the one that most cells have."""
    if column.kind is not OwnKind.CHOICE or column.choices or is_known or column.place not in places:
        return column
    counts = collections.Counter(filter(None, texts_of(sheet, places[column.place], column)))
    alike = {one.casefold(): one for one, _ in reversed(counts.most_common())}
    choices = sorted(alike.values())
    if len(choices) > MOST_CHOICES:
        raise InvalidValue(OwnFault.MANY_CHOICES.said(title=column.title, most=MOST_CHOICES))
    return column._replace(choices=tuple(choices))


def take_own_values(next_book: NextBook, own: OwnSheetColumns, sheet: Sheet, month_first: bool) -> None:
    """What the cells say otherwise than those of the last sheet becomes the animals' values; what somebody wrote by
    hand stays where the cell is as it was."""
    if not own.places and own.before == own.after:
        return
    kept = value_rows_at(next_book.book.connection, own.places)
    rows = {row.line: at for at, row in enumerate(sheet.rows)}
    those = [(one, one.registration_number[LETTERS:]) for one in next_book.animals.values() if one.line in rows]
    at_rows = [rows[one.line] for one, _ in those]
    before: dict[Values, Values] = {}
    after: dict[Values, Values] = {}
    for column in own.after:
        if column.place in own.places:
            texts = texts_of(sheet, own.places[column.place], column)
            taken = OwnColumnTaken(next_book, column, month_first)
            taken.take(those, [texts[at] for at in at_rows], kept)
            before |= taken.before
            after |= taken.after
    next_book.report.with_own_values.update(next_book.book.society_records.keys() & next_book.own_values.keys())
    columns = Rows(rows_of_columns(own.before), rows_of_columns(own.after))
    next_book.others += [(OWN_COLUMNS, columns), (OWN_VALUES, Rows(before, after))]


def texts_of(sheet: Sheet, at: int, column: OwnColumn) -> list[str]:
    """The cells of a column by rows. Of a workbook's a column of texts has what the spreadsheet shows."""
    texts = sheet.column(at)
    if column.kind in (OwnKind.TEXT, OwnKind.CHOICE):
        shown = {line: text for (line, place), text in sheet.shown.items() if place == at}
        texts = [shown.get(row.line, text) for row, text in zip(sheet.rows, texts)] if shown else texts
    cleaned = {text: clean(text) for text in {*texts}}
    return [*map(cleaned.__getitem__, texts)]


# A column: what becomes of its cells.

# a sign of each number that is cut
PLUS = "+"
# a day without its year, as a spreadsheet shows what it made of `5/4`, or another day or month
DAY = rf"(?P<without_year>\d{{1,2}}[ .-]+{NAME})|(?:19|20)\d\d-(?:0\d|1[0-2])(?:-[0-3]\d)?|{NAME}[ -]\d\d"


class CellOtherwise(NamedTuple):
    """A cell that says otherwise than that of the last sheet, and the row that the book has of its animal's value."""

    animal: SheetAnimal
    cell: str
    key: Values
    was: Values | None


class OwnColumnTaken:
    """The values that a column of a sheet gives, and what is told of them: `before` and `after` are the rows of the
    book that aren't as they were."""

    def __init__(self, next_book: NextBook, column: OwnColumn, month_first: bool) -> None:
        self.next_book, self.column, self.month_first = next_book, column, month_first
        self.report = next_book.report
        self.before: dict[Values, Values] = {}
        self.after: dict[Values, Values] = {}
        # how many values are new, changed and emptied
        self.new, self.changed, self.emptied = 0, 0, 0
        # the value of each text; none where it can't be one
        self.read = functools.cache(self.read_of)

    def take(self, rows: Sequence[tuple[SheetAnimal, str]], cells: list[str], kept: Mapping[Values, Values]) -> None:
        """Takes the cells of animals, each of which is there with the digits of its number."""
        place = self.column.place
        others = [
            CellOtherwise(animal, cell, (digits, place), was)
            for (animal, digits), cell in zip(rows, cells)
            if cell != ((was := kept.get((digits, place))) and was[4] or "")
        ]
        cut = {text for text in {*cells} if PLUS in text and CUT.fullmatch(text)}
        if cut:
            self.tell_cut([(animal.line, cell) for (animal, _), cell in zip(rows, cells) if cell in cut])
            others = [one for one in others if one.cell not in cut]
        self.tell_days(others, cells)
        self.tell_unread([one for one in others if self.read(one.cell) is None], len(cells) - cells.count(""))
        self.take_all([one for one in others if self.read(one.cell) is not None])
        self.tell_counts()

    def take_all(self, others: Sequence[CellOtherwise]) -> None:
        place, own_values = self.column.place, self.next_book.own_values
        for animal, cell, key, was in others:
            value, before = self.read(cell) or "", str(was[2]) if was else ""
            if value != before:
                own_values.setdefault(animal.id, []).append((place, before, value))
                self.new += not before
                if before:
                    self.tell_one(animal, before, value)
            if was:
                self.before[key] = was
            self.after[key] = value_row(str(key[0]), place, value, cell)

    def read_of(self, cell: str) -> str | None:
        try:
            return value_read(self.column, cell, self.month_first)
        except InvalidValue:
            return None

    def tell_unread(self, unread: Sequence[CellOtherwise], said: int) -> None:
        """Cells that can't be read, of so many that say something: the values stay."""
        title, kind = self.column.title, self.column.kind
        for one in unread:
            self.report.add(one.animal.line, one.animal.id, OwnCellUnread(title, one.cell, kind))
        if unread:
            line, text = min((one.animal.line, one.cell) for one in unread)
            self.report.add(0, "", OwnCellsUnread(title, kind, len(unread), said, line, text))

    def tell_one(self, animal: SheetAnimal, before: str, value: str) -> None:
        """Of values that were there until now the first are told: of those that are changed, and of those that are
        emptied."""
        self.changed += bool(value)
        self.emptied += not value
        if (self.changed if value else self.emptied) <= MOST_NAMED:
            self.report.add(animal.line, animal.id, OwnValueWritten(self.column.title, value, before))

    def tell_counts(self) -> None:
        title, kind = self.column.title, self.column.kind
        counts = (OwnColumnRead, self.new), (OwnValuesChanged, self.changed), (OwnValuesEmptied, self.emptied)
        for found, count in counts:
            if count:
                self.report.add(0, "", found(title, kind, count))

    def tell_cut(self, cells: Sequence[tuple[int, str]]) -> None:
        """Numbers that the spreadsheet has cut, each with its line: the values stay."""
        self.report.add(0, "", OwnNumbersCut(self.column.title, len(cells), *min(cells)))

    def tell_days(self, others: Sequence[CellOtherwise], cells: list[str]) -> None:
        """Days that a spreadsheet may have made of texts: those without a year, and others where they are few."""
        if self.column.kind not in (OwnKind.TEXT, OwnKind.CHOICE):
            return
        read = day_form().fullmatch
        days = {text: day["without_year"] for text in {one.cell for one in others} if (day := read(text))}
        if not days:
            return
        are_few = 2 * sum(map(bool, map(read, cells))) <= len(cells) - cells.count("")
        found = [(one.animal.line, one.cell) for one in others if one.cell in days and (are_few or days[one.cell])]
        if found:
            self.report.add(0, "", OwnDaysAmongTexts(self.column.title, len(found), *min(found)))


@functools.cache
def day_form() -> re.Pattern[str]:
    """Compiled for the first column of texts."""
    return re.compile(DAY, re.IGNORECASE)
