"""What is read of a sheet, step by step: its columns, its rows as they are meant, their animals, and which of these say
what the book has.

A process that looks at one sheet again and again keeps what came of each step with all by which it was found, in
`LastReading`. A step is made again where any of that is another now, and so are those that stand on it. Of rows that
are read together (`ingest/plain_rows.py`) those alone are read again that have a text which may mean something else
now. Much of what an import finds of all animals by few of their values is kept in `LastFound`; the rest is found anew
by each look: its passes ask all of them at once."""
from __future__ import annotations

import datetime
import itertools
from collections.abc import Callable, Collection, Iterable, Mapping
from dataclasses import dataclass, field
from typing import Container

from gudokeyi.domain.animals import NO_OWNER
from gudokeyi.domain.findings import Entry, ImportRefused, Report
from gudokeyi.domain.kinds import Field, Remembered
from gudokeyi.domain.messages import MOST_NAMED
from gudokeyi.ingest.animals import UNREAD_OF, SheetAnimal
from gudokeyi.ingest.births_beside import year_column
from gudokeyi.ingest.columns import Columns
from gudokeyi.ingest.columns_said_none import NoneSaid
from gudokeyi.ingest.columns_told import columns_told
from gudokeyi.ingest.exits_beside import columns_beside
from gudokeyi.ingest.exits_in_tables import without_table_beside
from gudokeyi.ingest.files import GivenFile
from gudokeyi.ingest.findings.worksheets import WorksheetUnread
from gudokeyi.ingest.genetic_dams import genetic_columns
from gudokeyi.ingest.names_for_ids import names_columns
from gudokeyi.ingest.rows_as_meant import Notes, as_meant, marks_in, member_numbered
from gudokeyi.ingest.sexes import has_letter_beside_females
from gudokeyi.ingest.sheet_animals import Rows
from gudokeyi.ingest.sheets import Sheet, read_sheet
from gudokeyi.ingest.texts import plain
from gudokeyi.ingest.titles import TITLES, known_titles, parts_of, read_given, read_sexes
from gudokeyi.ingest.unknown_parents import UnknownParents
from gudokeyi.ingest.workbooks import NamedBefore
from gudokeyi.reconcile.animals_of_book import AnimalsOfBook, AnimalsWithNewTags
from gudokeyi.reconcile.findings.obstacles import NoRowTaken
from gudokeyi.reconcile.last_found import LastFound
from gudokeyi.reconcile.import_options import (
    ImportOptions, RememberedWords, refused_columns, texts_of_no_animals, worksheet_before,
)  # fmt: skip
from gudokeyi.reconcile.new_tags import ids_for_sure
from gudokeyi.reconcile.rows_of_book import RowsOfBook
from gudokeyi.store.book import Book
from gudokeyi.store.members import members_by_code
from gudokeyi.store.own_data import columns_now

# The columns.


class LastSheet:
    """The sheet that was read last: a look at it reads it once, and so do those behind it, unless titles that are known
    meanwhile decide otherwise which rows it has."""

    def __init__(self) -> None:
        self.read: tuple[GivenFile, str, NamedBefore, Sheet] | None = None

    def of(self, file: GivenFile, titles: frozenset[str], worksheet: str, before: NamedBefore = NamedBefore()) -> Sheet:
        """The rows of a file; the titles are those that its columns had or are named by. `worksheet` is named now."""

        def score(row: list[str]) -> int:
            return known_titles(row) + sum(title in titles for title in row)

        last = self.read
        if last and last[:3] == (file, worksheet, before) and last[3].decision and last[3].decision.is_same(score):
            return last[3]
        self.read = None
        sheet = without_table_beside(read_sheet(file, score, worksheet, before))
        self.read = file, worksheet, before, sheet
        return sheet


LAST_SHEET = LastSheet()


def titles_before(book: Book) -> dict[str, str]:
    """The titles of all columns of the last sheet, by field."""
    return {word: title for word, title in titles_remembered(book).items() if word in TITLES}


def titles_remembered(book: Book) -> dict[str, str]:
    """The same, with those of further columns of exits, by the field and a number."""
    return {one.word: one.meaning for one in book.remembered if one.what is Remembered.COLUMN}


@dataclass
class ColumnsRead:
    """The columns of a sheet, and by what they were found."""

    read_by: tuple[object, ...]
    columns: Columns


# The animals of the rows.


@dataclass
class Reading:
    """The rows of a sheet, and all by which they are read."""

    sheet: Sheet
    columns: dict[str, int]
    unknown: UnknownParents
    sexes: dict[str, str]
    month_first: bool
    no_animals: list[str]
    # the texts of the rows that had these words, which were said at an earlier time
    no_animals_before: dict[str, list[str]]
    # ids of animals for sure
    sure: frozenset[str]
    # of the book: the birth days of its animals, and its owners by all that a sheet may call them
    born: dict[str, datetime.date]
    owners: dict[str, str]
    # the marks for a cell above that are names of its animals, each with the sex of one
    called: frozenset[tuple[str, str]]
    # the sexes that animals of the book were given, where they tell what a letter of the sheet means
    sexes_of_book: dict[str, str]
    today: datetime.date = field(default_factory=datetime.date.today)

    def read_by(self) -> tuple[object, ...]:
        values = (dict(self.columns), self.unknown.more, self.unknown.known, dict(self.sexes), self.month_first)
        no_animals = [*self.no_animals], self.no_animals_before
        return *values, *no_animals, self.sure, self.born, self.owners, self.called, self.sexes_of_book, self.today

    def meant_by(self) -> tuple[object, ...]:
        """By what the rows are changed into what they mean, beside the ids that are animals for sure: by words for
        unknown parents where columns are read beside those of the births, exits and parents alone, but for those that
        are marks for a cell above."""
        sheet, columns = self.sheet, self.columns
        beside = columns_beside(sheet, columns) or year_column(sheet, columns) or names_columns(sheet, columns)
        beside = beside or genetic_columns(sheet, columns)
        words = (self.unknown.more, self.unknown.known) if beside or Field.STATUS in self.columns else ()
        return dict(self.columns), words, marks_in(self.unknown.more), self.called

    def meant(
        self, report: Report, notes_of: Callable[[Sheet, Mapping[str, int]], Notes] = Notes,
        sure: Container[str] | None = None,
    ) -> Sheet:  # fmt: skip
        """The sheet with its rows as they are meant; `sure` answers which ids are animals for sure."""
        if Field.ID not in self.columns:
            return self.sheet
        sure = self.sure if sure is None else sure
        return as_meant(self.sheet, self.columns, self.unknown, sure, report, notes_of, self.called)

    def rows(self, meant: Sheet, report: Report, before: Rows | None = None) -> Rows:
        """The rows as they are meant; `before` are the last ones, where they may be of the same sheet."""
        columns = {name: at for name, at in self.columns.items() if name != Field.STATUS}
        is_of_file = before is not None and before.sheet.titles is meant.titles
        is_same = is_of_file and before and before.columns == columns and Field.ID in columns
        return Rows(
            meant, columns, self.unknown, self.sexes, report, self.month_first, self.born, self.no_animals, self.owners,
            before.plain if before and is_same else None, self.sexes_of_book, self.no_animals_before,
        )  # fmt: skip

    def animals(self, report: Report) -> tuple[Rows, dict[str, SheetAnimal]]:
        rows = self.rows(self.meant(report), report)
        return rows, rows.animals() if Field.ID in self.columns else {}


class AskedIds:
    """Answers which ids are animals for sure, and keeps the answers: few are asked for."""

    def __init__(self, sure: Container[str]) -> None:
        self.sure, self.answers = sure, dict[object, bool]()

    def __contains__(self, id: object) -> bool:
        return self.answers.setdefault(id, id in self.sure)

    def are_answered_so(self, sure: Container[object]) -> bool:
        """Would the answers be the same of other ids?"""
        return all((id in sure) is answer for id, answer in self.answers.items())


@dataclass
class RowsMeant:
    """A sheet with its rows as they are meant, what was told of that, by what they were changed, and which ids were
    asked for."""

    sheet: Sheet
    meant_by: tuple[object, ...]
    asked: AskedIds
    meant: Sheet
    entries: list[Entry]

    def is_of(self, reading: Reading) -> bool:
        is_same = self.sheet is reading.sheet and self.meant_by == reading.meant_by()
        return is_same and self.asked.are_answered_so(reading.sure)


@dataclass
class AnimalsRead:
    """The animals of the rows as they were read, what was told of them, and by what they were read."""

    sheet: Sheet
    read_by: tuple[object, ...]
    rows: Rows
    animals: dict[str, SheetAnimal]
    entries: list[Entry]


def copied(animals: Iterable[SheetAnimal]) -> list[SheetAnimal]:
    """The same, of which something may be found; their cells stay as they are."""
    copies = [*map(SheetAnimal.copy, animals)]
    for animal in itertools.compress(copies, map(UNREAD_OF, copies)):
        animal.unread = [*animal.unread]
    return copies


@dataclass
class SameRows:
    """Which of the plain rows, as they were read, say what the book has of their animals."""

    animals: list[SheetAnimal]
    rows_of_book: RowsOfBook
    ids: set[str]


class LastReading:
    """What came of each step last, and beside which animals of the book."""

    def __init__(self) -> None:
        # of the animals by the ids with which they are stored, and by new ones
        self.columns: list[ColumnsRead] = []
        self.notes: Notes | None = None
        self.meant: RowsMeant | None = None
        self.animals: AnimalsRead | None = None
        # by the ids with which they are stored, and by new ones
        self.in_book: AnimalsOfBook | None = None
        self.with_new_tags: AnimalsWithNewTags | None = None
        self.rows_of_book: RowsOfBook | None = None
        self.same: SameRows | None = None
        # what was found of the animals
        self.found = LastFound()

    def columns_of(
        self, sheet: Sheet, given: Mapping[str, str], before: Mapping[str, str], none: NoneSaid,
        unknown: UnknownParents, ids: Collection[str], own: frozenset[str],
    ) -> Columns:  # fmt: skip
        read_by = (dict(given), dict(before), none, unknown.more, unknown.known, ids, own)
        for last in self.columns:
            if last.columns.sheet is sheet and last.read_by == read_by:
                return last.columns
        found = ColumnsRead(read_by, columns_told(sheet, given, before, none, unknown, ids, own))
        self.columns = [*self.columns[-1:], found]
        return found.columns

    def notes_of(self, sheet: Sheet, columns: Mapping[str, int]) -> Notes:
        if self.notes is None or not self.notes.is_of(sheet, columns):
            self.notes = Notes(sheet, columns)
        return self.notes

    def meant_of(self, reading: Reading, report: Report) -> Sheet:
        """The rows as they are meant, of which is told before all else."""
        last = self.meant
        if last is None or not last.is_of(reading):
            asked = AskedIds(reading.sure)
            meant = reading.meant(report, self.notes_of, asked)
            if last and last.sheet is reading.sheet and last.meant.is_same(meant):
                meant = last.meant
            self.meant = last = RowsMeant(reading.sheet, reading.meant_by(), asked, meant, [*report.entries])
        report.entries = [*last.entries]
        return last.meant

    def animals_of(self, reading: Reading, report: Report) -> tuple[Rows, dict[str, SheetAnimal]]:
        """The animals, and what is told of them."""
        last = self.animals
        if last is None or last.sheet is not reading.sheet or last.read_by != reading.read_by():
            meant = self.meant_of(reading, report)
            rows = reading.rows(meant, report, last.rows if last else None)
            animals = rows.animals() if Field.ID in reading.columns else {}
            self.animals = last = AnimalsRead(reading.sheet, reading.read_by(), rows, animals, [*report.entries])
        report.entries = [*last.entries]
        return last.rows, dict(zip(last.animals, copied(last.animals.values())))

    def animals_of_book(self, book: Book) -> AnimalsOfBook:
        if self.in_book is None or not self.in_book.is_of(book):
            self.in_book, self.with_new_tags = AnimalsOfBook.as_stored(book), None
        if not book.new_tags:
            return self.in_book
        if self.with_new_tags is None or self.with_new_tags.new_tags != book.new_tags:
            self.with_new_tags = AnimalsWithNewTags(book, self.in_book)
        return self.with_new_tags

    def rows_of(self, book: Book) -> RowsOfBook:
        """What the rows of the book's animals say."""
        last, in_book = self.rows_of_book, self.animals_of_book(book)
        if last is None or last.in_book is not in_book or last.owners != book.owners:
            last = last if last and last.in_book.records is in_book.records else None
            self.rows_of_book = None
            self.rows_of_book = last = RowsOfBook(book, in_book, last)
        return last

    def same_rows(self, book: Book) -> set[str]:
        """The ids of plain rows that say what the book has of their animals."""
        if self.animals is None or Field.ID not in self.animals.rows.columns:
            return set()
        plain, rows_of_book = self.animals.rows.plain, self.rows_of(book)
        last = self.same
        if last is None or last.animals is not plain.animals or last.rows_of_book is not rows_of_book:
            rows, ids = plain.by_id(), set[str]()
            if last and last.animals is plain.animals and last.rows_of_book is rows_of_book.before:
                # owners and ids alone are others: rows with none of these say what they said
                ids = last.ids - rows_of_book.found_anew
                rows = {id: rows[id] for id in rows_of_book.found_anew & rows.keys()}
            ids |= rows_of_book.same(rows)
            self.same = last = SameRows(plain.animals, rows_of_book, ids)
        return last.ids - plain.odd_ids()


# Both.


@dataclass
class ReadSheet:
    """What was read of a sheet."""

    sheet: Sheet
    columns: Columns
    rows: Rows
    animals: dict[str, SheetAnimal]
    report: Report
    in_book: AnimalsOfBook


def read_columns(
    file: GivenFile, import_options: ImportOptions, book: Book, words: RememberedWords, last: LastReading | None = None
) -> Columns:
    """The columns of a sheet, which has its rows."""
    now = read_given(import_options.columns)
    before = titles_remembered(book) | read_given(words[Remembered.COLUMNS])
    titles, worksheet = frozenset({*before.values(), *now.values()}), worksheet_before(book)
    sheet = LAST_SHEET.of(file, titles, import_options.worksheet, worksheet)
    unknown = UnknownParents(words[Remembered.UNKNOWN], words[Remembered.KNOWN])
    ids = (last.animals_of_book(book) if last else AnimalsOfBook(book)).had_row
    before = {name: title for name, title in before.items() if name.split()[0] not in now}
    none = none_said(book, read_given(words[Remembered.COLUMNS]))
    own = frozenset(plain(one.title) for one in columns_now(book.connection))
    if last:
        return last.columns_of(sheet, now, before, none, unknown, ids, own)
    return columns_told(sheet, now, before, none, unknown, ids, own)


def none_said(book: Book, said: Mapping[str, str]) -> NoneSaid:
    """The fields of which it is said that no column has them."""
    before = titles_before(book)
    titles = {name: before.get(name, "") for name, title in said.items() if not title}
    return NoneSaid(titles, {plain(one): count for one, count in refused_columns(book).items()} if titles else {})


def no_animals_before(book: Book, import_options: ImportOptions) -> dict[str, list[str]]:
    """The texts of rows that had a word by which they are no animals, where that wasn't said now."""
    now = {plain(word) for word in parts_of(import_options.no_animal)}
    words = ((parts_of([word]), texts) for word, texts in texts_of_no_animals(book).items())
    return {word: texts for those, texts in words for word in those if plain(word) not in now}


def names_of_owners(book: Book) -> dict[str, str]:
    """The owners of the book as they are written now, by their names of now and before and by their numbers as members,
    also those who have no animal any more."""
    now = {code: name for name, code in book.owners.items() if code != NO_OWNER}
    names = {name: now[code] for name, code in book.owners_came().items() if code in now}
    for code, (number, *_) in members_by_code(book.connection).items():
        if number and code in now:
            names[member_numbered(number)] = now[code]
    return names | {name: name for name in now.values()}


def sexes_of_book(sheet: Sheet, columns: Mapping[str, int], in_book: AnimalsOfBook) -> dict[str, str]:
    """The sexes of the book's animals, which are asked where a letter may stand for either."""
    texts = {*sheet.column(columns[Field.SEX])} if Field.SEX in columns else set[str]()
    return in_book.given_sexes if has_letter_beside_females(texts) else {}


def tell_other_worksheets(sheet: Sheet, animals: Container[str], book: Book, report: Report) -> None:
    """Worksheets that aren't read, with animals that neither the one which is read nor the book has."""
    for title, ids in sheet.other_ids.items():
        new = [id for id in ids if not any(id in those for those in (animals, book.society_records, book.new_tags))]
        if new:
            report.add(0, "", WorksheetUnread(title, len(new), new[0]))


def read_animals(
    file: GivenFile, import_options: ImportOptions, book: Book, words: RememberedWords, last: LastReading | None = None
) -> ReadSheet:
    """The animals of a sheet; else a mistake with all that keeps it from being read."""
    columns, report = read_columns(file, import_options, book, words, last), Report()
    sheet = columns.sheet
    in_book = last.animals_of_book(book) if last else AnimalsOfBook(book)
    reading = Reading(
        sheet, columns.found, UnknownParents(words[Remembered.UNKNOWN], words[Remembered.KNOWN]),
        read_sexes(words[Remembered.SEXES]), bool(words[Remembered.MONTH_FIRST]), words[Remembered.TOLD],
        no_animals_before(book, import_options), ids_for_sure(book, parts_of(import_options.animal)), in_book.born, names_of_owners(book),
        in_book.called_as_marks, sexes_of_book(sheet, columns.found, in_book),
    )  # fmt: skip
    rows, animals = last.animals_of(reading, report) if last else reading.animals(report)
    formulas = sheet.formulas.told([*columns.found.values()]) if sheet.formulas else []
    faults = [*sheet.faults, *formulas, *columns.faults, *rows.faults]
    if faults:
        raise ImportRefused(*faults)
    for finding in [*columns.notes, *rows.notes]:
        report.add(0, "", finding)
    tell_other_worksheets(sheet, animals, book, report)
    if not animals:
        raise ImportRefused(NoRowTaken(str(file.path)), entries=report.entries[:MOST_NAMED])
    return ReadSheet(sheet, columns, rows, animals, report, in_book)
