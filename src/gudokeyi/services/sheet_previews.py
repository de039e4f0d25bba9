"""How the columns of a sheet are understood, with its first rows; in which order its findings are told; and what it
would change, animal by animal."""
from __future__ import annotations

import collections
import hashlib
import operator
import pathlib
from collections.abc import Callable, Collection, Mapping, Sequence
from dataclasses import dataclass, fields

from gudokeyi.domain.findings import Entry, Finding, Severity, What
from gudokeyi.domain.kinds import Field
from gudokeyi.domain.messages import Mistake
from gudokeyi.ingest.columns import Columns
from gudokeyi.ingest.files import read_file
from gudokeyi.ingest.messages import SheetFault
from gudokeyi.ingest.owners_beside import first_names_column
from gudokeyi.ingest.sheets import Sheet as Sheet, SheetRow
from gudokeyi.ingest.texts import plain
from gudokeyi.reconcile.findings.animals import KeptByHand, KeptFromBook, OwnValueWritten
from gudokeyi.reconcile.findings.by_hand import NewAnimal
from gudokeyi.reconcile.import_options import ImportOptions, remember, with_settings
from gudokeyi.reconcile.kinds_of_findings import (
    Harm, KindFound as KindFound, kind_of as kind_of, kinds_found as kinds_found, place_of,
)  # fmt: skip
from gudokeyi.reconcile.outcome import Outcome
from gudokeyi.reconcile.own_sheet_columns import kind_said
from gudokeyi.services.sheet_reading import LastReading, read_columns
from gudokeyi.store.book import Book
from gudokeyi.store.own_data import columns_now

# so many of the first rows are shown, and so many letters of a cell
ROWS, LETTERS = 5, 60
# a page has so many columns at most, each of which is a choice for each field, with so many letters in their titles
MOST_COLUMNS, MOST_TITLE_LETTERS = 2_000, 100_000
# so many columns are asked for that the book doesn't know
MOST_OTHERS = 60


@dataclass(frozen=True)
class ColumnsView:
    """Each title with the field that is read from it, empty where none is; and the first rows, with their lines."""

    titles: tuple[str, ...]
    fields: tuple[str, ...]
    rows: tuple[tuple[int, tuple[str, ...]], ...]
    count: int
    # the columns that are read with that of a field, by their places
    beside: Mapping[int, str]
    # the titles that the book doesn't know, with what is kept of each: nothing where nobody was asked
    others: tuple[tuple[str, str], ...] = ()

    @property
    def asks_others(self) -> bool:
        return any(not kind for _, kind in self.others)

    def title_of(self, field: Field) -> str:
        return next((title for title, name in zip(self.titles, self.fields) if name == field), "")


def columns_shown(
    book: Book, path: pathlib.Path, import_options: ImportOptions, last: LastReading | None = None
) -> tuple[ColumnsView, Sheet]:
    """As an import finds them, and the sheet; a mistake where the file can't be read."""
    words = remember(book, with_settings(book, import_options))
    columns = read_columns(read_file(path), import_options, book, words, last)
    sheet = columns.sheet
    names = {at: name for name, at in columns.found.items()}
    if not any(sheet.titles):
        raise Mistake(SheetFault.NO_TITLES.said(path=path))
    letters = sum(map(len, sheet.titles))
    if len(sheet.titles) > MOST_COLUMNS or letters > MOST_TITLE_LETTERS:
        raise Mistake(SheetFault.MANY_COLUMNS.said(
            path=path, columns=len(sheet.titles), letters=letters, most=MOST_COLUMNS, most_letters=MOST_TITLE_LETTERS
        ))  # fmt: skip
    first_names = first_names_column(sheet, columns.found)
    view = ColumnsView(
        tuple(sheet.titles),
        tuple(names.get(at, "") for at in range(len(sheet.titles))),
        tuple((row.line, cells_shown(sheet, row, names)) for row in sheet.rows[:ROWS]),
        len(sheet.rows),
        {} if first_names is None else {first_names: Field.OWNER},
        others_of(book, columns, import_options.own, first_names),
    )
    return view, sheet


def cells_shown(sheet: Sheet, row: SheetRow, read: Collection[int]) -> tuple[str, ...]:
    """The cells of a row; those that no field is read from as the spreadsheet shows them."""
    cells = enumerate(row.cells)
    texts = (cell if at in read else sheet.shown.get((row.line, at), cell) for at, cell in cells)
    return tuple(text[:LETTERS] for text in texts)


def cells_of(sheet: Sheet, lines: Collection[int]) -> dict[int, tuple[tuple[str, str], ...]]:
    """Of each of some lines the cells that have a text, with their titles."""
    return {
        row.line: tuple((title, cell[:LETTERS]) for title, cell in zip(sheet.titles, row.cells) if cell.strip())
        for row in sheet.rows
        if row.line in lines
    }


def others_of(
    book: Book, columns: Columns, said: Sequence[str], first_names: int | None
) -> tuple[tuple[str, str], ...]:
    """The columns that have none of a book's fields, with what is kept of each by what is said now, or was once; but
    for that of the owners' first names, which are read with them."""
    kinds = {plain(one.title): one.kind.value for one in columns_now(book.connection)}
    kinds |= {plain(title): kind.value for title, kind in map(kind_said, said)}
    titles = dict.fromkeys(columns.titles_not_read())
    if first_names is not None:
        titles.pop(columns.title(first_names), None)
    return tuple((title, kinds.get(plain(title), "")) for title in [*titles][:MOST_OTHERS])


def harm_of(entry: Entry) -> tuple[bool, tuple[Harm, bool, int]]:
    """The greatest harm comes first, and what is as the sheet says it behind all that may be wrong."""
    return entry.finding.does() is Severity.NONE, place_of(entry.finding)


# What a sheet would change, animal by animal: so it is seen of which of them a look holds no more, since others changed
# the book meanwhile.

DIGEST_BYTES = 8
# what says that a sheet doesn't change something, since the book has it
STAYS = (KeptByHand, KeptFromBook)


def changes_by_animal(outcome: Outcome, drops_gone: bool) -> dict[str, bytes]:
    """What is told of each animal, as digests, with the values of the society's own columns, of which the report has
    some of the first alone. What has no row stays as it is, unless it is dropped, and so does what was filed by hand; a
    new animal has whichever number is free."""
    told = collections.defaultdict[str, list[str]](list)
    kinds = {type(entry.finding) for entry in outcome.report.entries}
    values_of = {kind: values_told(kind) for kind in kinds if changes_something(kind, drops_gone)}
    for entry in outcome.report.entries:
        kind = type(entry.finding)
        if kind in values_of and entry.id:
            told[entry.id].append(f"{entry.line} {kind.code} {values_of[kind](entry.finding)}")
    for id, values_of_it in outcome.own_values.items():
        told[id] += map(repr, values_of_it)
    texts = {id: (one[0] if len(one) == 1 else repr(sorted(one))).encode() for id, one in told.items()}
    return {id: hashlib.blake2b(text, digest_size=DIGEST_BYTES).digest() for id, text in texts.items()}


def changes_something(kind: type[Finding], drops_gone: bool) -> bool:
    return not issubclass(kind, (*STAYS, OwnValueWritten)) and (kind.what is not What.GONE or drops_gone)


def values_told(kind: type[Finding]) -> Callable[[Finding], object]:
    """What gets the values of a finding of a kind: that is a fraction of what its text takes."""
    names = [] if issubclass(kind, NewAnimal) else [one.name for one in fields(kind)]
    if not names:
        return lambda _: ""
    return operator.attrgetter(*names)


def animals_otherwise(before: Mapping[str, bytes], now: Mapping[str, bytes]) -> tuple[str, ...]:
    """The animals of which something else would be changed than it was."""
    return tuple(sorted(id for id in before.keys() | now.keys() if before.get(id) != now.get(id)))
