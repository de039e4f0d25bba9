"""The society's own columns, and their values for an animal: set up and written as changes of their own. Who shows
values waits for nothing that writing them needs."""
from __future__ import annotations

from collections.abc import Mapping, Sequence

from gudokeyi.domain.animals import SocietyRecord
from gudokeyi.domain.changes import Change, ChangeDetails
from gudokeyi.domain.kinds import ChangeKind
from gudokeyi.domain.messages import Mistake
from gudokeyi.domain.mistakes import InvalidValue
from gudokeyi.domain.own_columns import MOST_CHOICES, MOST_COLUMNS, MOST_IN_TITLE, OwnColumn, OwnKind, OwnValue
from gudokeyi.domain.requests import OwnFault, refuse_unseen
from gudokeyi.ingest.texts import clean, plain
from gudokeyi.services.book_program import BookProgram
from gudokeyi.store import own_data
from gudokeyi.store.book import Book
from gudokeyi.store.conditions import NOBODY, Condition, with_own_value
from gudokeyi.store.journal import Filed
from gudokeyi.store.state import OWN_COLUMNS, OWN_VALUES, Rows, State, Values


def all_columns(book: Book) -> list[OwnColumn]:
    """Also those that somebody was asked for and that aren't kept."""
    return own_data.columns_now(book.connection)


def columns_of(book: Book) -> list[OwnColumn]:
    return [one for one in all_columns(book) if one.is_kept]


def values_of(book: Book, animal: SocietyRecord) -> list[OwnValue]:
    """A value for each column, empty where there is none."""
    columns = columns_of(book)
    values = own_data.values_of(book.connection, animal.digits) if columns else {}
    return [OwnValue(column, values.get(column.place, "")) for column in columns]


def certified_values(book: Book, animal: SocietyRecord) -> list[OwnValue]:
    """Those that stand on its certificate."""
    return [one for one in values_of(book, animal) if one.column.is_certified and one.value]


def next_place(book: Book) -> int:
    """That of a new column."""
    return own_data.next_place(book.connection)


def values_used(book: Book, column: OwnColumn) -> list[str]:
    """The different values of a column, as a filter offers them."""
    return [*column.choices] or own_data.values_used(book.connection, column.place, MOST_CHOICES)


def condition_of_value(book: Book, place: int, text: str) -> Condition:
    """What holds for an animal that has a text in a column, or anything where no text is said."""
    column = next((one for one in columns_of(book) if one.place == place), None)
    if column is None:
        return NOBODY
    from gudokeyi.reconcile.own_values import value_read

    if column.kind in (OwnKind.TEXT, OwnKind.CHOICE):
        return with_own_value(place, clean(text), is_whole=False)
    return with_own_value(place, value_read(column, text), is_whole=bool(clean(text)))


def set_columns(book: Book, program: BookProgram, columns: Sequence[OwnColumn], form: str = "") -> Change:
    """From now on the society has these columns. Values of one that goes stay in the history."""
    from gudokeyi.services.writing import write

    before = all_columns(book)
    after = [checked(one, columns) for one in columns]
    if sum(one.is_kept for one in after) > MOST_COLUMNS:
        raise InvalidValue(OwnFault.MANY_COLUMNS.said(most=MOST_COLUMNS))
    if after == before:
        raise Mistake(OwnFault.AS_IT_IS.said())
    kinds = {one.place: one for one in before}
    for one in after:
        if one.place in kinds and (kinds[one.place].kind, kinds[one.place].choices) != (one.kind, one.choices):
            refuse_unreadable(book, one)
    rows = Rows(own_data.rows_of_columns(before), own_data.rows_of_columns(after))
    made = ChangeDetails(ChangeKind.OWN_COLUMNS, counts=(("columns", sum(one.is_kept for one in after)),), form=form)
    state = State(Rows({}, {}), keeps_coefficients=True, others=((OWN_COLUMNS, rows),))
    return write(book, program, Filed([]), lambda _: state, made)


def checked(column: OwnColumn, columns: Sequence[OwnColumn]) -> OwnColumn:
    """A column as it can be kept; a mistake where it can't."""
    refuse_unseen(column.title, *column.choices)
    if not column.title:
        raise InvalidValue(OwnFault.NO_TITLE.said())
    if len(column.title) > MOST_IN_TITLE:
        raise InvalidValue(OwnFault.LONG_TITLE.said(most=MOST_IN_TITLE, count=len(column.title)))
    if any(one.place != column.place and plain(one.title) == plain(column.title) for one in columns):
        raise InvalidValue(OwnFault.TITLE_TAKEN.said(title=column.title))
    if column.kind is OwnKind.CHOICE and not column.choices:
        raise InvalidValue(OwnFault.NO_CHOICES.said())
    if len(column.choices) > MOST_CHOICES:
        raise InvalidValue(OwnFault.MANY_CHOICES.said(title=column.title, most=MOST_CHOICES))
    return column


def refuse_unreadable(book: Book, column: OwnColumn) -> None:
    """A mistake where a value that is there can't be one of the column as it is to be."""
    from gudokeyi.reconcile.own_values import value_read

    for value in {*own_data.values_at(book.connection, column.place).values()} if column.is_kept else ():
        value_read(column, value)


def write_values(
    book: Book, program: BookProgram, animal: SocietyRecord, written: Mapping[int, str], form: str = ""
) -> Change:
    """Writes values of an animal by the places of their columns; the others stay."""
    from gudokeyi.domain.findings import Entry
    from gudokeyi.reconcile.findings.animals import OwnValueWritten
    from gudokeyi.reconcile.own_values import value_read
    from gudokeyi.reconcile.stored_findings import told_of
    from gudokeyi.services.writing import write

    columns = {one.place: one for one in columns_of(book)}
    kept = own_data.value_rows_of(book.connection, animal.digits)
    before: dict[Values, Values] = {}
    after: dict[Values, Values] = {}
    told = []
    for place, text in written.items():
        key: Values = (animal.digits, place)
        was = kept.get(key)
        value, old = value_read(columns[place], clean(text)), str(was[2]) if was else ""
        if value == old:
            continue
        before |= {key: was} if was else {}
        cell = was[4] if was else None
        after[key] = own_data.value_row(animal.digits, place, value, None if cell is None else str(cell))
        told.append(told_of(Entry(0, animal.id, OwnValueWritten(columns[place].title, value, old))))
    if not after:
        raise Mistake(OwnFault.AS_IT_IS.said())
    made = ChangeDetails(ChangeKind.OWN_VALUES, told=tuple(told), form=form)
    state = State(Rows({}, {}), keeps_coefficients=True, others=((OWN_VALUES, Rows(before, after)),))
    return write(book, program, Filed([]), lambda _: state, made)
