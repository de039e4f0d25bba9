"""What the society keeps of its animals beside the register: notes, its own columns and their values. Each stands by
the digits of an animal's number, which stay whatever it is called, and holds between two changes as all of the
state."""
from __future__ import annotations

import json
import sqlite3
from collections.abc import Iterable, Mapping
from typing import NamedTuple

from gudokeyi.domain.folding import folded
from gudokeyi.domain.own_columns import Note, OtherDifference, OwnColumn, OwnKind
from gudokeyi.store.state import NOTES, NOW, OWN_COLUMNS, OWN_VALUES, Rows, Values, keyed

# Notes.


def note_row(digits: str, note: Note) -> Values:
    return digits, note.number, note.day, note.author, note.text, folded(note.text)


def notes_of(connection: sqlite3.Connection, digits: str) -> list[Note]:
    """Those of an animal, the newest day first."""
    asked = f"SELECT note, day, author, text FROM note WHERE digits = ? AND {NOW} ORDER BY day DESC, note DESC"
    return [Note(*row) for row in connection.execute(asked, (digits,))]


def next_note(connection: sqlite3.Connection, digits: str) -> int:
    """A number that no note of the animal has or had."""
    found = connection.execute("SELECT ifnull(max(note), 0) + 1 FROM note WHERE digits = ?", (digits,))
    return int(found.fetchone()[0])


class NoteEver(NamedTuple):
    """A note that an animal has or had."""

    number: int
    text: str
    is_now: bool


def notes_ever(connection: sqlite3.Connection, digits: Iterable[str]) -> dict[str, list[NoteEver]]:
    """All notes that some animals have or had, by the digits of these."""
    asked = f"SELECT digits, note, text, {NOW} FROM note WHERE digits IN (SELECT value FROM json_each(?))"
    found: dict[str, list[NoteEver]] = {}
    for of, number, text, is_now in connection.execute(asked, (json.dumps([*digits]),)):
        found.setdefault(of, []).append(NoteEver(number, text, bool(is_now)))
    return found


def rows_of_note(digits: str, before: Note | None, after: Note | None) -> Rows:
    """The rows before and after a change of one note; none where there is no note."""
    both = ([note_row(digits, one)] if one else [] for one in (before, after))
    return Rows(*(keyed(NOTES, rows) for rows in both))


# The society's own columns.


def columns_now(connection: sqlite3.Connection) -> list[OwnColumn]:
    """All columns that somebody was asked for, in order."""
    return [column_of(row) for row in connection.execute(f"SELECT {OWN_COLUMNS.columns} FROM own_column WHERE {NOW}")]


def column_of(row: tuple[int, str, str, str, int]) -> OwnColumn:
    place, title, kind, choices, certified = row
    return OwnColumn(place, title, OwnKind(kind), tuple(choices.splitlines()), certified == 1)


def next_place(connection: sqlite3.Connection) -> int:
    """A place that no column has or had."""
    return int(connection.execute("SELECT ifnull(max(place), 0) + 1 FROM own_column").fetchone()[0])


def rows_of_columns(columns: Iterable[OwnColumn]) -> dict[Values, Values]:
    rows = ((one.place, one.title, one.kind.value, "\n".join(one.choices), int(one.is_certified)) for one in columns)
    return keyed(OWN_COLUMNS, rows)


# Their values.


def value_row(digits: str, place: int, value: str, cell: str | None) -> Values:
    """`cell` is what the last sheet had, none where no sheet had the column."""
    return digits, place, value, folded(value), cell


def values_of(connection: sqlite3.Connection, digits: str) -> dict[int, str]:
    """Those of an animal by the places of their columns."""
    asked = f"SELECT place, value FROM own_value WHERE digits = ? AND {NOW} AND value <> ''"
    return dict(connection.execute(asked, (digits,)))


def value_rows_of(connection: sqlite3.Connection, digits: str) -> dict[Values, Values]:
    asked = f"SELECT {OWN_VALUES.columns} FROM own_value WHERE digits = ? AND {NOW}"
    return keyed(OWN_VALUES, connection.execute(asked, (digits,)))


def value_rows_at(connection: sqlite3.Connection, places: Iterable[int]) -> dict[Values, Values]:
    """All rows of some columns."""
    asked = f"SELECT {OWN_VALUES.columns} FROM own_value WHERE place IN (SELECT value FROM json_each(?)) AND {NOW}"
    return keyed(OWN_VALUES, connection.execute(asked, (json.dumps([*places]),)))


def values_at(connection: sqlite3.Connection, place: int) -> dict[str, str]:
    """The values of a column by the digits of the animals' numbers."""
    return dict(connection.execute(f"SELECT digits, value FROM own_value WHERE place = ? AND {NOW}", (place,)))


def values_used(connection: sqlite3.Connection, place: int, most: int) -> list[str]:
    """Different values of a column, as many as are found first."""
    asked = f"SELECT DISTINCT value FROM own_value WHERE place = ? AND {NOW} AND value <> '' LIMIT ?"
    return sorted(value for (value,) in connection.execute(asked, (place, most)))


def texts_kept(connection: sqlite3.Connection, digits: str) -> list[str]:
    """All that stands in the notes and columns of an animal."""
    asked = f"""
        SELECT text FROM note WHERE digits = :digits AND {NOW}
        UNION ALL SELECT value FROM own_value WHERE digits = :digits AND {NOW} AND value <> ''
    """
    return [text for (text,) in connection.execute(asked, {"digits": digits})]


# What changes made of notes and values.

# a column by the last row that it had until a change: what it is called then
CALLED = """
    (SELECT title FROM own_column WHERE own_column.place = one.place ORDER BY since DESC LIMIT 1),
    (SELECT kind FROM own_column WHERE own_column.place = one.place AND kind <> 'none' ORDER BY since DESC LIMIT 1)
"""
OF_VALUES = f"SELECT digits, since, until, place, {CALLED}, value FROM own_value AS one WHERE "
OF_NOTES = f"SELECT digits, since, until, note, '', '{OwnKind.TEXT.value}', text FROM note WHERE "


def differences_by_change(connection: sqlite3.Connection, digits: str) -> dict[int, list[OtherDifference]]:
    """What changes made of the notes and values of an animal, by their numbers."""
    found: dict[int, dict[tuple[str, int], list[str]]] = {}
    titles: dict[tuple[str, int], tuple[str, OwnKind]] = {}
    for of, asked in (("value", OF_VALUES), ("note", OF_NOTES)):
        for _, since, until, place, title, kind, text in connection.execute(f"{asked} digits = ?", (digits,)):
            titles[of, place] = title, OwnKind(kind)
            found.setdefault(since, {}).setdefault((of, place), ["", ""])[1] = text
            if until is not None:
                found.setdefault(until, {}).setdefault((of, place), ["", ""])[0] = text
    return {number: differences(those, titles) for number, those in found.items()}


def digits_changed(connection: sqlite3.Connection, number: int, most: int) -> tuple[int, list[str]]:
    """Of how many animals whose rows stayed a change wrote notes or values, and the first by their digits."""
    tables = OWN_VALUES.name, NOTES.name
    its = " UNION ".join(f"SELECT digits FROM {table} WHERE :change IN (since, until)" for table in tables)
    only = f"{its} EXCEPT SELECT substr(number, 8) FROM animal WHERE :change IN (since, until)"
    asked = {"change": number, "most": most}
    count = connection.execute(f"SELECT count(*) FROM ({only})", asked).fetchone()[0]
    first = connection.execute(f"SELECT digits FROM ({only}) ORDER BY digits LIMIT :most", asked)
    return count, [digits for (digits,) in first]


def differences_of_change(
    connection: sqlite3.Connection, number: int, among: Iterable[str]
) -> dict[str, list[OtherDifference]]:
    """What a change made of notes and values of some animals, by the digits of these."""
    some = json.dumps([*among])
    found: dict[str, dict[tuple[str, int], list[str]]] = {}
    titles: dict[tuple[str, int], tuple[str, OwnKind]] = {}
    for of, asked in (("value", OF_VALUES), ("note", OF_NOTES)):
        for at, column in ((0, "until"), (1, "since")):
            its = f"{asked} digits IN (SELECT value FROM json_each(?)) AND {column} = ?"
            for digits, _, _, place, title, kind, text in connection.execute(its, (some, number)):
                titles[of, place] = title, OwnKind(kind)
                found.setdefault(digits, {}).setdefault((of, place), ["", ""])[at] = text
    both = {digits: differences(those, titles) for digits, those in found.items()}
    return {digits: those for digits, those in both.items() if those}


def differences(
    around: Mapping[tuple[str, int], list[str]], titles: Mapping[tuple[str, int], tuple[str, OwnKind]]
) -> list[OtherDifference]:
    return [
        OtherDifference(*titles[which], before, after)
        for which, (before, after) in sorted(around.items(), key=lambda one: (one[0][0] == "note", one[0][1]))
        if before != after
    ]


def ids_with_digits(connection: sqlite3.Connection, digits: Iterable[str], number: int) -> dict[str, str]:
    """The ids that animals had after a change, by the digits of their numbers."""
    asked = """
        SELECT substr(number, 8), id FROM animal WHERE substr(number, 8) IN (SELECT value FROM json_each(?))
        AND since <= ? AND (until IS NULL OR until >= ?) ORDER BY since
    """
    return dict(connection.execute(asked, (json.dumps([*digits]), number, number)))
