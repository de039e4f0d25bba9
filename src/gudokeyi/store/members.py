"""Owners as records: what is kept of each, how many animals they have, and how what was personal is erased for good."""
from __future__ import annotations

import contextlib
import json
import sqlite3

from gudokeyi.domain.kinds import Remembered
from gudokeyi.domain.members import Member
from gudokeyi.store.conditions import IN_BOOK, IS_LIVING
from gudokeyi.store.state import MEMBERS, NOW, Values, keyed
from gudokeyi.store.transactions import checkpoint

# so short a name may be a part of other words
SHORT = 4


def members_by_code(connection: sqlite3.Connection) -> dict[int, tuple[str, str, str, str]]:
    """Member number, address, e-mail and telephone of each owner of whom anything is kept."""
    asked = f"SELECT {MEMBERS.columns} FROM member WHERE {NOW}"
    return {code: (number, address, mail, phone) for code, number, address, mail, phone in connection.execute(asked)}


def animals_by_code(connection: sqlite3.Connection) -> dict[int, tuple[int, int]]:
    """How many animals each owner has, and how many of them live."""
    asked = f"SELECT herd, count(*), sum({IS_LIVING}) FROM animal WHERE {NOW} AND {IN_BOOK} GROUP BY herd"
    return {code: (count, living or 0) for code, count, living in connection.execute(asked)}


def member_rows(member: Member | None) -> dict[Values, Values]:
    """The row of an owner; none where nothing is kept."""
    if member is None or not member.is_known:
        return {}
    row: Values = (member.owner_code, member.number, member.address, member.mail, member.telephone)
    return keyed(MEMBERS, [row])


# What was personal of an owner goes for good, also from the history: it keeps that it was.


def names_had(connection: sqlite3.Connection, owner_code: int) -> list[str]:
    """All names by which an owner was ever written."""
    found = [name for (name,) in connection.execute("SELECT name FROM owner WHERE herd = ?", (owner_code,))]
    renamed = "SELECT word, meaning FROM remembered WHERE what = ? ORDER BY since, place"
    for before, now in connection.execute(renamed, (Remembered.OWNER.value,)):
        if before in found and now not in found:
            found.append(now)
    return found


def erase(connection: sqlite3.Connection, owner_code: int, name: str) -> None:
    """Writes another name in place of all that the owner had, wherever the book has one, and takes away the record with
    all that it ever was. What is written over isn't left in the file."""
    connection.execute("PRAGMA secure_delete = ON")
    names = names_had(connection, owner_code)
    connection.execute("DELETE FROM member WHERE herd = ?", (owner_code,))
    connection.execute("UPDATE owner SET name = ? WHERE herd = ?", (name, owner_code))
    owner = Remembered.OWNER.value
    for before in names:
        connection.execute(
            "UPDATE OR REPLACE remembered SET word = ? WHERE what = ? AND word = ?", (name, owner, before)
        )
        connection.execute("UPDATE remembered SET meaning = ? WHERE what = ? AND meaning = ?", (name, owner, before))
        connection.execute("UPDATE cell SET cell_owner = ? WHERE cell_owner = ?", (name, before))
        erase_in_options(connection, before, name)
        erase_in_told(connection, before, name)
        erase_in_requests(connection, before, name)


def leave_nothing(connection: sqlite3.Connection) -> None:
    """What was written over before isn't left in any free room of the file."""
    with contextlib.suppress(sqlite3.Error):
        connection.execute("VACUUM")
        checkpoint(connection)


def erase_in_options(connection: sqlite3.Connection, before: str, name: str) -> None:
    asked = "SELECT change, place, word FROM given_option WHERE instr(word, ?)"
    for change, place, word in connection.execute(asked, (before,)).fetchall():
        found = written_over(word, before, name)
        connection.execute("UPDATE given_option SET word = ? WHERE (change, place) = (?, ?)", (found, change, place))


def erase_in_told(connection: sqlite3.Connection, before: str, name: str) -> None:
    asked = "SELECT change, place, fields FROM told WHERE instr(fields, ?)"
    written = json.dumps(before, ensure_ascii=False)[1:-1]
    for change, place, text in connection.execute(asked, (written,)).fetchall():
        fields = {key: written_over(value, before, name) for key, value in json.loads(text).items()}
        found = json.dumps(fields, ensure_ascii=False)
        connection.execute("UPDATE told SET fields = ? WHERE (change, place) = (?, ?)", (found, change, place))


def erase_in_requests(connection: sqlite3.Connection, before: str, name: str) -> None:
    """What another program asked for, and what it was answered."""
    written = json.dumps(before, ensure_ascii=False)[1:-1]
    for column in "command", "answer":
        asked = f"SELECT request, {column} FROM request WHERE instr({column}, ?)"
        for request, text in connection.execute(asked, (written,)).fetchall():
            found = json.dumps(within(json.loads(text), before, name), ensure_ascii=False)
            connection.execute(f"UPDATE request SET {column} = ? WHERE request = ?", (found, request))


def within(value: object, before: str, name: str) -> object:
    """The same with another name in each of its texts."""
    if isinstance(value, dict):
        return {key: within(one, before, name) for key, one in value.items()}
    if isinstance(value, list):
        return [within(one, before, name) for one in value]
    return written_over(value, before, name) if isinstance(value, str) else value


def written_over(text: str, before: str, name: str) -> str:
    """A text with another name; a short one is written over where it is the whole of a part alone."""
    if len(before) >= SHORT:
        return text.replace(before, name)
    return "=".join(name if part == before else part for part in text.split("="))
