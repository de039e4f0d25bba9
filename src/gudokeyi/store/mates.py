"""Who may be mated, as the book has them: one rule for advice on a dam, tables of pairs and plans. The living ones that
have a row and aren't castrated may be mated, or those that left too."""
from __future__ import annotations

import enum
import functools
import itertools
import json
from typing import Any

from gudokeyi.domain.kinds import Role
from gudokeyi.domain.provenance import BirthSource
from gudokeyi.store.book import Book
from gudokeyi.store.conditions import HAS_LEFT, IN_BOOK, LISTED, WITH_YEAR
from gudokeyi.store.state import ALL_ROWS, NOW, columns_of

# a birth day, or a list with all that it comes from where the sheet doesn't give it
BIRTH = f"""
    iif(
        birth_source = '{BirthSource.GIVEN.value}', born,
        json_array(born, birth_source, birth_period, birth_no_such_day) || ''
    )
"""


class Why(enum.IntEnum):
    """Why an animal is passed over."""

    NOT_AT_ALL = 0
    WITHOUT_ROW = 1
    LEFT = 2
    CASTRATED = 3


def reason(also_left: bool) -> str:
    """Why an animal is passed over, by what its row has; those that left may be mated too."""
    left = f"WHEN {HAS_LEFT} THEN {Why.LEFT:d}" * (not also_left)
    return f"""
        CASE
            WHEN NOT {LISTED} THEN {Why.WITHOUT_ROW:d} {left} WHEN castrated THEN {Why.CASTRATED:d}
            ELSE {Why.NOT_AT_ALL:d}
        END
    """


MAY_BE_MATED = f"{reason(False)} = {Why.NOT_AT_ALL:d}"


class MatesRead:
    """The animals of a sex, in no order: those that may be mated in columns, and who was passed over. Each column is
    read where it is first asked for."""

    def __init__(self, book: Book, role: Role, also_left: bool) -> None:
        self.book, self.role = book, role
        numbers, why = self.read("number", reason(also_left))
        self.all_numbers: list[str] = numbers
        self.why: list[int] = why
        self.all_may = not any(why)
        self.numbers = self.of_those_that_may(self.all_numbers)

    def read(self, *columns: str) -> list[Any]:
        """Columns of all of the sex. Those of one state are always in the same order."""
        return columns_of(self.book.connection, columns, f"{IN_BOOK} AND substr(number, 7, 1) = ?", (self.role.sex,))

    @functools.cached_property
    def others(self) -> tuple[list[str], list[str], list[str]]:
        """The ids and names, and the birth days, each of these a list of all that it comes from where the sheet doesn't
        give it."""
        ids, names, births = self.read("id", "name", BIRTH)
        return ids, names, births

    @functools.cached_property
    def ids(self) -> list[str]:
        return self.of_those_that_may(self.others[0])

    @functools.cached_property
    def names(self) -> list[str]:
        return self.of_those_that_may(self.others[1])

    @functools.cached_property
    def births(self) -> list[str]:
        return self.of_those_that_may(self.others[2])

    def of_those_that_may(self, column: list[str]) -> list[str]:
        return column if self.all_may else [*itertools.compress(column, (not why for why in self.why))]

    def passed_over(self, why: Why) -> list[str]:
        """The ids of those that are passed over for a reason, in age order."""
        if why not in self.why:
            return []
        ids, _, births = self.others
        rows = zip(self.why, births, self.all_numbers, ids)
        return [
            id for *_, id in sorted((birth_day(birth), number, id) for one, birth, number, id in rows if one == why)
        ]


def birth_day(birth: str) -> str:
    """That of a birth as it is read."""
    return str(json.loads(birth)[0]) if birth[:1] == "[" else birth


# How old the animals are that have offspring, and how many are old enough.


def mates_by_sex(book: Book, youngest: str, today: str) -> dict[str, int]:
    """How many of each sex may be mated, without those that are known to be born after the day `youngest`. A birth
    after today is one that was invented."""
    too_young = f"{WITH_YEAR} AND born > ? AND born <= ?"
    where = f"{NOW} AND {MAY_BE_MATED} AND NOT ({too_young})"
    asked = f"SELECT substr(number, 7, 1), count(*) FROM {ALL_ROWS} WHERE {where} GROUP BY 1"
    return dict(book.connection.execute(asked, (youngest, today)))


def ages_at_first_offspring(book: Book) -> dict[str, int]:
    """Of each parent, by its number, in days, where both birth days are given. A page waits for it beside others that
    are made: SQLite finds the first offspring by its indexes, while others go on."""
    is_given = f"{NOW} AND {IN_BOOK} AND birth_source = :given"
    first = " UNION ALL ".join(
        f"SELECT {parent}, min(born) FROM animal WHERE {is_given} AND {parent} IS NOT NULL GROUP BY {parent}"
        for parent in ("sire", "dam")
    )
    asked = f"""
        WITH first (parent, day) AS ({first})
        SELECT json_group_object(number, CAST(julianday(day) AS INTEGER) - CAST(julianday(born) AS INTEGER))
        FROM first JOIN animal ON number = parent WHERE {is_given}
    """
    found: dict[str, int] = json.loads(book.connection.execute(asked, {"given": BirthSource.GIVEN.value}).fetchone()[0])
    return found
