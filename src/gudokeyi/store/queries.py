"""What is asked of many animals at once: columns of all of them in age order, when each dam bore her offspring, and how
many ancestors one has."""
from __future__ import annotations

import json
from collections.abc import Sequence
from typing import Any

from gudokeyi.domain.messages import CALLED, Count
from gudokeyi.domain.mistakes import BookNotWhole
from gudokeyi.domain.provenance import BirthSource
from gudokeyi.store.book import Book
from gudokeyi.store.conditions import ANY, IN_BOOK, Condition
from gudokeyi.store.messages import BookFault
from gudokeyi.store.state import ALL_ROWS, NOW

# whether an animal comes from a stored embryo, as a sheet says it
EMBRYO = "iif(embryo, '1', '')"
# how many offspring an animal has in the book
OFFSPRING = " + ".join(
    f"(SELECT count(*) FROM animal AS offspring WHERE offspring.until IS NULL AND offspring.{role} = animal.number)"
    for role in ("sire", "dam")
)

# Reads what is asked for of many animals, as values and in age order: the quickest way to a list of all of them.

# where an animal stands in age order, and its coefficient
PLACE, FRACTION, PERCENT = "place", "fraction", "percent"
WITH_COEFFICIENT = f"{ALL_ROWS} LEFT JOIN coefficient USING (number)"
ALL_WITH_COEFFICIENT = "coefficient CROSS JOIN animal USING (number)"


def selected(book: Book, wanted: Sequence[str], condition: Condition = ANY) -> list[tuple[Any, ...]]:
    """These columns of each animal for which a condition holds: of its row, or of its coefficient. A column may be an
    expression."""
    source, order = ALL_ROWS, "born, number"
    of_coefficient = [at for at, one in enumerate(wanted) if one in (PLACE, FRACTION, PERCENT)]
    if of_coefficient:
        source, order = ALL_WITH_COEFFICIENT if condition == ANY else WITH_COEFFICIENT, PLACE
    where = f"{NOW} AND {IN_BOOK} AND {condition.text}"
    asked = f"SELECT {', '.join(wanted)} FROM {source} WHERE {where} ORDER BY {order}"
    found = book.connection.execute(asked, condition.values).fetchall()
    # an animal without a coefficient comes first; of all animals it is left out, which their number tells
    if of_coefficient and (condition == ANY or (found and found[0][of_coefficient[0]] is None)):
        check_coefficients(book)
    return found


def check_coefficients(book: Book) -> None:
    """A mistake where not each animal has a coefficient: it would be left out without a word."""
    animals = f"SELECT count(*) FROM {ALL_ROWS} WHERE {NOW} AND {IN_BOOK}"
    there, kept = book.connection.execute(f"SELECT ({animals}), (SELECT count(*) FROM coefficient)").fetchone()
    if there != kept:
        counts = {"kept": Count(kept, "coefficient"), "there": Count(there, "animal")}
        raise BookNotWhole(BookFault.COEFFICIENTS_LACK.said(path=book.path, **counts, called=CALLED))


def known_parents(book: Book) -> dict[str, list[str]]:
    """The numbers of each animal's known parents, in age order."""
    return {
        number: [parent for parent in parents if parent]
        for number, *parents in selected(book, ("number", "sire", "dam"))
    }


# An animal's ancestors, which the database counts by itself: so not all animals are read for one.

ANCESTORS = """
    WITH RECURSIVE ancestor (number) AS (
        SELECT sire FROM animal WHERE until IS NULL AND number = :number AND sire IS NOT NULL
        UNION SELECT dam FROM animal WHERE until IS NULL AND number = :number AND dam IS NOT NULL
        UNION SELECT sire FROM ancestor CROSS JOIN animal USING (number) WHERE until IS NULL AND sire IS NOT NULL
        UNION SELECT dam FROM ancestor CROSS JOIN animal USING (number) WHERE until IS NULL AND dam IS NOT NULL
    )
    SELECT count(*) FROM ancestor
"""


def count_of_ancestors(book: Book, number: str) -> int:
    """How many known ancestors it has. They are counted there: of thousands of rows each would wait for the other
    threads of a desk, for seconds together."""
    return int(book.connection.execute(ANCESTORS, {"number": number}).fetchone()[0])


# The births of each dam that bore several offspring, on days that were given: as one text, for the same reason.

BIRTHS = f"""
    SELECT json_group_array(json(births)) FROM (
        SELECT json_group_array(CAST(julianday(born) AS INTEGER)) AS births FROM animal
        WHERE {NOW} AND {IN_BOOK} AND dam IS NOT NULL AND embryo = 0 AND birth_source = '{BirthSource.GIVEN.value}'
        GROUP BY dam HAVING count(*) > 1
    )
"""


def births_of_dams(book: Book) -> list[list[int]]:
    """For each dam the days of births, counted from one day."""
    births: list[list[int]] = json.loads(book.connection.execute(BIRTHS).fetchone()[0])
    return births
