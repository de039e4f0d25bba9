"""What a plan assumes of a few animals, whose birth days are so many days ago."""
from __future__ import annotations

import sqlite3
from collections.abc import Iterable, Sequence
from fractions import Fraction
from types import SimpleNamespace
from typing import cast

import pytest

from gudokeyi.domain.animals import SocietyRecord
from gudokeyi.domain.kinds import Role
from gudokeyi.domain.messages import Count
from gudokeyi.domain.requests import Mating
from gudokeyi.services.matings import Candidate, Candidates
from gudokeyi.services.plans import (
    YEAR, PlanRules, UsualAge, born_at_latest, grown_up, old_enough, prepared, told_of_age, usual_age, usual_bounds,
    usual_most,
)  # fmt: skip
from gudokeyi.store.book import Book
from gudokeyi.store.mates import ages_at_first_offspring

# a number, how many days ago it was born, its parents, and where the day comes from
Born = tuple[str, int, str, str, str]


def book_of(born: Iterable[Born]) -> Book:
    """A book of living animals."""
    connection = sqlite3.connect(":memory:")
    connection.execute(
        "CREATE TABLE animal (number, born, sire, dam, birth_source, standing DEFAULT 'row', castrated DEFAULT 0, "
        "departed, exit_source DEFAULT 'given', until)"
    )
    rows = [(number, born_at_latest(days), *more) for number, days, *more in born]
    connection.executemany("INSERT INTO animal (number, born, sire, dam, birth_source) VALUES (?, ?, ?, ?, ?)", rows)
    return cast(Book, SimpleNamespace(connection=connection))


def male(at: int) -> str:
    return f"SKUDEUM{at:012}"


def female(at: int) -> str:
    return f"SKUDEUF{at:012}"


def with_first_offspring(ages: Sequence[int]) -> list[Born]:
    """Dams that were so many days old then."""
    born = [(female(at), 2000, "", "", "given") for at in range(len(ages))]
    return born + [(male(at), 2000 - age, "", female(at), "given") for at, age in enumerate(ages)]


def candidates(*days: int, has_year: bool = True) -> Candidates:
    animals = [Candidate(female(at), "", "", born_at_latest(one), "", has_year) for at, one in enumerate(days)]
    return Candidates(Role.DAM, animals)


def test_first_offspring() -> None:
    """It is the oldest one, in whatever order they are, of parents and offspring whose days are given."""
    born = [(female(0), 2000, "", "", "given"), (male(0), 1900, "", "", "given"), (female(1), 1800, "", "", "period")]
    born += [(male(1), 1500, male(0), female(0), "given"), (male(2), 1200, male(0), female(0), "given")]
    born += [(male(3), 1600, "", female(0), "given"), (male(4), 1700, male(0), female(1), "period")]
    born += [(male(5), 1400, "", female(1), "given")]
    book = book_of(born)
    # a birth day that was corrected since
    former = "INSERT INTO animal (number, born, sire, dam, birth_source, until) VALUES (?, ?, ?, ?, 'given', 2)"
    assert book.connection
    book.connection.execute(former, (male(3), born_at_latest(1700), "", female(0)))
    assert ages_at_first_offspring(book) == {female(0): 400, male(0): 400}


def test_usual_age() -> None:
    """Of twenty parents one was younger; of nineteen nothing is concluded."""
    ages = [100, 280, *range(300, 318)]
    assert usual_age(book_of(with_first_offspring(ages))) == UsualAge(280, 20)
    assert usual_age(book_of(with_first_offspring(ages[1:]))) == UsualAge(YEAR, 0)


def test_usual_most() -> None:
    """Twice the even share, rounded up, and one at least."""
    assert [usual_most(dams, sires) for dams, sires in ((8, 4), (9, 4), (1, 3), (0, 3))] == [4, 5, 1, 1]


def test_usual_bounds() -> None:
    """Whose year isn't known, or comes after today, isn't too young."""
    sire, old, of_a_year = (
        (male(0), 900, "", "", "given"),
        (female(0), 900, "", "", "given"),
        (female(1), YEAR, "", "", "given"),
    )
    young, invented, ahead = ((female(2 + at), days, "", "", source) for at, (days, source) in enumerate(
        ((YEAR - 1, "given"), (YEAR - 1, "invented"), (-5, "given"))))  # fmt: skip
    all_of_them = [sire, old, of_a_year, young, invented, ahead]
    assert usual_bounds(book_of(all_of_them)) == (UsualAge(YEAR, 0), 8)
    assert usual_bounds(book_of(all_of_them[1:])) == (UsualAge(YEAR, 0), None)


def test_old_enough() -> None:
    """Whoever is so old today is old enough; an age that nobody asked for leaves out nobody whose year isn't known."""
    days = (YEAR + 1, YEAR, YEAR - 1, 0, -1)
    some, without_year = candidates(*days), candidates(*days, has_year=False)
    assert old_enough(some, YEAR).animals == old_enough(some, YEAR).animals[:2] == some.animals[:2]
    assert grown_up(some, YEAR).animals == [some.animals[at] for at in (0, 1, 4)]
    assert grown_up(without_year, YEAR) == without_year


def test_named(monkeypatch: pytest.MonkeyPatch) -> None:
    """Young ones that are named stay, unless an age is asked; what is asked is passed on, and what isn't is told."""
    found = candidates(YEAR, YEAR - 1)
    monkeypatch.setattr("gudokeyi.services.plans.candidates_of", lambda book, role, named: found)
    named = {Role.DAM: [SocietyRecord(female(0), "a"), SocietyRecord(female(1), "b")], Role.SIRE: None}
    asked = PlanRules(at_most=Fraction(1, 8), kinship_weight=Fraction(1, 3))
    plan = prepared(book_of([]), asked, named)
    assert (plan.dams.animals, plan.sires.animals) == (found.animals, found.animals[:1])
    assert (plan.rules.most_for_a_sire, plan.rules.at_most, plan.rules.kinship_weight) == (
        4,
        Fraction(1, 8),
        Fraction(1, 3),
    )
    left_out, most = Count(1, "younger animal"), Mating.ASSUMED_MOST.said(most=4)
    assert (plan.minimum_age, plan.assumed) == (YEAR, (Mating.ASSUMED_YEAR.said(days=YEAR, count=left_out), most))
    assert prepared(book_of([]), PlanRules(minimum_age=YEAR), named).dams.animals == found.animals[:1]
    said = prepared(book_of([]), PlanRules(7, minimum_age=None), named)
    assert (said.sires, said.rules.most_for_a_sire, said.minimum_age, said.assumed) == (found, 7, None, ())
    known = Mating.ASSUMED_AGE.said(days=280, count=left_out, parents=20)
    assert told_of_age(UsualAge(280, 20), 1) == known
