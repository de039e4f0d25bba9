"""The plan of a book's matings: what it assumes where nobody says otherwise, its coefficients, its table, and what is
told of it."""
from __future__ import annotations

import datetime
from collections.abc import Mapping, Sequence
from dataclasses import dataclass, replace
from fractions import Fraction

from gudokeyi.domain.animals import SocietyRecord
from gudokeyi.domain.decimals import percent
from gudokeyi.domain.kinds import Role
from gudokeyi.domain.messages import Count, MessageText, counted, some_of
from gudokeyi.domain.requests import Mating
from gudokeyi.genetics.breed_state import Step as Step
from gudokeyi.genetics.plans import Assume as Assume, Bound, Plan, Rules, Unmated as Unmated, plan_of
from gudokeyi.services.book_program import BookProgram
from gudokeyi.services.matings import COLUMNS, Candidates, candidates_of
from gudokeyi.services.relationships import Pairs, pairs_of
from gudokeyi.services.tables import Cell, Kind, Table
from gudokeyi.store.book import Book
from gudokeyi.store.mates import ages_at_first_offspring, mates_by_sex

# What a plan of matings assumes where nobody says otherwise: it is read from the book, whose species isn't known.

# of so few parents nothing is concluded, and an animal of a year is old enough
FEWEST_PARENTS, YEAR = 20, 365
# one of so many parents was younger at its first offspring
ONE_OF = 20
# a sire has so many times as many dams as if all sires had the same
TIMES = 2


Named = Mapping[Role, Sequence[SocietyRecord] | None]
ALL: Named = {Role.DAM: None, Role.SIRE: None}


@dataclass(frozen=True)
class PlanRules:
    """What is asked of a plan: how many dams a sire has at most, the greatest coefficient, from 0 to 1, how old animals
    are at least in days, and as how much of a coefficient a sire's mean kinship counts. None is no bound, and
    `Assume.USUAL` the one that is assumed of the book."""

    most_for_a_sire: Bound = Assume.USUAL
    at_most: Fraction | None = None
    minimum_age: Bound = Assume.USUAL
    kinship_weight: Fraction = Fraction(0)


@dataclass(frozen=True)
class UsualAge:
    """So many days old parents are at their first offspring, and of how many parents that is known; 0 where these are
    too few, and it is a year."""

    days: int
    parents: int


@dataclass(frozen=True)
class Prepared:
    """Who may be mated, by which rules, and what was assumed, in sentences."""

    dams: Candidates
    sires: Candidates
    rules: Rules
    minimum_age: int | None
    assumed: tuple[MessageText, ...]


def prepared(book: Book, asked: PlanRules, named: Named = ALL) -> Prepared:
    """Of animals that are named none is left out by an age that nobody asked for."""
    found = {role: candidates_of(book, role, animals) for role, animals in named.items()}
    age, assumed = asked.minimum_age, []
    if isinstance(age, Assume):
        usual = usual_age(book)
        age = usual.days
        grown = {role: found[role] if named[role] else grown_up(found[role], age) for role in found}
        assumed.append(told_of_age(usual, sum(len(found[role].animals) - len(grown[role].animals) for role in found)))
    else:
        grown = {role: old_enough(found[role], age) for role in found} if age else found
    dams, sires = grown[Role.DAM], grown[Role.SIRE]
    most = asked.most_for_a_sire
    if isinstance(most, Assume):
        most = usual_most(len(dams.animals), len(sires.animals))
        assumed.append(Mating.ASSUMED_MOST.said(most=most))
    return Prepared(dams, sires, Rules(most, asked.at_most, asked.kinship_weight), age, tuple(assumed))


def usual_bounds(book: Book) -> tuple[UsualAge, int | None]:
    """The usual age, and most dams for a sire where nobody is named; none where there is no sire. Nobody is looked at
    one by one: a page waits for it."""
    usual = usual_age(book)
    counts = mates_by_sex(book, born_at_latest(usual.days), born_at_latest(0))
    dams, sires = (counts.get(role.sex, 0) for role in (Role.DAM, Role.SIRE))
    return usual, usual_most(dams, sires) if sires else None


def usual_age(book: Book) -> UsualAge:
    ages = sorted(ages_at_first_offspring(book).values())
    if len(ages) < FEWEST_PARENTS:
        return UsualAge(YEAR, 0)
    return UsualAge(ages[len(ages) // ONE_OF], len(ages))


def usual_most(dams: int, sires: int) -> int:
    return max(1, -(-TIMES * dams // sires))


def told_of_age(usual: UsualAge, left_out: int) -> MessageText:
    count = Count(left_out, "younger animal")
    if not usual.parents:
        return Mating.ASSUMED_YEAR.said(days=usual.days, count=count)
    return Mating.ASSUMED_AGE.said(days=usual.days, count=count, parents=usual.parents)


def old_enough(candidates: Candidates, days: int) -> Candidates:
    """Those that are so many days old, by their birth days as the book has them."""
    youngest = born_at_latest(days)
    old = [one for one in candidates.animals if one.born <= youngest]
    return replace(candidates, animals=old).needed(Mating.NONE_SO_OLD.said())


def grown_up(candidates: Candidates, days: int) -> Candidates:
    """Those of which it isn't known that they are younger. A day after today is one that was invented."""
    youngest, today = born_at_latest(days), born_at_latest(0)
    old = [one for one in candidates.animals if not (one.has_year and youngest < one.born <= today)]
    return replace(candidates, animals=old).needed(Mating.NONE_SO_OLD.said())


def born_at_latest(days: int) -> str:
    return (datetime.date.today() - datetime.timedelta(days=days)).isoformat()


# The plan of a book's matings: by which coefficients it is made, its table, and what is told of it.


@dataclass(frozen=True)
class Planned:
    """The plan, and all pairs of those that may be mated."""

    plan: Plan
    pairs: Pairs


def best_plan(book: Book, program: BookProgram, dams: Candidates, sires: Candidates, rules: Rules) -> Planned:
    pairs = pairs_of(book, program, dams.numbers, sires.numbers)
    values = {pair: one.value for pair, one in pairs.coefficients.items()}
    kinships = mean_kinships(book, sires.numbers) if rules.kinship_weight else {}
    return Planned(plan_of(dams.numbers, sires.numbers, values, rules, kinships), pairs)


def mean_kinships(book: Book, sires: Sequence[str]) -> dict[str, Fraction]:
    """The sires' mean kinship with the living animals."""
    from gudokeyi.genetics.kinship import Kinship
    from gudokeyi.services.breed_pedigree import breed_of, living

    breed = breed_of(book)
    of_each = Kinship.of(breed.pedigree).mean_of_each(living(breed))
    return {number: of_each[breed.ranks[number]] for number in sires}


def plan_table(book: Book, found: Planned, all_pairs: bool) -> Table:
    """The plan's matings, or all pairs with a mark at those of the plan."""
    planned = [(mating.dam, mating.sire) for mating in found.plan.matings]
    marks = dict.fromkeys(planned, "yes")
    rows: list[Sequence[Cell]] = []
    for pair in list(found.pairs.coefficients) if all_pairs else planned:
        one, ids = found.pairs.coefficients[pair], (book.ids[number] for number in pair)
        rows.append((*ids, one.fraction, one.decimal(), one.percent, *[marks.get(pair, "")] * all_pairs))
    return Table.of_rows([*COLUMNS, *[("planned", Kind.PLAIN)] * all_pairs], rows)


def told_of(book: Book, found: Planned) -> list[str]:
    """How good the plan is, and who isn't mated."""
    plan = found.plan
    told = []
    for why in Unmated:
        dams = [book.ids[dam] for dam, reason in plan.unmated.items() if reason is why]
        if dams:
            told.append(f"not mated, since {why.value}: {counted(len(dams), 'dam')}: {some_of(dams)}")
    if plan.mean is not None and plan.mean_of_allowed is not None:
        told.append(
            f"{counted(len(plan.matings), 'mating')}: the mean coefficient of the offspring is {percent(plan.mean)}%; "
            f"the mean of all {plan.allowed:,} pairs that are allowed would be {percent(plan.mean_of_allowed)}%"
        )
    return told
