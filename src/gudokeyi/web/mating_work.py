"""The plan of matings for all living dams, which is made in a process beside the server, and advice on the matings of a
dam, which the program's session gives."""
from __future__ import annotations

import contextlib
import functools
import pathlib
import time
from dataclasses import dataclass
from fractions import Fraction

from gudokeyi.domain.animals import SocietyRecord
from gudokeyi.domain.changes import Mark
from gudokeyi.domain.kinds import Doing, Role
from gudokeyi.domain.messages import MessageText, Mistake
from gudokeyi.domain.requests import Mating, WebFault
from gudokeyi.services.book_program import BookProgram
from gudokeyi.services.book_session import BookMoved
from gudokeyi.services.cache import mark_of
from gudokeyi.services.history import change_numbered
from gudokeyi.services.matings import Advice, advice_of, all_candidates, by_mating
from gudokeyi.services.opening import Book, BookFault, only_read
from gudokeyi.services.plans import PlanRules, Planned, Prepared, Unmated, best_plan, plan_table, prepared, usual_bounds
from gudokeyi.services.relationships import coefficients_told
from gudokeyi.services.tables import Table
from gudokeyi.web.served_book import ServedBook
from gudokeyi.web.work_places import PLANNING
from gudokeyi.web.workers import ADVICE, PLAN, Job, Stage, Tell

# The plan of matings for all living dams, which is made in a process beside the server; what the program's session says
# of its matings is compared with it before it is shown.

# so long a plan that was made is shown though somebody changed the book since, in seconds
SECONDS_SHOWN = 60
# so often it is made of a book that somebody changes
TRIES_FOR_PLAN = 5
# so often somebody may change it while a plan that is made is compared
TRIES_TO_COMPARE = 1_000


@dataclass(frozen=True, slots=True)
class Mate:
    registration_number: str
    id: str
    name: str


@dataclass(frozen=True, slots=True)
class Pair:
    dam: Mate
    sire: Mate
    fraction: str
    coefficient: Fraction


@dataclass(frozen=True)
class Bounds:
    """How many dams a sire has at most, and how old parents are at least, and what of it was assumed."""

    most_for_a_sire: int | None
    minimum_age: int | None
    assumed: tuple[MessageText, ...]


@dataclass(frozen=True)
class PlanMade:
    """The matings, which dams have none and why, and the means, of the book with a mark; `table` is what the word
    `plan` writes."""

    mark: Mark
    bounds: Bounds
    pairs: list[Pair]
    unmated: dict[Unmated, list[Mate]]
    mean: Fraction | None
    allowed: int
    mean_of_allowed: Fraction | None
    table: Table


def usual_of(served: ServedBook, book: Book) -> Bounds:
    """The bounds that are assumed where nothing is said."""

    def usual() -> Bounds:
        age, most = usual_bounds(book)
        return Bounds(most, age.days, ())

    return served.kept.of(book, ("usual bounds",), usual)


def bounds_of(among: Prepared) -> Bounds:
    return Bounds(among.rules.most_for_a_sire, among.minimum_age, among.assumed)


def plan_for(served: ServedBook, book: Book, asked: PlanRules) -> Job:
    """The work on the plan for the book as it is now, which is begun where it wasn't."""
    # at a book that others change all the time nobody would ever see one that is of its last change
    made = served.jobs.under_way(PLAN, asked) or served.jobs.latest(PLAN, asked)
    if made and (not made.ended or is_fresh(made, book)):
        return made
    key = (PLAN, mark_of(book), asked)
    return served.jobs.here(key, functools.partial(plan_of_now, served, asked))


def is_fresh(made: Job, book: Book) -> bool:
    """Is a plan one of the book of now, or of a moment ago?"""
    assert isinstance(made.value, PlanMade)
    is_of_now = made.value.mark == mark_of(book)
    return is_of_now or (has_had(book, made.value.mark) and time.monotonic() - made.ended < SECONDS_SHOWN)


def has_had(book: Book, mark: Mark) -> bool:
    """Is it that of a state of this book? One of another history may have the number of one of its changes."""
    change = change_numbered(book, mark[0])
    return change is not None and change.mark == mark


def plan_of_now(served: ServedBook, asked: PlanRules) -> PlanMade:
    """That of the book as it is, also where somebody changes it meanwhile."""
    for _ in range(TRIES_FOR_PLAN):
        with contextlib.suppress(BookMoved, PlanOutdated), served.opened() as book:
            if book is None:
                raise Mistake(BookFault.NO_BOOK.said(folder=served.folder, there="", hint=""))
            job = served.jobs.of((PLANNING, mark_of(book), asked), planned, (served.folder, asked))
            while not job.is_over.wait(1):
                # whoever looks at the plan asks for it
                served.jobs.found(job.key)
            served.jobs.forget(job.key)
            if job.stage is not Stage.DONE:
                raise Mistake(*job.failed.sentences)
            assert isinstance(job.value, PlanMade)
            compare(served, job.value)
            return job.value
    raise Mistake(BookFault.ALWAYS_CHANGED.said(path=served.folder))


class PlanOutdated(Exception):
    """What somebody changed since a plan was made changes one of its matings."""


def compare(served: ServedBook, plan: PlanMade) -> None:
    """Asks the session for the matings of a plan, also where somebody changes the book meanwhile; a mistake where it
    says something else of the book of the plan."""
    # those of a sire are asked for together
    in_order = sorted(plan.pairs, key=lambda one: one.sire.registration_number)
    left = {(one.dam.registration_number, one.sire.registration_number): one for one in in_order}
    for _ in range(TRIES_TO_COMPARE):
        with served.opened() as book:
            if book is None or not has_had(book, plan.mark):
                raise BookMoved
            with contextlib.suppress(BookMoved):
                compare_pairs(served, book, plan, left)
                return
    raise BookMoved


def compare_pairs(served: ServedBook, book: Book, plan: PlanMade, left: dict[tuple[str, str], Pair]) -> None:
    """Compares those that are left, and takes away each that is the same."""
    is_of_plan = mark_of(book) == plan.mark
    try:
        for numbers, told in coefficients_told(book, served.program, [*left]):
            pair = left[numbers]
            if told != pair.fraction:
                raise Mistake(WebFault.PLAN_DIFFERS.said(dam=pair.dam.id, sire=pair.sire.id))
            del left[numbers]
    except Mistake:
        if is_of_plan:
            raise
        raise PlanOutdated from None


def planned(folder: pathlib.Path, asked: PlanRules, tell: Tell) -> PlanMade:
    program = BookProgram()
    with only_read(folder) as book:
        tell(Doing.COEFFICIENTS)
        among = prepared(book, asked)
        return made(book, best_plan(book, program, among.dams, among.sires, among.rules), among)


def made(book: Book, found: Planned, among: Prepared) -> PlanMade:
    candidates = (*among.dams.animals, *among.sires.animals)
    mates = {one.registration_number: Mate(one.registration_number, one.id, one.name) for one in candidates}
    plan = found.plan
    unmated: dict[Unmated, list[Mate]] = {}
    for dam, why in plan.unmated.items():
        unmated.setdefault(why, []).append(mates[dam])
    pairs = [Pair(mates[one.dam], mates[one.sire], str(one.coefficient), one.coefficient) for one in plan.matings]
    table = plan_table(book, found, False)
    means = plan.mean, plan.allowed, plan.mean_of_allowed
    return PlanMade(mark_of(book), bounds_of(among), pairs, unmated, *means, table)


# Advice on the matings of a dam, which the program's session gives; it is kept with the state of the book.

# so often it is asked of a book that somebody changes
TRIES_FOR_ADVICE = 20


def advice_for(served: ServedBook, book: Book, dam: SocietyRecord, also_left: bool) -> Job:
    """The work on it for the book as it is now, which is begun where it wasn't."""
    key = (ADVICE, mark_of(book), dam.registration_number, also_left)
    return served.jobs.here(key, lambda: advice_of_now(served, dam, also_left))


def advice_of_now(served: ServedBook, dam: SocietyRecord, also_left: bool) -> Advice:
    """That of the book as it is, also where somebody changes it meanwhile."""
    for _ in range(TRIES_FOR_ADVICE):
        with contextlib.suppress(BookMoved):
            return advice_now(served, dam, also_left)
    raise Mistake(BookFault.ALWAYS_CHANGED.said(path=served.folder))


def advice_now(served: ServedBook, dam: SocietyRecord, also_left: bool) -> Advice:
    """What the session says of a mating with each of the sires, which are those of the word `mating`."""
    with served.opened() as book:
        if book is None:
            raise Mistake(BookFault.NO_BOOK.said(folder=served.folder, there="", hint=""))
        sires = all_candidates(book, Role.SIRE, also_left)
        if not also_left:
            sires.needed(Mating.ASK_FOR_LEFT.said())
        return advice_of(dam, sires.needed(Mating.NAME_OTHERS.said()), by_mating(book, served.program, dam, sires))
