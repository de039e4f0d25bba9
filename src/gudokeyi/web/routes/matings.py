"""The page of matings: a dam with all sires, or the plan for all dams."""
from __future__ import annotations

from collections.abc import Callable, Sequence
from fractions import Fraction
from typing import Any, NamedTuple

from flask import Blueprint, abort, render_template, request

from gudokeyi.domain.messages import Mistake
from gudokeyi.domain.options import PLAN, Kind
from gudokeyi.render.csv_files import in_language
from gudokeyi.render.languages import MARKS, Mark
from gudokeyi.render.page_wording import MessageView
from gudokeyi.services.matings import Advice
from gudokeyi.services.opening import Book
from gudokeyi.services.option_values import coefficient, days, positive
from gudokeyi.services.plans import PlanRules
from gudokeyi.services.search import find
from gudokeyi.services.tables import Cell
from gudokeyi.web.language import csv_file, gettext, on_page, page_language
from gudokeyi.web.mating_work import Bounds, PlanMade, advice_for, plan_for, usual_of
from gudokeyi.web.paging import part_of
from gudokeyi.web.served_book import Answer, served_book, with_book
from gudokeyi.web.sheet_work import read
from gudokeyi.web.work_places import PLANNING
from gudokeyi.web.workers import Stage

page = Blueprint("matings", __name__)
# how related a pair is, by the coefficient of its offspring: below each of these one kind
LEVELS = (Fraction(1, 32), Fraction(1, 16), Fraction(1, 8), Fraction(1, 4))


class Sire(NamedTuple):
    """A sire with the coefficient that its offspring would have."""

    id: str
    name: str
    registration_number: str
    born: str
    fraction: str
    percent: str
    level: int


def level_of(value: Fraction) -> int:
    """0 for the least related, to 4."""
    return sum(value >= bound for bound in LEVELS)


@page.get("/matings", endpoint="page")
@with_book
def matings(book: Book) -> Answer:
    word = " ".join(request.args.get("dam", "").split())
    if not word:
        return render_template("matings.html", given=request.args)
    try:
        dam = find(book, word, may_be_file=False)
    except Mistake as mistake:
        return render_template("matings.html", given=request.args, faults=on_page(mistake.sentences))
    job = advice_for(served_book(), book, dam, request.args.get("left") == "1")
    if job.stage is Stage.UNDER_WAY:
        return render_template("waiting.html", title=gettext("The register is asked for each sire"), job=job)
    if job.stage is Stage.FAILED:
        served_book().jobs.forget(job.key)
        return render_template("matings.html", given=request.args, dam=dam, faults=on_page(job.failed.sentences))
    assert isinstance(job.value, Advice)
    advice, part = job.value, part_of(job.value.table.rows)
    return render_template(
        "matings.html", given=request.args, dam=dam, advice=advice, refused=on_page(advice.refused),
        part=part._replace(rows=[sire_of(*row) for row in part.rows]),
    )  # fmt: skip


def sire_of(id: Cell, name: Cell, number: Cell, birth: Cell, fraction: Cell, _: Cell, __: Cell) -> Sire:
    words, value = page_language(), Fraction(fraction)
    day, _, mark = str(birth).partition(" (")
    born = f"{words.day(day)} ({words.gettext(MARKS[Mark(mark[:-1])])})" if mark else words.day(day)
    return Sire(str(id), str(name), str(number), born, str(fraction), words.percent_of(value), level_of(value))


@page.get("/matings.csv")
@with_book
def file(book: Book) -> Answer:
    dam = find(book, request.args.get("dam", ""), may_be_file=False)
    job = advice_for(served_book(), book, dam, request.args.get("left") == "1")
    job.is_over.wait()
    if not isinstance(job.value, Advice):
        raise Mistake(*job.failed.sentences)
    words = page_language()
    return csv_file(in_language(job.value.table, words).text(not words.is_english), "matings.csv")


# the fields of the form of a plan, by their names there, and what reads a value of each kind
PLAN_FIELDS = {"age": PLAN["minimum-age"], "most": PLAN["most-for-a-sire"], "at_most": PLAN["at-most"]}
READERS: dict[Kind, Callable[[str], Any]] = {Kind.BOUND: positive, Kind.COEFFICIENT: coefficient, Kind.DAYS: days}


def asked_of(given: dict[str, str]) -> PlanRules:
    """What the form says; a field that is empty is no bound, and for one that isn't there the usual is assumed."""
    there = {name: one for name, one in PLAN_FIELDS.items() if name in given}
    said: dict[str, Any] = {one.attribute: read(READERS[one.kind], given[name].strip()) for name, one in there.items()}
    return PlanRules(**said)


@page.get("/matings/plan")
@with_book
def plan(book: Book) -> Answer:
    served, given = served_book(), dict(request.args)
    if not given.get("made"):
        return plan_page(given, usual_of(served, book))
    try:
        asked = asked_of(given)
        job = plan_for(served, book, asked)
    except Mistake as mistake:
        return plan_page(given, usual_of(served, book), on_page(mistake.sentences))
    if job.stage is Stage.UNDER_WAY:
        beside = served.jobs.under_way(PLANNING, asked) or job
        return render_template("waiting.html", title=gettext("The plan is made"), job=beside)
    if job.stage is Stage.FAILED:
        served.jobs.forget(job.key)
        return plan_page(given, usual_of(served, book), on_page(job.failed.sentences))
    assert isinstance(job.value, PlanMade)
    return plan_page(given, job.value.bounds, [], job.value)


def plan_page(
    given: dict[str, str], used: Bounds, faults: Sequence[MessageView] = (), made: PlanMade | None = None
) -> Answer:
    """The form with what was asked for, and the bounds that were used for the rest, or are usual; the plan below it, if
    it is made."""
    fields = {"most": text_of(used.most_for_a_sire), "age": text_of(used.minimum_age)} | given
    page = render_template(
        "plan.html", given=fields, fields=PLAN_FIELDS, plan=made, faults=faults, level=level_of,
        part=part_of(made.pairs) if made else None, assumed=on_page(used.assumed),
    )  # fmt: skip
    return (page, 400) if faults else page


def text_of(bound: int | None) -> str:
    return "" if bound is None else str(bound)


@page.get("/matings/plan.csv")
@with_book
def plan_file(book: Book) -> Answer:
    job = plan_for(served_book(), book, asked_of(dict(request.args)))
    if not isinstance(job.value, PlanMade):
        abort(404)
    words = page_language()
    return csv_file(in_language(job.value.table, words).text(not words.is_english), "plan.csv")
