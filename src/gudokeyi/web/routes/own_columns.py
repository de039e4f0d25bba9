"""The society's own columns: the page on which they are set up, and the form of an animal's values."""
from __future__ import annotations

from collections.abc import Mapping

from flask import Blueprint, flash, redirect, render_template, request, url_for

from gudokeyi.domain.animals import SocietyRecord
from gudokeyi.domain.changes import Change
from gudokeyi.domain.messages import Mistake
from gudokeyi.domain.own_columns import OwnKind
from gudokeyi.domain.requests import OwnFault
from gudokeyi.render.page_wording import MessageView
from gudokeyi.services.book_session import BookMoved
from gudokeyi.services.opening import Book
from gudokeyi.services.own_columns import columns_of, set_columns, values_of, write_values
from gudokeyi.web.forms import change_once, sent_form, token_with
from gudokeyi.web.language import gettext, on_page, page_language
from gudokeyi.web.routes.animal import animal_of
from gudokeyi.web.served_book import Answer, served_book, with_book
from gudokeyi.web.views.own_columns import (
    CERTIFIED, CHOICES, KIND, SHOWN, TITLE, VALUE, columns_written, kinds, own_said,
)  # fmt: skip

page = Blueprint("own_columns", __name__)
MOVED = "Somebody changed the book meanwhile: look at it, and file it again."


@page.get("/own-columns", endpoint="page")
@with_book
def columns(book: Book) -> Answer:
    return shown(book, {}, [])


def shown(book: Book, written: Mapping[str, str], faults: list[MessageView]) -> Answer:
    """The columns as they are, but for what was written, below why that can't be."""
    there = columns_of(book)
    given: dict[str, str] = {}
    for one in there:
        given |= {
            TITLE.format(one.place): one.title, KIND.format(one.place): one.kind.value,
            CHOICES.format(one.place): "\n".join(one.choices), CERTIFIED.format(one.place): "1" * one.is_certified,
        }  # fmt: skip
    places = [*(str(one.place) for one in there), "new"]
    given = {**given, **written}
    page = render_template(
        "own_columns.html", given=given, places=places, kinds=kinds(page_language()), faults=faults,
    )  # fmt: skip
    return (page, 400) if faults else page


@page.post("/own-columns", endpoint="change")
def change() -> Answer:
    served, given = served_book(), request.form
    token = token_with(sent_form(), [f"{name}={text}" for name, text in sorted(given.items()) if "-" in name])

    def make(book: Book) -> Change:
        return set_columns(book, served.program, columns_written(book, given), token)

    try:
        change = change_once(served, token, make)
    except Mistake as mistake:
        return columns_again(on_page(mistake.sentences))
    except BookMoved:
        return columns_again([MessageView(gettext(MOVED))])
    assert change is not None
    flash(gettext("The columns are kept: change {}.", change.number), "done")
    return redirect(url_for("own_columns.page"))


@with_book
def columns_again(book: Book, faults: list[MessageView]) -> Answer:
    return shown(book, dict(request.form), faults)


# The values of an animal.


@page.get("/animal/<number>/own", endpoint="form")
@with_book
def form(book: Book, number: str) -> Answer:
    return values_shown(book, animal_of(book, number), {}, [])


def values_shown(book: Book, animal: SocietyRecord, written: Mapping[str, str], faults: list[MessageView]) -> Answer:
    """The form with the values of now, but for what was written otherwise."""
    words, values = page_language(), values_of(book, animal)
    now = {one.column.place: said_in_form(one.column.kind, one.value) for one in values}
    given = {VALUE.format(place): text for place, text in now.items()}
    given |= {SHOWN.format(place): text for place, text in now.items()}
    page = render_template(
        "own_values.html", known=animal, columns=[one.column for one in values], given={**given, **written},
        faults=faults, kinds=OwnKind, choices_of=lambda one: [(choice, choice) for choice in one.choices],
        said={one.column.place: own_said(one.column.kind, one.value, words) for one in values},
    )  # fmt: skip
    return (page, 400) if faults else page


def said_in_form(kind: OwnKind, text: str) -> str:
    """A value as a field has it."""
    return text if kind in (OwnKind.YES_OR_NO, OwnKind.CHOICE) else own_said(kind, text, page_language())


@page.post("/animal/<number>/own", endpoint="write")
def write(number: str) -> Answer:
    """Writes what was written otherwise than the form showed it; what somebody else wrote meanwhile isn't lost."""
    served, given = served_book(), request.form
    token = token_with(sent_form(), [f"{name}={text}" for name, text in sorted(given.items()) if "own-" in name])

    def make(book: Book) -> Change:
        animal = animal_of(book, number)
        return write_values(book, served.program, animal, written_of(book, animal), token)

    try:
        change = change_once(served, token, make)
    except Mistake as mistake:
        return values_again(number, on_page(mistake.sentences))
    except BookMoved:
        return values_again(number, [MessageView(gettext(MOVED))])
    assert change is not None
    flash(gettext("It is kept: change {}.", change.number), "done")
    return redirect(url_for("animal.page", number=number, _anchor="own"))


def written_of(book: Book, animal: SocietyRecord) -> dict[int, str]:
    """The values that were written otherwise than the form showed them, by the places of their columns."""
    found = {}
    for one in values_of(book, animal):
        name, shown = VALUE.format(one.column.place), request.form.get(SHOWN.format(one.column.place), "")
        if name not in request.form or request.form[name].split() == shown.split():
            continue
        now = said_in_form(one.column.kind, one.value)
        if now.split() != shown.split() and now.split() != request.form[name].split():
            raise Mistake(OwnFault.CHANGED_MEANWHILE.said(title=one.column.title, now=now))
        found[one.column.place] = request.form[name]
    return found


@with_book
def values_again(book: Book, number: str, faults: list[MessageView]) -> Answer:
    animal = animal_of(book, number)
    names = {VALUE.format(one.place): SHOWN.format(one.place) for one in columns_of(book)}
    written = {
        name: request.form[name]
        for name, shown in names.items()
        if name in request.form and request.form[name].split() != request.form.get(shown, "").split()
    }
    return values_shown(book, animal, written, faults)
