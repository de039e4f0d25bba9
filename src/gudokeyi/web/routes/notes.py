"""Notes on an animal, as its page has them: written, written otherwise, and removed."""
from __future__ import annotations

import datetime

from flask import Blueprint, flash, redirect, render_template, request, url_for

from gudokeyi.domain.animals import SocietyRecord
from gudokeyi.domain.changes import Change
from gudokeyi.domain.messages import Mistake
from gudokeyi.domain.requests import OwnFault
from gudokeyi.render.page_wording import MessageView
from gudokeyi.services.book_session import BookMoved
from gudokeyi.services.notes import Note, note_numbered, text_of_note, write_note
from gudokeyi.services.opening import Book
from gudokeyi.services.option_values import day
from gudokeyi.web.forms import change_once, sent_form, token_with
from gudokeyi.web.language import gettext, on_page, page_language
from gudokeyi.web.routes.animal import animal_of
from gudokeyi.web.served_book import Answer, served_book, with_book

page = Blueprint("notes", __name__)
# the fields of the form; of a note that is there it has the number, and what the form showed
NUMBER, TEXT, DAY, SHOWN = "note", "text", "day", "shown-{}"
REMOVES = "remove"


@page.get("/animal/<number>/note", endpoint="form")
@with_book
def form(book: Book, number: str) -> Answer:
    """The form for a new note, or for one that is there."""
    animal = animal_of(book, number)
    note = note_sent(book, animal, request.args.get(NUMBER, ""))
    return shown(animal, fields_of(note), [])


def note_sent(book: Book, animal: SocietyRecord, number: str) -> Note | None:
    return note_numbered(book, animal, int(number)) if number.isdecimal() and len(number) < 10 else None


def fields_of(note: Note | None) -> dict[str, str]:
    """The fields of the form of a note, with what they show."""
    words = page_language()
    if note is None:
        return {DAY: words.day(datetime.date.today())}
    now = {TEXT: note.text, DAY: words.day(note.day)}
    return {NUMBER: str(note.number), **now, **{SHOWN.format(name): text for name, text in now.items()}}


def shown(animal: SocietyRecord, given: dict[str, str], faults: list[MessageView]) -> Answer:
    page = render_template("note.html", known=animal, given=given, faults=faults)
    return (page, 400) if faults else page


@page.post("/animal/<number>/note", endpoint="write")
def write(number: str) -> Answer:
    served, given = served_book(), request.form
    token = token_with(sent_form(), [given.get(name, "") for name in (NUMBER, TEXT, DAY, REMOVES)])

    def make(book: Book) -> Change:
        animal = animal_of(book, number)
        before = note_sent(book, animal, given.get(NUMBER, ""))
        refuse_changed(before)
        text = "" if given.get(REMOVES) else given.get(TEXT, "")
        if before and not given.get(REMOVES) and not text_of_note(text):
            raise Mistake(OwnFault.NO_NOTE.said())
        on = day(given.get(DAY, "").strip()) if given.get(DAY, "").strip() else datetime.date.today()
        return write_note(book, served.program, animal, text, on, before, token)

    try:
        change = change_once(served, token, make)
    except Mistake as mistake:
        return again(number, on_page(mistake.sentences))
    except BookMoved:
        told = gettext("Somebody changed the book meanwhile: look at it, and file it again.")
        return again(number, [MessageView(told)])
    assert change is not None
    told = gettext("The note is removed: change {}.") if given.get(REMOVES) else gettext("The note is kept: change {}.")
    flash(told.format(change.number), "done")
    return redirect(url_for("animal.page", number=number, _anchor="notes"))


def refuse_changed(before: Note | None) -> None:
    """A mistake where the note isn't any more what the form showed."""
    was = request.form.get(SHOWN.format(TEXT), "")
    if request.form.get(NUMBER) and (before is None or " ".join(was.split()) != " ".join(before.text.split())):
        raise Mistake(OwnFault.NOTE_CHANGED.said())


@with_book
def again(book: Book, number: str, faults: list[MessageView]) -> Answer:
    """The form with what was written, and with what the note is now."""
    animal = animal_of(book, number)
    now = fields_of(note_sent(book, animal, request.form.get(NUMBER, "")))
    written = {name: request.form.get(name, "") for name in (TEXT, DAY)}
    return shown(animal, now | written, faults)
