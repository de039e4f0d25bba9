"""The page on which anything of an animal is corrected."""
from __future__ import annotations

from flask import Blueprint, flash, redirect, render_template, request, url_for

from gudokeyi.domain.changes import Change
from gudokeyi.domain.kinds import ExitReason
from gudokeyi.domain.messages import Mistake
from gudokeyi.render.page_language import name_of
from gudokeyi.render.page_wording import MessageView
from gudokeyi.services.book_session import BookMoved
from gudokeyi.services.correcting import MayBeWrong
from gudokeyi.services.history import filed_by
from gudokeyi.services.opening import Book
from gudokeyi.web.correcting import (
    LEFT, LOOKED_AT, OWNER, SINCE, CorrectionForm, fields_shown, owners_shown, send_form,
)  # fmt: skip
from gudokeyi.web.forms import sent_form
from gudokeyi.web.language import gettext, on_page, page_language
from gudokeyi.web.routes.animal import animal_of
from gudokeyi.web.served_book import Answer, served_book, with_book
from gudokeyi.web.views.warnings import NO_WARNINGS, Warned, warned_of

page = Blueprint("correcting", __name__)


@page.get("/animal/<number>/correct", endpoint="form")
@with_book
def form(book: Book, number: str) -> Answer:
    return shown(book, number, {}, [])


def shown(
    book: Book, number: str, written: dict[str, str], faults: list[MessageView], warned: Warned = NO_WARNINGS
) -> Answer:
    """The form of the animal as it is now, with what was written, below why it isn't corrected, or what may be wrong of
    it."""
    known = animal_of(book, number)
    given = fields_shown(book, known, page_language(), written)
    page = render_template(
        "correct.html", known=known, given=given, faults=faults, owners=sorted(book.owners), reasons=reasons(),
        places=owners_shown(given), names=(OWNER, SINCE), looked_at=LOOKED_AT, written=written, warned=warned,
    )  # fmt: skip
    return (page, 400) if faults or warned.lines else page


def reasons() -> list[tuple[str, str]]:
    """What may be chosen of an exit: what the form sends, and what it is called."""
    language = page_language()
    return [(LEFT, gettext("left, reason not known")), *((one.value, name_of(one, language)) for one in ExitReason)]


@page.post("/animal/<number>/correct")
def correct(number: str) -> Answer:
    """Corrects it; where that can't be the form comes back with what was written."""
    served, token = served_book(), sent_form()
    with served.opened() as book:
        if book is None:
            return redirect(url_for("start.page"))
        sent = CorrectionForm(request.form, animal_of(book, number), token)
    try:
        change = send_form(served, sent)
    except MayBeWrong as wrong:
        return form_again(number, sent, [], warned_of(wrong, page_language()))
    except Mistake as mistake:
        return form_again(number, sent, on_page(mistake.sentences))
    except BookMoved:
        told = gettext("Somebody changed the book meanwhile: look at it, and file it again.")
        return form_again(number, sent, [MessageView(told)])
    with served.opened() as after:
        now = number_after(after, change) if after else ""
    flash(gettext("It is corrected: change {}.", change.number), "done")
    return redirect(url_for("animal.page", number=now) if now else url_for("history.change", number=change.number))


def number_after(book: Book, change: Change) -> str:
    """That of the animal which a change corrected, if it is in the book now."""
    known = book.society_records.get(filed_by(book, change).id)
    return known.registration_number if known else ""


@with_book
def form_again(
    book: Book, number: str, sent: CorrectionForm, faults: list[MessageView], warned: Warned = NO_WARNINGS
) -> Answer:
    return shown(book, number, sent.written(), faults, warned)
