"""The page on which the births of one dam on a day are filed together."""
from __future__ import annotations

from flask import Blueprint, flash, redirect, render_template, request, url_for

from gudokeyi.domain.messages import Mistake
from gudokeyi.render.page_wording import MessageView
from gudokeyi.services.book_session import BookMoved
from gudokeyi.services.filing_warnings import MayBeWrong
from gudokeyi.services.opening import Book
from gudokeyi.web.forms import sent_form
from gudokeyi.web.language import gettext, on_page, page_language
from gudokeyi.web.litters import ROW, LitterForm, rows_shown, send_litter
from gudokeyi.web.served_book import Answer, served_book, with_book
from gudokeyi.web.views.warnings import NO_WARNINGS, Warned, warned_of

page = Blueprint("litters", __name__)


@page.get("/litter", endpoint="form")
@with_book
def form(book: Book) -> Answer:
    return shown(book, {name: text for name, text in request.args.items() if text}, [])


def shown(book: Book, given: dict[str, str], faults: list[MessageView], warned: Warned = NO_WARNINGS) -> Answer:
    """The form with what was written, below why it isn't filed, or what may be wrong of it."""
    page = render_template(
        "litter.html", given=given, faults=faults, warned=warned, owners=sorted(book.owners), rows=rows_shown(given),
        names=ROW,
    )  # fmt: skip
    return (page, 400) if faults or warned.lines else page


@page.post("/litter")
def file() -> Answer:
    """Files all of it; where that can't be the form comes back with what was written."""
    served, sent = served_book(), LitterForm(request.form, sent_form())
    try:
        change = send_litter(served, sent)
    except MayBeWrong as wrong:
        return form_again([], warned_of(wrong, page_language()))
    except Mistake as mistake:
        return form_again(on_page(mistake.sentences))
    except BookMoved:
        return form_again([MessageView(gettext("Somebody changed the book meanwhile: look at it, and file it again."))])
    flash(gettext("The litter is filed: change {}.", change.number), "done")
    return redirect(url_for("history.change", number=change.number))


@with_book
def form_again(book: Book, faults: list[MessageView], warned: Warned = NO_WARNINGS) -> Answer:
    return shown(book, dict(request.form), faults, warned)
