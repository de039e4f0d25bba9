"""The page on which a command is filed: a form for each kind, and the answer of the register in words."""
from __future__ import annotations

import contextlib

from flask import Blueprint, abort, redirect, render_template, request, url_for

from gudokeyi.domain.animals import SocietyRecord
from gudokeyi.domain.findings import What
from gudokeyi.domain.kinds import ChangeKind, ExitReason
from gudokeyi.domain.messages import Mistake
from gudokeyi.render.page_language import name_of
from gudokeyi.render.page_wording import MessageView
from gudokeyi.services.book_session import BookMoved
from gudokeyi.services.filing_warnings import MayBeWrong
from gudokeyi.services.history import change_numbered, taken_back_by
from gudokeyi.services.opening import Book
from gudokeyi.services.search import find
from gudokeyi.web.access import may
from gudokeyi.web.filing import KINDS, Form, file_form, written_in
from gudokeyi.web.forms import OF_ANIMAL, sent_form, with_those_of_now
from gudokeyi.web.language import gettext, on_page, page_language
from gudokeyi.web.served_book import Answer, served_book, with_book
from gudokeyi.web.views.changes import ChangeLine, line_of, told_of_change
from gudokeyi.web.views.warnings import NO_WARNINGS, Warned, warned_of

page = Blueprint("filing", __name__)


@page.get("/file", endpoint="page")
@with_book
def filing(book: Book) -> Answer:
    return render_template("filing.html", kinds=list(KINDS))


@page.get("/file/<kind>")
@with_book
def form(book: Book, kind: str) -> Answer:
    given = {name: text for name, text in request.args.items() if text}
    return shown(book, kind, to_correct(book, kind, given, book.society_records.get(given.get("id", ""))), [])


def to_correct(book: Book, kind: str, given: dict[str, str], animal: SocietyRecord | None) -> dict[str, str]:
    """With the parents of now to be corrected, of the animal that is meant, if there is one."""
    return with_those_of_now(book, given, animal) if kind == ChangeKind.PARENTS.value and animal else given


def shown(
    book: Book, kind: str, given: dict[str, str], faults: list[MessageView], answered: ChangeLine | None = None,
    warned: Warned = NO_WARNINGS,
) -> Answer:  # fmt: skip
    """The form with what was written, below why it wasn't filed, what may be wrong of it, or the register's answer."""
    if kind not in KINDS:
        abort(404)
    page = render_template(
        "form.html", kind=kind, given=given, faults=faults, owners=sorted(book.owners), answered=answered,
        warned=warned,
        reasons=[(one.value, name_of(one, page_language())) for one in ExitReason if one is not ExitReason.STILLBORN],
    )  # fmt: skip
    return (page, 400) if faults or warned.lines else page


@page.post("/file/<kind>")
def file(kind: str) -> Answer:
    """Files it; where a field can't be read, or the book changed meanwhile, the form comes back with what was
    written."""
    if kind not in KINDS:
        abort(404)
    served, form = served_book(), Form(KINDS[kind], request.form, sent_form())
    try:
        change = file_form(served, form)
    except MayBeWrong as wrong:
        return form_again(kind, [], warned_of(wrong, page_language()))
    except Mistake as mistake:
        return form_again(kind, on_page(mistake.sentences))
    except BookMoved:
        told = gettext("Somebody changed the book meanwhile: look at it, and file it again.")
        return form_again(kind, [MessageView(told)])
    return redirect(url_for("filing.answer", number=change.number))


@with_book
def form_again(book: Book, kind: str, faults: list[MessageView], warned: Warned = NO_WARNINGS) -> Answer:
    """With the parents of now of the animal that is named, or else of the one whose parents the form showed."""
    given = dict(request.form)
    animal = book.society_records.get(given.get(OF_ANIMAL, ""))
    with contextlib.suppress(Mistake):
        animal = find(book, given.get("id", ""), may_be_file=False)
    return shown(book, kind, to_correct(book, kind, given, animal), faults, warned=warned)


@page.get("/answer/<change:number>")
@with_book
def answer(book: Book, number: int) -> Answer:
    """The reply to a command, as it is stored; where it was refused the form is there again with what was written."""
    change = change_numbered(book, number)
    if change is None or change.kind not in KINDS.values():
        abort(404)
    line, kind = line_of(book, change, page_language()), change.kind.value
    if line.refused and may("filing.form"):
        given = to_correct(book, kind, written_in(change, line.id), book.society_records.get(line.id))
        return shown(book, kind, given, [], line)
    groups = told_of_change(book, number, page_language())
    warnings = [one for group in groups if group.what is What.WARNING for one in group.lines]
    by = taken_back_by(book, number)
    animal = book.society_records.get(line.id)
    return render_template("answer.html", kind=kind, change=line, animal=animal, warnings=warnings, by=by)
