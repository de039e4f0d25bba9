"""The page of the history: each change, what it did, and how an earlier state is brought back; a copy of the book."""
from __future__ import annotations

import datetime

from flask import Blueprint, abort, flash, redirect, render_template, request, url_for
from werkzeug.wrappers import Response

from gudokeyi.domain.changes import Change
from gudokeyi.render.csv_files import report_of
from gudokeyi.services.cache import mark_of
from gudokeyi.services.folder_files import entries_of, report_text
from gudokeyi.services.history import change_numbered, last_changes, last_that_changed, taken_back_by
from gudokeyi.services.opening import Book
from gudokeyi.services.restoring import copy_of_book, last_backup, remember
from gudokeyi.services.taking_back import StoodOn, can_be_taken_back, later_on, take_back
from gudokeyi.services.undoing import undo
from gudokeyi.web.access import is_of_another_site, the_logins
from gudokeyi.web.files import download
from gudokeyi.web.forms import change_once, mark_text, sent_form, sent_mark
from gudokeyi.web.language import csv_file, gettext, on_page, page_language
from gudokeyi.web.paging import part_read
from gudokeyi.web.served_book import Answer, served_book, with_book
from gudokeyi.web.views.changes import differences_of, given_of, line_of, lines_of, told_of_change

page = Blueprint("history", __name__)
# so many animals that a change changed are shown, and so many changes that would be taken back
MOST_SHOWN, MOST_TOLD = 200, 20
# numbers of changes are shorter
MOST_DIGITS = 10


@page.get("/history", endpoint="page")
@with_book
def history(book: Book) -> Answer:
    assert book.change is not None
    count = book.change.number
    part = part_read(
        count, lambda first, most: lines_of(book, last_changes(book, most, first), page_language())
    )
    last = last_that_changed(book)
    return render_template("history.html", part=part, last=last, backed_up=last_backup(book))


@page.get("/history/<change:number>")
@with_book
def change(book: Book, number: int) -> Answer:
    assert book.change is not None
    found = change_numbered(book, number)
    if found is None:
        abort(404)
    words = page_language()
    count, shown = differences_of(book, number, words, MOST_SHOWN)
    return render_template(
        "change.html", change=line_of(book, found, words), source=found.source,
        given=given_of(found, words), length=found.length, edition=found.edition, count=count, differences=shown,
        groups=told_of_change(book, number, words), last=last_that_changed(book),
        by=taken_back_by(book, number), can_be_taken_back=can_be_taken_back(book, found),
    )  # fmt: skip


@page.get("/history/<change:number>/report.csv")
@with_book
def report(book: Book, number: int) -> Answer:
    """All that a change told; in English as the book's own report has it."""
    found, words = change_numbered(book, number), page_language()
    if found is None:
        abort(404)
    if words.is_english:
        return csv_file(report_text(book, found).decode(), f"report-{number}.csv")
    table = report_of(entries_of(book, found), number, words)
    return csv_file(table.text(semicolons=True), f"report-{number}.csv")


@page.get("/history/<change:number>/undo")
@with_book
def ask_undo(book: Book, number: int) -> Answer:
    """Asks whether the state after a change is brought back; 0 is the empty book."""
    assert book.change is not None
    last = book.change.number
    if number >= last_that_changed(book):
        abort(404)
    newest = last_changes(book, min(last - number, MOST_TOLD))
    return render_template(
        "undo.html", number=number, taken_back=lines_of(book, newest, page_language()),
        more=last - number - len(newest), looked=mark_text(mark_of(book)),
    )  # fmt: skip


@page.post("/history/<change:number>/undo")
def bring_back(number: int) -> Answer:
    """Brings it back, if the book is the one of which it was asked."""
    served, looked, form = served_book(), sent_mark(), sent_form()

    def make(book: Book) -> Change | None:
        assert book.change is not None
        is_as_asked = mark_of(book) == looked and number < book.change.number
        return undo(book, served.program, number, form) if is_as_asked else None

    made = change_once(served, form, make)
    if made is None:
        flash(gettext("Somebody changed the book meanwhile. This is what is there now."), "look")
        return redirect(url_for("history.page"))
    flash(gettext("The state after change {} is brought back.", number), "done")
    return redirect(url_for("history.change", number=made.number))


@page.get("/history/<change:number>/take-back")
@with_book
def ask_take_back(book: Book, number: int) -> Answer:
    """Asks whether a change alone is taken back, or with those that stand on it."""
    change = change_numbered(book, number)
    if change is None or not can_be_taken_back(book, change):
        abort(404)
    words, later = page_language(), {*later_on(book, number), *numbers_asked()}
    others = lines_of(book, filter(None, (change_numbered(book, one) for one in sorted(later, reverse=True))), words)
    return render_template(
        "take_back.html", change=line_of(book, change, words), later=others, looked=mark_text(mark_of(book))
    )


def numbers_asked() -> set[int]:
    """The changes that are named in the address, or sent by the form, beside one that is taken back."""
    return {int(one) for one in request.values.getlist("also") if one.isdecimal() and len(one) < MOST_DIGITS}


@page.post("/history/<change:number>/take-back")
def take_it_back(number: int) -> Answer:
    """Takes it back, if the book is the one of which it was asked; where more stands on it that is asked then."""
    served, looked, form, also = served_book(), sent_mark(), sent_form(), numbers_asked()

    def make(book: Book) -> Change | None:
        return take_back(book, served.program, number, also, form) if mark_of(book) == looked else None

    try:
        made = change_once(served, form, make)
    except StoodOn as stood_on:
        for sentence in on_page(stood_on.sentences):
            flash(sentence.text, "look")
        return redirect(url_for("history.ask_take_back", number=number, also=stood_on.later))
    if made is None:
        flash(gettext("Somebody changed the book meanwhile. This is what is there now."), "look")
        return redirect(url_for("history.change", number=number))
    flash(gettext("It is taken back: change {}.", made.number), "done")
    return redirect(url_for("history.change", number=made.number))


@page.get("/book.sqlite")
@with_book
def backup(book: Book) -> Answer:
    """The whole book with its history, as the word `backup` writes it. It counts as one where no other site asked for
    it, and the browser got all of it."""
    if is_of_another_site(the_logins().origin()):
        abort(403, "other site")
    name, mimetype = f"book-{datetime.date.today()}.sqlite", "application/vnd.sqlite3"
    if request.method == "HEAD":
        return Response(mimetype=mimetype)
    with copy_of_book(book) as file:
        return download(file, lambda: remember(book), mimetype, name)
