"""The start page: the book at a glance, or how one begins."""
from __future__ import annotations

import datetime
import functools

from flask import Blueprint, redirect, render_template, request, session, url_for
from werkzeug.wrappers import Response

from gudokeyi.domain.kinds import CommandKind
from gudokeyi.domain.settings import LANGUAGES
from gudokeyi.render.page_wording import sentence_of
from gudokeyi.services.animals import coefficients_among
from gudokeyi.services.history import last_changes
from gudokeyi.services.opening import Book
from gudokeyi.services.recent import last_births, unanswered
from gudokeyi.services.restoring import has_old_files, last_backup
from gudokeyi.web.access import way_back
from gudokeyi.web.files import EXAMPLE
from gudokeyi.web.language import CHOSEN, page_language
from gudokeyi.web.served_book import Answer, book_of_page, served_book
from gudokeyi.web.views.animals import line_of
from gudokeyi.web.views.changes import lines_of
from gudokeyi.web.workers import TAKING

page = Blueprint("start", __name__)
# so many of the last changes are shown
LAST_CHANGES = 5
# behind so many days without a backup that is told
DAYS_WITHOUT_BACKUP = 3
# and so many births and findings
MOST_BIRTHS, MOST_FINDINGS = 8, 6
# what is filed most
FILED = (CommandKind.BIRTH, CommandKind.EXIT, CommandKind.TRANSFER)
# those on which a stranger may choose the language
OPEN_PAGES = ("login.page", "start.about")


@page.get("/", endpoint="page")
def start() -> Answer:
    served = served_book()
    with book_of_page() as book:
        if book is None or book.change is None:
            taking, is_old = served.jobs.under_way(TAKING), has_old_files(served.folder)
            return render_template("begin.html", has_example=EXAMPLE.exists(), taking=taking, is_old=is_old)
        overview = served.kept.of(book, ("overview",), functools.partial(served.overviews.of, book))
        last = lines_of(book, last_changes(book, LAST_CHANGES), page_language())
        return render_template(
            "start.html", overview=overview, changes=last, kinds=FILED, is_late=is_late(book), **new_in(book)
        )


def new_in(book: Book) -> dict[str, object]:
    """What the page has of the last weeks and of the last sheet."""
    births, left, words = last_births(book, datetime.date.today()), unanswered(book, MOST_FINDINGS), page_language()
    rows = births.rows[:MOST_BIRTHS]
    coefficients = coefficients_among(book, [row.registration_number for row in rows])
    return {
        "births": [line_of(book, row, coefficients, words) for row in rows], "born": births.total,
        "backed_up": last_backup(book), "sheet": left.sheet.number if left else 0,
        "unanswered": [(one.id, sentence_of(one.finding, words)) for one in (left.entries if left else [])],
    }  # fmt: skip


def is_late(book: Book) -> bool:
    """Has the book changes that no backup has for long?"""
    assert book.change is not None
    found, now = last_backup(book), datetime.datetime.now(datetime.timezone.utc)
    if found and found.change == book.change.number:
        return False
    return (now - (found.time if found else book.change.time)).days >= DAYS_WITHOUT_BACKUP


@page.get("/about")
def about() -> str:
    """What is proved of what these pages show, and what isn't."""
    return render_template("about.html")


@page.get("/favicon.ico")
def icon() -> Response:
    """What browsers ask for by themselves, for pages that name no picture."""
    return redirect(url_for("static", filename="icon.svg"))


@page.get("/language/<language>")
def language(language: str) -> Response:
    """Goes back to where the language was chosen."""
    if language in LANGUAGES:
        session[CHOSEN] = language
    return redirect(way_back(request.args.get("to", ""), OPEN_PAGES))
