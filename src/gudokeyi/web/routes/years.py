"""The page of a year: births, exits and new owners, to be printed or saved."""
from __future__ import annotations

import datetime

from flask import Blueprint, redirect, render_template, request, url_for

from gudokeyi.domain.kinds import CommandKind, ExitReason
from gudokeyi.render.csv_files import in_language
from gudokeyi.render.page_language import PageLanguage, name_of
from gudokeyi.services.opening import Book
from gudokeyi.services.years import Event, events_of, table_of
from gudokeyi.web.language import csv_file, page_language
from gudokeyi.web.served_book import Answer, with_book

page = Blueprint("years", __name__)


@page.get("/year")
def this_year() -> Answer:
    asked = request.args.get("year", "")
    year = int(asked) if asked.isdecimal() and len(asked) == 4 else datetime.date.today().year
    return redirect(url_for("years.page", year=year))


@page.get("/year/<int:year>", endpoint="page")
@with_book
def of_year(book: Book, year: int) -> Answer:
    events: dict[str, list[Event]] = {kind.value: [] for kind in CommandKind}
    for one in events_of(book, year):
        events[one.kind.value].append(one)
    reasons = reasons_of(events[CommandKind.EXIT.value], page_language())
    return render_template("year.html", year=year, events=events, reasons=reasons)


def reasons_of(exits: list[Event], words: PageLanguage) -> dict[str, str]:
    """Why each animal left, by its number: as somebody filed it, and what the sheet says; of one of them alone that."""
    names = {one.value: name_of(one, words) for one in ExitReason}
    beside = words.gettext("(in the sheet: {})")
    said = {one.row.registration_number: (names.get(one.reason, ""), one.in_sheet) for one in exits}
    return {
        number: f"{filed} {beside.format(written)}" if filed and written else filed or written
        for number, (filed, written) in said.items()
    }


@page.get("/year/<int:year>.csv")
@with_book
def file(book: Book, year: int) -> Answer:
    words = page_language()
    table = in_language(table_of(book, year), words, has_marks=False)
    return csv_file(table.text(not words.is_english), f"year-{year}.csv")
