"""The page of animals: searched, filtered and sorted; and what the search of other pages asks while somebody types."""
from __future__ import annotations

from urllib.parse import urlencode

from flask import Blueprint, jsonify, render_template, request, url_for

from gudokeyi.domain.messages import Mistake
from gudokeyi.domain.options import LIST, LIST_ON_PAGE
from gudokeyi.render.csv_files import in_language
from gudokeyi.render.page_wording import MessageView
from gudokeyi.services.animals import AnimalRow, coefficients_among
from gudokeyi.services.found_animals import Asked, Found, Order, file_of, first_found, found_by
from gudokeyi.services.opening import Book
from gudokeyi.services.own_columns import columns_of, values_used
from gudokeyi.services.search import why_found
from gudokeyi.services.selection import Choice
from gudokeyi.web.verification import refuse_to_certify
from gudokeyi.web.language import csv_file, on_page, page_language
from gudokeyi.web.served_book import Answer, served_book, with_book
from gudokeyi.web.views.animals import asked_by, fields_of, line_of, turned

page = Blueprint("animals", __name__)
# so many animals are offered while somebody types
OFFERED = 12


@page.get("/animals", endpoint="page")
@with_book
def animals(book: Book) -> Answer:
    faults: list[MessageView] = []
    asked, found = Asked(), Found([], 0, 1, 1)
    try:
        asked = asked_by(request.args)
        found = found_by(book, asked)
    except Mistake as mistake:
        faults = on_page(mistake.sentences)
    coefficients = coefficients_among(book, [row.registration_number for row in found.rows])
    sorts = {order.value: address("animals.page", fields_of(turned(asked, order))) for order in Order}
    columns = columns_of(book)
    pages = [address("animals.page", fields_of(asked) | {"page": str(found.page + step)}) for step in (-1, 1)]
    return render_template(
        "animals.html", given=request.args, asked=asked, found=found, sorts=sorts, faults=faults, pages=pages,
        rows=[line_of(book, row, coefficients, page_language()) for row in found.rows],
        why=[why_found(book, row, asked.words) for row in found.rows], owners=sorted(book.owners),
        filters=[LIST[name] for name in LIST_ON_PAGE], is_filtered=asked.choice != Choice() or bool(asked.own),
        own_columns=columns,
        own_values=[value for one in columns if one.place == asked.own for value in values_used(book, one)],
        file=address("animals.file", fields_of(asked)),
    )  # fmt: skip


def address(endpoint: str, fields: dict[str, str]) -> str:
    return f"{url_for(endpoint)}?{urlencode(fields)}"


@page.get("/animals.csv")
@with_book
def file(book: Book) -> Answer:
    """All animals that were asked for, as CSV."""
    # it has no place to tell that
    refuse_to_certify(served_book(), book)
    words = page_language()
    table = in_language(file_of(book, asked_by(request.args)), words)
    return csv_file(table.text(not words.is_english), "animals.csv")


@page.get("/search")
@with_book
def search(book: Book) -> Answer:
    """The first animals that have the words, of a sex where that is asked for."""
    asked = asked_by(request.args)
    rows = first_found(book, asked, OFFERED) if asked.words else []
    return jsonify([offered(book, row, asked) for row in rows])


def offered(book: Book, row: AnimalRow, asked: Asked) -> dict[str, str]:
    """An animal as a field offers it, with what it is found by where that isn't seen."""
    why = why_found(book, row, asked.words)
    found = {"id": row.id, "name": row.name, "born": page_language().day(row.born)}
    return found | {"why": " ".join([*why.former_ids, why.number, why.kept]).strip()}
