"""The page of an animal, and what is printed of it: certificates of one or many, and its pedigree."""
from __future__ import annotations

import contextlib
import datetime
from collections.abc import Mapping

from flask import Blueprint, abort, render_template, request, url_for
from markupsafe import Markup
from werkzeug.wrappers import Response

from gudokeyi.domain.animals import SocietyRecord
from gudokeyi.render.certificates import Issue, PrintedPicture, Society, certificates_page
from gudokeyi.render.pedigree_pictures import Pedigree
from gudokeyi.services.book_program import BookProgram
from gudokeyi.services.book_session import BookMoved
from gudokeyi.services.certificates import GENERATIONS, MOST_GENERATIONS as MOST_CERTIFIED, begin_certificates
from gudokeyi.services.animals import (
    animal_numbered, family_coefficients, kept_coefficients, read_line, relatives_of, society_record_of,
)  # fmt: skip
from gudokeyi.services.notes import notes_of
from gudokeyi.services.opening import Book
from gudokeyi.services.selection import Choice, chosen
from gudokeyi.services.seals import last_sealed
from gudokeyi.services.settings import picture_of
from gudokeyi.web.access import printed, the_name
from gudokeyi.web.breed_work import kinship_of
from gudokeyi.web.verification import refuse_to_certify
from gudokeyi.web.language import page_language
from gudokeyi.web.mistakes import is_made_anew
from gudokeyi.web.served_book import Answer, served_book, with_book
from gudokeyi.web.views.animals import Shower, drawn_within
from gudokeyi.web.views.changes import own_changes
from gudokeyi.web.views.own_columns import own_values_shown

page = Blueprint("animal", __name__)
# so many generations are drawn on the page of an animal, and so many are printed at most
DRAWN, MOST_GENERATIONS = 4, 10
# pages of more certificates are made one at a time
MANY = 500


@page.get("/animal/<number>", endpoint="page")
@with_book
def animal(book: Book, number: str) -> Answer:
    animal = animal_of(book, number)
    read_line(book, animal.registration_number, DRAWN)
    row, relatives = book.row(animal), relatives_of(book, animal)
    coefficients, words = family_coefficients(book, relatives), page_language()
    pedigree = Pedigree(book, animal, coefficients, DRAWN, words.printed(), address_of)
    shower = Shower(book, coefficients, words)
    return render_template(
        "animal.html", animal=shower.shown(row, relatives),
        ancestors=shower.ancestors(animal.registration_number, DRAWN),
        pedigree=Markup(drawn_within(pedigree, words.gettext("Pedigree of {}", animal.id))), changes=own_changes(
            book, animal.id, words
        ),
        kinship=kinship_of(served_book(), book, animal.registration_number),
        own_values=own_values_shown(book, animal, words), notes=notes_of(book, animal),
        generations=range(1, MOST_GENERATIONS + 1), drawn=DRAWN,
    )  # fmt: skip


def address_of(number: str) -> str:
    return url_for("animal.page", number=number)


def animal_of(book: Book, number: str) -> SocietyRecord:
    """The animal with a number; a page that isn't there where there is none."""
    animal = animal_numbered(book, number)
    if animal is None:
        abort(404)
    return animal


@page.get("/animal/<number>/certificate")
@with_book
def certificate(book: Book, number: str) -> Answer:
    generations = certificate_generations()
    others = {
        count: url_for("animal.certificate", number=number, generations=count)
        for count in range(GENERATIONS, MOST_CERTIFIED + 1)
    }
    return certificates(book, [animal_of(book, number)], generations, others)


def certificate_generations() -> int:
    """So many as are asked for, else as many as the program's certificates have."""
    asked = request.args.get("generations", "")
    return int(asked) if asked in map(str, range(GENERATIONS, MOST_CERTIFIED + 1)) else GENERATIONS


@page.get("/certificates")
@with_book
def certificates_of_many(book: Book) -> Answer:
    """Those of the living animals, or of an owner's."""
    owner = " ".join(request.args.get("owner", "").split())
    animals = [society_record_of(row) for row in chosen(book, Choice(True, "", owner))]
    if not animals:
        abort(404)
    # one who prints very many keeps others from their pages for a moment, and several would for long
    with served_book().printing.one(the_name()) if len(animals) > MANY else contextlib.nullcontext():
        return certificates(book, animals)


@page.get("/animal/<number>/certificate.txt")
@with_book
def sealed(book: Book, number: str) -> Answer:
    """The file of a certificate, which anyone can check who has the seal that was published last."""
    animal = animal_of(book, number)
    made = served_book().sealed.of(book, animal)
    response = Response(made.text, mimetype="text/plain")
    response.headers["Content-Disposition"] = f"attachment; filename=certificate-{animal.registration_number}.txt"
    return response


def certificates(
    book: Book, animals: list[SocietyRecord], generations: int = GENERATIONS, others: Mapping[int, str] | None = None
) -> Response:
    refuse_to_certify(served_book(), book)
    numbers = [animal.registration_number for animal in animals]
    try:
        certified = begin_certificates(book, served_book().program, numbers, generations)
    except BookMoved:
        # whoever prints while others file needn't ask again and again: the program itself tells of the book as it was
        if not is_made_anew():
            raise
        certified = begin_certificates(book, BookProgram(), numbers, generations)
    picture = picture_of(book)
    shown = PrintedPicture(url_for("settings.picture"), picture.width, picture.height) if picture else None
    issue = Issue(
        "", Society.of(book, shown), datetime.date.today(), last_sealed(book),
        lambda number: url_for("animal.sealed", number=number), generations, others or {},
    )  # fmt: skip
    return printed(certificates_page(book, animals, certified, page_language().printed(), issue), "text/html")


@page.get("/animal/<number>/pedigree")
@with_book
def pedigree(book: Book, number: str) -> Answer:
    """The pedigree on a page of its own, or on several."""
    refuse_to_certify(served_book(), book)
    asked = request.args.get("generations", "")
    generations = int(asked) if asked in map(str, range(1, MOST_GENERATIONS + 1)) else DRAWN
    animal = animal_of(book, number)
    read_line(book, animal.registration_number, generations)
    coefficients = kept_coefficients(book, book.rows_read)
    found = Pedigree(book, animal, coefficients, generations, page_language().printed())
    return printed(found.text(), "text/html" if found.is_long else "image/svg+xml")
