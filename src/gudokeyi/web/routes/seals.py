"""The pages of seals: a certificate of anybody's is checked, and the seals that the society published are shown. A
keeper publishes the seal of now."""
from __future__ import annotations

import tempfile

from flask import Blueprint, flash, redirect, render_template, request, url_for
from werkzeug.datastructures import FileStorage

from gudokeyi.domain.messages import Mistake
from gudokeyi.domain.requests import WebFault
from gudokeyi.domain.seals import TITLES, CertificateRefused, PublishedSeal
from gudokeyi.render.page_wording import MessageView
from gudokeyi.services.book_program import BookProgram
from gudokeyi.services.cache import stamp_of
from gudokeyi.services.opening import Book
from gudokeyi.services.seal_publishing import publish_seal
from gudokeyi.services.seals import CheckedCertificate, check_file, digits_of, first_with, published_seals
from gudokeyi.services.written_anew import written_anew
from gudokeyi.web.language import csv_file, gettext, on_page, page_language
from gudokeyi.web.served_book import Answer, served_book, with_book
from gudokeyi.web.verification import verified
from gudokeyi.web.views.seals import line_of, view_of

page = Blueprint("seals", __name__)


@page.get("/seals", endpoint="page")
def seals() -> Answer:
    return shown([], "")


def shown(faults: list[MessageView], given: str, is_refused: bool = False) -> str:
    """The page, also where there is no book: a certificate may be another society's. `given` is a seal that somebody
    wrote, and `faults` say why nothing was checked, or why a certificate is refused."""
    with served_book().opened() as book:
        has_book = book is not None and book.change is not None
        published = published_seals(book) if book and has_book else []
        anew = written_anew(book, published) if book else {}
        is_of_now = bool(published) and book is not None and is_sealed(book, published[-1])
    lines = [line_of(one, anew.get(one), page_language()) for one in reversed(published)]
    return render_template(
        "seals.html", faults=faults, is_refused=is_refused, given={"seal": given}, has_book=has_book, lines=lines,
        has_anew=bool(anew), is_of_now=is_of_now,
    )  # fmt: skip


def is_sealed(book: Book, published: PublishedSeal) -> bool:
    """Is it the seal of the book as it is now?"""
    return (published.edition, published.seal.steps) == book.journal


@page.get("/seals.csv")
@with_book
def lines(book: Book) -> Answer:
    """The lines as others have them, below titles, and as `verify --published` reads them."""
    words = page_language()
    separator = "," if words.is_english else ";"
    lines = [separator.join(TITLES[words.name]), *(one.line(separator) for one in published_seals(book))]
    return csv_file("".join(f"{line}\n" for line in lines), "seals.csv")


@page.post("/seals")
def publish() -> Answer:
    """Publishes the seal of now. Sent twice it is published once, and nobody who files waits for it."""
    served = served_book()
    if served.is_closing:
        raise Mistake(WebFault.CLOSING.said())

    def see_whole(book: Book) -> None:
        if stamp_of(book) != served.trusted:
            verified(served, book)

    # by a run of its own, which answers for the book that is read here, whoever files meanwhile
    kept = publish_seal(served.folder, BookProgram(), see_whole)
    flash(gettext("The seal {} … {} is published.", *kept.seal.ends), "done")
    return redirect(url_for("seals.page"))


@page.post("/seals/check")
def check() -> Answer:
    """What the program says of a certificate's file, under a seal. Of the file nothing else is shown."""
    given, file = request.form.get("seal", "").strip(), request.files.get("certificate")
    if file is None or not file.filename:
        return shown([MessageView(gettext("Choose a file first."))], given), 400
    try:
        seal = digits_of(given)
        checked = checked_of(file, seal)
    except Mistake as mistake:
        return shown(on_page(mistake.sentences), given, isinstance(mistake, CertificateRefused)), 400
    with served_book().opened() as book:
        published = first_with(book, seal) if book else None
        anew = written_anew(book, [published]) if book and published else {}
    line = line_of(published, anew.get(published), page_language()) if published else None
    return render_template("checked.html", checked=view_of(checked, seal, page_language()), line=line)


def checked_of(file: FileStorage, seal: str) -> CheckedCertificate:
    """What the program says of a file that was sent, which is kept nowhere longer than that takes."""
    with tempfile.TemporaryFile() as kept:
        try:
            file.save(kept)
            kept.seek(0)
        except OSError as error:
            raise Mistake(WebFault.NOT_KEPT.said(error=error)) from None
        return check_file(kept, seal)
