"""The page on the breed's state, which is computed in a process beside and kept."""
from __future__ import annotations

from flask import Blueprint, render_template, request
from markupsafe import Markup

from gudokeyi.domain.messages import Mistake
from gudokeyi.render.page_wording import MessageView
from gudokeyi.services.opening import Book
from gudokeyi.services.option_values import years
from gudokeyi.services.selection import as_known
from gudokeyi.web.breed_work import BREED, Measured, Whom, measures_of
from gudokeyi.web.language import on_page, page_language
from gudokeyi.web.mating_work import has_had
from gudokeyi.web.served_book import Answer, served_book, with_book
from gudokeyi.web.workers import Job, Stage

page = Blueprint("breed", __name__)


@page.get("/breed", endpoint="page")
@with_book
def breed(book: Book) -> Answer:
    """What is there is shown, of which change, and how far the work on the book of now is."""
    served, given = served_book(), request.args
    try:
        born = years(given.get("from", "").strip(), given.get("to", "").strip())
        whom = Whom(as_known(given.get("owner", ""), book.owners), born)
        job = measures_of(served, book, whom)
    except Mistake as mistake:
        return page_with(book, None, on_page(mistake.sentences)), 400
    if job.stage is Stage.FAILED:
        served.jobs.forget(job.key)
        return page_with(book, None, on_page(job.failed.sentences)), 400
    if job.stage is Stage.DONE:
        assert isinstance(job.value, Measured)
        return page_with(book, job.value, [])
    # an earlier state of the same animals is shown meanwhile
    before = served.jobs.latest(BREED, whom)
    value = before.value if before else None
    earlier = value if isinstance(value, Measured) and has_had(book, value.mark) else None
    return page_with(book, earlier, [], job)


def page_with(
    book: Book, measured: Measured | None, faults: list[MessageView], under_way: Job | None = None
) -> str:
    assert book.change is not None
    part = Markup(measured.parts[page_language().name]) if measured else ""
    return render_template(
        "breed.html", given=request.args, part=part, of=measured.mark[0] if measured else 0, now=book.change.number,
        faults=faults, under_way=under_way, owners=sorted(book.owners),
    )  # fmt: skip
