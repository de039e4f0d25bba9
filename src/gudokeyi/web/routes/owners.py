"""The pages of owners: all of them, the record of one, two that become one, and what was personal erased for good."""
from __future__ import annotations

from collections.abc import Callable

from flask import Blueprint, abort, flash, redirect, render_template, request, url_for

from gudokeyi.domain.changes import Change
from gudokeyi.domain.messages import Mistake
from gudokeyi.domain.requests import OwnFault
from gudokeyi.render.csv_files import in_language
from gudokeyi.render.page_wording import MessageView
from gudokeyi.services.book_session import BookMoved
from gudokeyi.services.members import (
    Member, erase, member_lines, member_of, members_table, merge, write_member,
)  # fmt: skip
from gudokeyi.services.opening import Book
from gudokeyi.web.forms import change_once, sent_form, token_with
from gudokeyi.web.language import csv_file, gettext, on_page, page_language
from gudokeyi.web.served_book import Answer, served_book, with_book

page = Blueprint("owners", __name__)
# the fields of the form, and what it showed
FIELDS = ("name", "number", "address", "mail", "telephone")
SHOWN, INTO = "shown-{}", "into"
MOVED = "Somebody changed the book meanwhile: look at it, and file it again."


@page.get("/owners", endpoint="page")
@with_book
def owners(book: Book) -> Answer:
    words = " ".join(request.args.get("words", "").split())
    lines = [one for one in member_lines(book) if is_found(one.member, words)]
    return render_template("owners.html", lines=lines, words=words)


def is_found(member: Member, words: str) -> bool:
    text = " ".join((member.name, member.number, member.address, member.mail, member.telephone)).casefold()
    return all(word in text for word in words.casefold().split())


@page.get("/owners.csv", endpoint="file")
@with_book
def file(book: Book) -> Answer:
    """All owners as CSV."""
    words = page_language()
    return csv_file(in_language(members_table(book), words).text(not words.is_english), "owners.csv")


@page.get("/owner/<int:code>", endpoint="form")
@with_book
def form(book: Book, code: int) -> Answer:
    return shown(book, owner_of(book, code), {}, [])


def owner_of(book: Book, code: int) -> Member:
    """The owner with a code; a page that isn't there where there is none."""
    found = member_of(book, code)
    if found is None:
        abort(404)
    return found


def shown(book: Book, member: Member, written: dict[str, str], faults: list[MessageView]) -> Answer:
    now = fields_of(member)
    given = {**now, **{SHOWN.format(name): text for name, text in now.items()}, **written}
    others = [one.member for one in member_lines(book) if one.member.owner_code != member.owner_code]
    page = render_template("owner.html", member=member, given=given, others=others, faults=faults, fields=FIELDS)
    return (page, 400) if faults else page


def fields_of(member: Member) -> dict[str, str]:
    return {
        "name": member.name, "number": member.number, "address": member.address, "mail": member.mail,
        "telephone": member.telephone,
    }  # fmt: skip


def changed(code: int, names: tuple[str, ...], make: Callable[[Book, Member, str], Change]) -> Change | Answer:
    """The change that a form makes, or the page with why it makes none, with what was written."""
    served, given = served_book(), request.form
    token = token_with(sent_form(), [request.path, *(f"{name}={given.get(name, '')}" for name in names)])
    try:
        change = change_once(served, token, lambda book: make(book, owner_of(book, code), token))
    except Mistake as mistake:
        return again(code, names, on_page(mistake.sentences))
    except BookMoved:
        return again(code, names, [MessageView(gettext(MOVED))])
    assert change is not None
    return change


@with_book
def again(book: Book, code: int, names: tuple[str, ...], faults: list[MessageView]) -> Answer:
    return shown(book, owner_of(book, code), {name: request.form.get(name, "") for name in names}, faults)


@page.post("/owner/<int:code>", endpoint="write")
def write(code: int) -> Answer:
    def make(book: Book, before: Member, token: str) -> Change:
        now = fields_of(before)
        if any(request.form.get(SHOWN.format(name), "").split() != text.split() for name, text in now.items()):
            raise Mistake(OwnFault.OWNER_CHANGED.said())
        said = {name: request.form.get(name, "") for name in FIELDS}
        return write_member(book, served_book().program, before, Member(code, **said), token)

    change = changed(code, FIELDS, make)
    if not isinstance(change, Change):
        return change
    flash(gettext("It is kept: change {}.", change.number), "done")
    return redirect(url_for("owners.form", code=code))


@page.post("/owner/<int:code>/merge", endpoint="merge")
def make_one(code: int) -> Answer:
    """All that the owner has becomes that of another one, who is named."""

    def make(book: Book, gone: Member, token: str) -> Change:
        name = " ".join(request.form.get(INTO, "").split())
        stays = member_of(book, book.owners.get(name, 0))
        if stays is None:
            raise Mistake(OwnFault.NO_SUCH_OWNER.said(name=name))
        return merge(book, served_book().program, gone, stays, token)

    change = changed(code, (INTO,), make)
    if not isinstance(change, Change):
        return change
    flash(gettext("The two are one now: change {}.", change.number), "done")
    return redirect(url_for("history.change", number=change.number))


@page.get("/owner/<int:code>/erase", endpoint="ask_erase")
@with_book
def ask_erase(book: Book, code: int) -> Answer:
    """What erasing does, and what the law usually asks."""
    return render_template("erase.html", member=owner_of(book, code), name=f"{gettext('Owner')} {code}")


@page.post("/owner/<int:code>/erase", endpoint="erase")
def erase_one(code: int) -> Answer:
    def make(book: Book, member: Member, token: str) -> Change:
        return erase(book, served_book().program, member, gettext("Owner"), token)

    change = changed(code, (), make)
    if not isinstance(change, Change):
        return change
    flash(gettext("What was personal is erased: change {}.", change.number), "done")
    return redirect(url_for("owners.page"))
