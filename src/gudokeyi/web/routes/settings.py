"""The page of settings: what the society says of itself, and how its sheets are read."""
from __future__ import annotations

from collections.abc import Mapping

from flask import Blueprint, Response, abort, flash, redirect, render_template, request, url_for

from gudokeyi.domain.kinds import Remembered
from gudokeyi.domain.messages import Mistake
from gudokeyi.domain.options import IMPORT
from gudokeyi.domain.settings import Setting
from gudokeyi.render.page_wording import MessageView
from gudokeyi.services.opening import Book
from gudokeyi.services.settings import (
    MOST_PICTURE_BYTES, change_picture as keep_picture, change_settings, checked, letters_said, lines_of, picture_of,
    picture_read, settings_of,
)  # fmt: skip
from gudokeyi.web.changing import in_turn
from gudokeyi.web.language import gettext, on_page
from gudokeyi.web.served_book import Answer, served_book, with_book

page = Blueprint("settings", __name__)
MOST_LETTERS = 2_000
# the field that says what the page had
SHOWN = "shown-{}"
SET_MEANWHILE = "{}: somebody else wrote “{}” meanwhile. Look at it, and keep the settings again."
LABELS = {
    Setting.NAME: "Name of the society",
    Setting.ADDRESS: "Address",
    Setting.BREED_NAME: "What the breed is called",
    Setting.BREED: "Breed in new numbers",
    Setting.COUNTRY: "Country in new numbers",
    Setting.UNKNOWN: IMPORT["unknown"].label,
    Setting.LANGUAGE: "Language of these pages, where nobody chose one",
}


@page.get("/settings", endpoint="page")
@with_book
def settings(book: Book) -> Answer:
    now = as_shown(book)
    return shown(book, now, now, [], {})


def shown(
    book: Book, given: Mapping[Setting, str], now: Mapping[Setting, str], faults: list[MessageView],
    wrong: Mapping[str, MessageView],
) -> Answer:  # fmt: skip
    """The page with what was written, below why that can't be."""
    said = ", ".join(one.word for one in book.remembered if one.what is Remembered.UNKNOWN)
    answer = render_template(
        "settings.html", given=given, now=now, faults=faults, wrong=wrong, said=said, picture=picture_of(book)
    )
    return (answer, 400) if faults else answer


def as_shown(book: Book) -> dict[Setting, str]:
    """The settings as the page has them, with the letters with which new numbers begin."""
    given = settings_of(book)
    breed, country = letters_said(book)
    return given | {Setting.BREED: breed, Setting.COUNTRY: country}


@page.post("/settings")
def change() -> Answer:
    """Keeps what somebody wrote otherwise than the page had it; where that was set otherwise meanwhile it is told."""
    served = served_book()
    said = {one: request.form.get(one.value, "")[:MOST_LETTERS] for one in Setting if is_written(one)}
    wrong = {setting.value: told for setting, text in said.items() if (told := wrong_setting(setting, text))}
    try:
        with in_turn(served):
            now = settings_now()
            faults = [*wrong.values(), *(set_meanwhile(one, now[one]) for one in said if is_other(one, now[one]))]
            if not faults:
                change_settings(served.folder, said)
    except Mistake as mistake:
        now, faults = settings_now(), on_page(mistake.sentences)
    if faults:
        return again(now | said, now, faults, wrong)
    flash(gettext("The settings are kept."), "done")
    return redirect(url_for("settings.page"))


@with_book
def again(
    book: Book, given: Mapping[Setting, str], now: Mapping[Setting, str], faults: list[MessageView],
    wrong: Mapping[str, MessageView],
) -> Answer:  # fmt: skip
    return shown(book, given, now, faults, wrong)


@page.get("/settings/picture", endpoint="picture")
@with_book
def picture(book: Book) -> Answer:
    """The picture that certificates show."""
    found = picture_of(book)
    if found is None:
        abort(404)
    return Response(found.file, mimetype=found.media_type)


@page.post("/settings/picture")
def change_picture() -> Answer:
    """Keeps a picture in place of the one before, or none."""
    served, file, is_removed = served_book(), request.files.get("picture"), "remove" in request.form
    try:
        found = None if is_removed else picture_read(file.read(MOST_PICTURE_BYTES + 1) if file else b"")
        with in_turn(served):
            keep_picture(served.folder, found)
    except Mistake as mistake:
        now = settings_now()
        return again(now, now, on_page(mistake.sentences), {})
    flash(gettext("The picture is removed.") if is_removed else gettext("The picture is kept."), "done")
    return redirect(url_for("settings.page", _anchor="picture"))


def settings_now() -> dict[Setting, str]:
    with served_book().opened() as book:
        return as_shown(book or Book(served_book().folder, None))


def is_written(setting: Setting) -> bool:
    """Did somebody write it otherwise than the page had it? Of a form that doesn't say what that was all is written."""
    if SHOWN.format(setting) not in request.form:
        return True
    return setting.value in request.form and is_other(setting, request.form[setting.value])


def is_other(setting: Setting, text: str) -> bool:
    """Is it another than the page had?"""
    shown = request.form.get(SHOWN.format(setting))
    return shown is not None and lines_of(shown) != lines_of(text)


def set_meanwhile(setting: Setting, now: str) -> MessageView:
    told = gettext(SET_MEANWHILE, gettext(LABELS[setting]), ", ".join(now.splitlines()) or "–")
    return MessageView(told)


def wrong_setting(setting: Setting, text: str) -> MessageView | None:
    """Why a setting can't have a value."""
    try:
        checked(setting, text)
    except Mistake as mistake:
        return on_page(mistake.sentences)[0]
    return None
