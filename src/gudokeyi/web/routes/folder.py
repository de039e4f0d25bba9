"""The folder of a desk that the desktop's menu opened: the page that asks for it, and the end of the desk."""
from __future__ import annotations

import pathlib
from typing import Protocol

from flask import Blueprint, Flask, current_app, redirect, render_template, request, url_for
from werkzeug.wrappers import Response

from gudokeyi.domain.messages import Mistake
from gudokeyi.web.access import OPEN_TO_ALL, the_person
from gudokeyi.web.folders import books_found, chosen, documents, remember
from gudokeyi.web.language import gettext, on_page
from gudokeyi.web.served_book import Answer

page = Blueprint("folder", __name__)
EXTENSION = "menu"
MOST_LETTERS = 4_000


class FolderDesk(Protocol):
    """The desk whose folder may be another one."""

    folder: pathlib.Path | None
    faults: tuple[str, ...]

    def show(self, folder: pathlib.Path) -> None: ...

    def close_soon(self) -> None: ...


def add_to(app: Flask, served: FolderDesk) -> None:
    """Has the pages of an application tell the folder, and ask for it before all else where there is none."""
    app.extensions[EXTENSION] = served
    app.register_blueprint(page)
    app.before_request(ask_first)
    app.context_processor(lambda: {"own_folder": served.folder if the_person() else None})


def the_desk() -> FolderDesk:
    served: FolderDesk = current_app.extensions[EXTENSION]
    return served


def ask_first() -> Response | None:
    asks = the_desk().folder is None and request.endpoint not in OPEN_TO_ALL
    return redirect(url_for("folder.page")) if asks and request.blueprint != page.name else None


@page.get("/folder", endpoint="page")
def folder() -> Answer:
    return asked(the_desk().faults, str(documents() / gettext("Herd book")))


def asked(faults: tuple[str, ...], given: str) -> str:
    """Without a book there are no other pages."""
    shown = {"faults": on_page(faults), "given": given, "found": books_found()}
    return render_template("folder.html", **shown if the_desk().folder else shown | {"menu": []})


@page.post("/folder")
def choose() -> Answer:
    """Shows the book of the folder that is named, and remembers it."""
    text = request.form.get("folder", "")[:MOST_LETTERS]
    try:
        named = chosen(text)
        the_desk().show(named)
    except Mistake as mistake:
        return asked(mistake.sentences, text), 400
    remember(named)
    return redirect(url_for("start.page"))


@page.post("/folder/close")
def close() -> Answer:
    the_desk().close_soon()
    return render_template("closed.html", menu=[], own_folder=None)
