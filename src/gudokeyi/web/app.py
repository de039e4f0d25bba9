"""The application of the desk: its pages, their menu, and what each of their templates has."""
from __future__ import annotations

import contextlib

from flask import Flask, request
from werkzeug.routing import IntegerConverter

from gudokeyi.domain.messages import Mistake
from gudokeyi.render.drawing import finished
from gudokeyi.render.page_wording import MessageView
from gudokeyi.render.texts.members import STEPS_OF_WORK
from gudokeyi.web.access import BoundedRequest, Logins, guard, may, the_person
from gudokeyi.web.verification import not_whole
from gudokeyi.web.forms import new_form
from gudokeyi.web.language import (
    NAMES_OF_LANGUAGES, command_name, field_name, gettext, name_on_page, ngettext, on_page, page_language, pgettext,
)  # fmt: skip
from gudokeyi.web.mistakes import show_mistakes
from gudokeyi.web.routes import PAGES
from gudokeyi.web.served_book import EXTENSION, ServedBook, book_of_page, served_book

# what stands above the pages: those that whoever asks may ask for
MENU = {
    "start.page": "Start",
    "animals.page": "Animals",
    "owners.page": "Owners",
    "sheet.page": "Take a sheet",
    "filing.page": "File a command",
    "matings.page": "Matings",
    "breed.page": "The breed",
    "history.page": "History",
    "seals.page": "Seals",
    "settings.page": "Settings",
    "accounts.page": "Accounts",
}
# those that have something to show where there is no book yet
WITHOUT_BOOK = ("start.page", "sheet.page", "seals.page", "accounts.page")


def web_app(served: ServedBook, logins: Logins) -> Flask:
    app = Flask("gudokeyi.web")
    app.request_class = BoundedRequest
    app.url_map.converters["change"] = ChangeNumber
    app.extensions[EXTENSION] = served
    app.jinja_options = {"trim_blocks": True, "lstrip_blocks": True, "finalize": finished}
    guard(app, logins)
    for page in PAGES:
        app.register_blueprint(page)
    app.context_processor(page_values)
    app.jinja_env.globals |= {
        "_": gettext, "ngettext": ngettext, "pgettext": pgettext, "name_of": name_on_page, "command_name": command_name,
        "field_name": field_name,
    }  # fmt: skip
    app.add_template_global(new_form)
    show_mistakes(app)
    return app


class ChangeNumber(IntegerConverter):
    """The number of a change in an address. One of more digits is none."""

    regex = "[0-9]{1,9}"


def page_values() -> dict[str, object]:
    """What each template has, beside the values of its own page."""
    served = served_book()
    shown = MENU if served.has_book() else WITHOUT_BOOK
    person = the_person()
    # whoever is to change the password first has no other pages
    menu = [] if person and person.for_one_login else [(to, MENU[to]) for to in shown if may(to)]
    here = (request.endpoint or "").partition(".")[0]
    return {
        "say": page_language(),
        "steps": STEPS_OF_WORK,
        "menu": menu,
        "here": here,
        "languages": NAMES_OF_LANGUAGES,
        "may": may,
        "person": person,
        "read_only": served.read_only,
        # what a telephone's browser says of itself: filters begin folded there
        "on_phone": "Mobi" in request.user_agent.string,
        "not_whole": faults_of_book,
    }


def faults_of_book() -> list[MessageView]:
    """What is told above each page of a book whose coefficients aren't the program's."""
    if the_person() is None:
        return []
    # a book that can't be read is told by the page
    with contextlib.suppress(Mistake), book_of_page() as book:
        return on_page(not_whole(served_book(), book)) if book and book.change else []
    return []
