"""In which language a page is said, and mistakes as it shows them: in this language, and without the machine's
paths."""
from __future__ import annotations

import contextlib
import enum
from collections.abc import Iterable

from flask import g, request, session
from werkzeug.datastructures import LanguageAccept
from werkzeug.wrappers import Response

from gudokeyi.domain.kinds import CommandKind, Field
from gudokeyi.domain.messages import MessageText, Mistake
from gudokeyi.domain.settings import LANGUAGES, Setting
from gudokeyi.render.page_language import PageLanguage, name_of
from gudokeyi.render.page_wording import MessageView, sentence_in
from gudokeyi.services.settings import settings_of
from gudokeyi.web.served_book import book_of_page, served_book

CHOSEN = "language"
NAMES_OF_LANGUAGES = {"en": "English", "de": "Deutsch", "fr": "Français"}


def usual_language() -> str:
    """That of the settings, else the one that the browser likes best, as where the book can't be read: the page that
    says why has a language too."""
    kept = ""
    with contextlib.suppress(Mistake), book_of_page() as book:
        kept = settings_of(book)[Setting.LANGUAGE] if book else ""
    return kept or language_liked(request.accept_languages)


def language_liked(accepted: LanguageAccept) -> str:
    """The one that a browser likes best of those that there are."""
    # one of a country stands for the language: fr-CH is French
    asked = (asked.partition("-")[0].lower() for asked, quality in accepted if quality > 0)
    return next((language for language in asked if language in LANGUAGES), LANGUAGES[0])


def page_language() -> PageLanguage:
    """Those of the request's language, which is the chosen one or else the usual one."""
    if "words" not in g:
        chosen = session.get(CHOSEN)
        g.words = PageLanguage(chosen if chosen in LANGUAGES else usual_language())
    words: PageLanguage = g.words
    return words


def gettext(text: str, *values: object) -> str:
    """A text in the request's language."""
    return page_language().gettext(text, *values)


def pgettext(context: str, text: str, *values: object) -> str:
    return page_language().pgettext(context, text, *values)


def ngettext(one: str, several: str, count: int, *values: object) -> str:
    return page_language().ngettext(one, several, count, *values)


def name_on_page(member: enum.Enum) -> str:
    """What a member of an enum is called in the request's language."""
    return name_of(member, page_language())


def command_name(kind: str) -> str:
    """What a kind of command is called, by the word for it in addresses."""
    return name_on_page(CommandKind(kind))


def field_name(field: str) -> str:
    """What a field of a sheet is called, by its own name."""
    return name_on_page(Field(field))


def csv_file(text: str, name: str) -> Response:
    """A file for spreadsheets. German and French ones want semicolons, and a mark of its letters."""
    response = Response(text.encode("utf-8" if page_language().is_english else "utf-8-sig"), mimetype="text/csv")
    response.headers["Content-Disposition"] = f"attachment; filename={name}"
    return response


# Mistakes as a page shows them.


def on_page(sentences: Iterable[str]) -> list[MessageView]:
    sentences = list(sentences)
    # for the log, which has no values
    g.told = [*g.get("told", []), *(name for one in sentences if (name := code_of(one)))]
    return without_paths(sentence_in(sentence, page_language()) for sentence in sentences)


def code_of(sentence: str) -> str:
    """By which a sentence is known, without what somebody wrote."""
    message = sentence.sentence if isinstance(sentence, MessageText) else None
    return f"{type(message).__name__}.{message.name}" if message else ""


def without_paths(sentences: Iterable[MessageView]) -> list[MessageView]:
    """The sentences with files by their names alone."""
    served = served_book()
    folders = [*served.uploads.folders()]
    folders += [served.uploads.room, served.folder, served.folder.absolute(), served.folder.absolute().parent]
    with contextlib.suppress(Mistake):
        folders.append(served.program.path.parent)
    found = list(sentences)
    for folder in folders:
        if str(folder) not in (".", "/"):
            found = [
                one._replace(text=one.text.replace(f"{folder}/", "").replace(str(folder), folder.name)) for one in found
            ]
    return found
