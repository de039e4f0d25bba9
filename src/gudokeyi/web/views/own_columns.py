"""The society's own columns and their values as pages show and read them."""
from __future__ import annotations

from collections.abc import Mapping

from gudokeyi.domain.animals import SocietyRecord
from gudokeyi.domain.own_columns import KEPT, OwnColumn, OwnKind
from gudokeyi.render.page_language import PageLanguage, name_of
from gudokeyi.render.own_values import own_said as own_said
from gudokeyi.services.opening import Book
from gudokeyi.services.own_columns import all_columns, next_place, values_of

# the fields of the page of columns, by the place of each
TITLE, KIND, CHOICES, CERTIFIED = "title-{}", "kind-{}", "choices-{}", "certified-{}"
# those of an animal's values, and what the form showed
VALUE, SHOWN = "own-{}", "shown-own-{}"


def kinds(words: PageLanguage) -> list[tuple[str, str]]:
    """What may stand in a column: what a form sends, and what it is called."""
    return [(one.value, name_of(one, words)) for one in KEPT]


def own_values_shown(book: Book, animal: SocietyRecord, words: PageLanguage) -> list[tuple[str, str]]:
    """The title of each column, and what the animal has in it."""
    return [(one.column.title, own_said(one.column.kind, one.value, words)) for one in values_of(book, animal)]


def columns_written(book: Book, given: Mapping[str, str]) -> list[OwnColumn]:
    """The columns as a form has them: one whose title is empty isn't kept any more, and a new one stands last."""
    before = all_columns(book)
    found = [column_written(one, given) for one in before]
    new = column_written(OwnColumn(next_place(book), "", OwnKind.TEXT), given, "new")
    return found + [new] * bool(new.title)


def column_written(column: OwnColumn, given: Mapping[str, str], at: str = "") -> OwnColumn:
    at = at or str(column.place)
    if TITLE.format(at) not in given:
        return column
    title, kind = " ".join(given[TITLE.format(at)].split()), given.get(KIND.format(at), "")
    if not title:
        return OwnColumn(column.place, column.title, OwnKind.NONE) if column.title else column
    lines = (" ".join(line.split()) for line in given.get(CHOICES.format(at), "").splitlines())
    choices = tuple(dict.fromkeys(line for line in lines if line))
    is_certified = given.get(CERTIFIED.format(at)) == "1"
    found = OwnKind(kind) if kind in list(OwnKind) else OwnKind.TEXT
    return OwnColumn(column.place, title, found, choices if found is OwnKind.CHOICE else (), is_certified)
