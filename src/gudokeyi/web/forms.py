"""Forms that change the book: their tokens, the state of the book that a page showed, and fields that can't be read."""
from __future__ import annotations

import hashlib
import re
import secrets
from collections.abc import Callable, Mapping, Sequence

from flask import abort, request

from gudokeyi.domain.animals import SocietyRecord
from gudokeyi.domain.changes import Change, Mark
from gudokeyi.domain.messages import Mistake
from gudokeyi.domain.options import IMPORT, ON_PAGE, Kind
from gudokeyi.services.history import change_made_by
from gudokeyi.services.imports import ImportOptions, read_sexes, rename_owners
from gudokeyi.services.opening import Book
from gudokeyi.services.option_values import day_until_today, days, three_letters
from gudokeyi.web.changing import to_change
from gudokeyi.web.served_book import ServedBook

# Forms that change the book: each has a token, which is stored with the change that it makes. So a form that is sent
# twice is filed once, and whoever sends it again sees what the first sending made.

FIELD = "form"
TOKEN = re.compile(r"[A-Za-z0-9_-]{20,60}")


def new_form() -> str:
    """The token of a form that is shown."""
    return secrets.token_urlsafe(16)


def sent_form() -> str:
    """That of the form that was sent. One without a token isn't done."""
    token = request.form.get(FIELD, "")
    if not TOKEN.fullmatch(token):
        abort(400, "form")
    return token


def token_with(token: str, written: Sequence[str]) -> str:
    """That of a form with what was written into it: gone back to and written otherwise, it is another form."""
    return hashlib.sha256("\n".join([token, *written]).encode()).hexdigest()[:40]


def change_once(served: ServedBook, form: str, make: Callable[[Book], Change | None]) -> Change | None:
    """The change that is made where the form made none yet, else that one; none where nothing is to be changed."""
    with to_change(served) as book:
        change = made_by(book, form) or make(book)
    if change is not None:
        served.program.stands_at(change)
    served.exports.wish()
    return change


def made_by(book: Book | None, form: str) -> Change | None:
    """The change that a form made in a book."""
    return change_made_by(book, form)


# Which book a page showed, as its form has it: so it is seen whether that is still the book of now.

MARK_FIELD = "looked"
MARK_FORM = re.compile(r"([0-9]{1,9})-([0-9]{1,20})")


def mark_text(mark: Mark) -> str:
    return "-".join(map(str, mark))


def sent_mark() -> Mark:
    """That of the form that was sent. One without it isn't done."""
    found = MARK_FORM.fullmatch(request.form.get(MARK_FIELD, ""))
    if found is None:
        abort(400)
    return int(found[1]), int(found[2])


# Which warnings a form showed: what is sent with them is filed all the same.

ANYWAY = "anyway"


# The parents that a form showed of an animal: what was left of them as it was isn't said, also of another animal, and
# where others stand in the book by now that is seen.

ROLES = ("sire", "dam")
# the fields of a form that say of which animal, and what, it showed
OF_ANIMAL, SHOWN = "shown-id", "shown-{}"


def parents_of(book: Book, animal: SocietyRecord) -> dict[str, str]:
    """The ids of an animal's parents, empty for an unknown one."""
    record = book.records[animal.registration_number]
    named = {"sire": record.sire, "dam": record.dam}
    return {role: book.by_number()[number].id if number else "" for role, number in named.items()}


def shown_in(given: Mapping[str, str]) -> dict[str, str] | None:
    """The parents that a form showed, of whichever animal; none where it showed none."""
    return {role: given.get(SHOWN.format(role), "") for role in ROLES} if given.get(OF_ANIMAL) else None


def with_those_of_now(book: Book, given: Mapping[str, str], animal: SocietyRecord) -> dict[str, str]:
    """The fields of a form that shows the parents as the book has them now, but for what somebody wrote."""
    now, before = parents_of(book, animal), shown_in(given) or dict.fromkeys(ROLES, "")
    left = {role: id for role, id in now.items() if role not in given or given[role] == before.get(role)}
    return {**given, **left, OF_ANIMAL: animal.id, **{SHOWN.format(role): id for role, id in now.items()}}


# Fields of a form that can't be read so, each with why.

# between several owners of a field
BETWEEN = ";"


def owners_of(text: str) -> list[str]:
    """The owners that are written otherwise now, each as `Meier=Meyer`."""
    return [one.strip() for one in text.split(BETWEEN) if one.strip()]


READERS: dict[Kind, Callable[[str], object]] = {
    Kind.LETTERS: three_letters,
    Kind.DAY: day_until_today,
    Kind.DAYS: days,
    Kind.SEXES: lambda text: read_sexes([text]),
}
# the fields of the page of a sheet, by their names
SHEET_FIELDS = {IMPORT[name].in_form: IMPORT[name] for name in ON_PAGE}


def cleaned(name: str, text: str) -> str:
    """What somebody wrote into a field, without blanks around it; three letters in capitals."""
    found = text.strip()
    is_code = name in IMPORT and IMPORT[name].kind is Kind.LETTERS
    return found.upper() if is_code and len(found) == 3 and found.isascii() else found


def wrong_fields(given: Mapping[str, str], book: Book) -> dict[str, str]:
    """The fields that can't be read so, each with a sentence. The book, which is read for this alone, is to have each
    owner who is written otherwise now."""

    def renamed(text: str) -> None:
        rename_owners(book, ImportOptions(book.folder, owners=owners_of(text)))

    readers = READERS | {Kind.OWNERS: renamed}
    found = {}
    for name, one in SHEET_FIELDS.items():
        try:
            if given.get(name) and one.kind in readers:
                readers[one.kind](given[name])
        except Mistake as mistake:
            found[name] = mistake.sentences[0]
    return found
