"""The form of a litter: parents, day and owner once, and a row for each newborn."""
from __future__ import annotations

from collections.abc import Mapping
from dataclasses import dataclass

from gudokeyi.domain.changes import Change, Option
from gudokeyi.domain.messages import Mistake
from gudokeyi.domain.requests import WebFault
from gudokeyi.services.filing import clean, parent_named
from gudokeyi.services.litters import MOST, Litter, LitterFault, Newborn, born_together, file_litter
from gudokeyi.services.opening import Book
from gudokeyi.services.option_values import day
from gudokeyi.web.forms import ANYWAY, change_once, token_with
from gudokeyi.web.served_book import ServedBook

# the fields of all, and those of a row
FIELDS = ("dam", "sire", "day", "owner")
ID, NAME, SEX, DEAD = ROW = ("id-{}", "name-{}", "sex-{}", "dead-{}")
# so many rows are there at first, and so many more behind those that are written
AT_FIRST, MORE = 4, 2


def rows_shown(given: Mapping[str, str]) -> list[int]:
    """The places of the rows that a form shows."""
    written = [at for at in range(MOST) if any(given.get(name.format(at)) for name in ROW)]
    return [*range(min(max(AT_FIRST, max(written, default=-1) + 1 + MORE), MOST))]


@dataclass(frozen=True)
class LitterForm:
    """A form with what somebody wrote, and the token that it was sent with."""

    given: Mapping[str, str]
    sent: str

    @property
    def token(self) -> str:
        """Sent again as it was it is the same form; written otherwise it is another."""
        names = [*FIELDS, *(name.format(at) for at in range(MOST) for name in ROW)]
        return token_with(self.sent, [self.text(name) for name in names])

    def text(self, name: str) -> str:
        return clean(self.given.get(name, ""))

    def litter(self, book: Book) -> Litter:
        if not self.text("dam"):
            raise Mistake(WebFault.NO_ANIMAL.said())
        dam, sire = (parent_named(book, self.text(role), may_be_file=False) for role in ("dam", "sire"))
        if dam is None:
            raise Mistake(WebFault.NO_ANIMAL.said())
        if not self.text("day"):
            raise Mistake(WebFault.NO_DAY.said())
        return Litter(dam, day(self.text("day")), sire, self.text("owner"), self.newborns())

    def newborns(self) -> tuple[Newborn, ...]:
        """Those of the rows in which something is written."""
        found = list[Newborn]()
        for at in range(MOST):
            id, name, sex, dead = (self.text(field.format(at)) for field in ROW)
            if sex in ("M", "F"):
                found.append(Newborn(sex, id, name, bool(dead)))
            elif id or name or dead:
                raise Mistake(LitterFault.NO_SEX.said(newborn=id or name or at + 1))
        return tuple(found)

    def options(self) -> tuple[Option, ...]:
        """What was written of all, as the history has the options of the word."""
        return tuple(Option(f"--{name}", self.text(name)) for name in FIELDS if self.text(name))


def send_litter(served: ServedBook, form: LitterForm) -> Change:
    """The change with which the births are stored."""
    with served.opened() as before:
        # which animals may be meant by a wrong word takes long to find: nobody waits for that
        if before is not None:
            form.litter(before)

    def make(book: Book) -> Change:
        one = born_together(book, form.litter(book))
        return file_litter(book, served.program, one, form.options(), form.token, form.text(ANYWAY))

    change = change_once(served, form.token, make)
    assert change is not None
    return change
