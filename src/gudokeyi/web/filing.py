"""Files a command that somebody writes into a form: each field read, and the reply stored before it is shown."""
from __future__ import annotations

import datetime
from collections.abc import Callable, Mapping
from dataclasses import dataclass, replace

from gudokeyi.domain.animals import SocietyRecord
from gudokeyi.domain.changes import Change, Option
from gudokeyi.domain.kinds import ChangeKind, ExitReason
from gudokeyi.domain.messages import Mistake
from gudokeyi.domain.requests import WebFault
from gudokeyi.services.filing import (
    FiledCommand, Offspring, born, clean, departed, file, parent_named, transferred, with_parents,
)  # fmt: skip
from gudokeyi.services.filing_warnings import looked_at, refuse_unseen
from gudokeyi.services.opening import Book
from gudokeyi.services.search import find
from gudokeyi.web.forms import ANYWAY, OF_ANIMAL, ROLES, change_once, made_by, parents_of, shown_in, token_with
from gudokeyi.web.served_book import ServedBook

# the kinds of commands with the fields of their forms, which the history has as options but for the animal
FIELDS: dict[ChangeKind, tuple[str, ...]] = {
    ChangeKind.BIRTH: ("id", "name", "sex", "day", "sire", "dam", "owner", "embryo"),
    ChangeKind.PARENTS: ("id", "sire", "dam"),
    ChangeKind.TRANSFER: ("id", "day", "to"),
    ChangeKind.EXIT: ("id", "day", "reason"),
}
KINDS = {kind.value: kind for kind in FIELDS}
# an unknown parent, as a terminal would say it
UNKNOWN = "0"


@dataclass(frozen=True)
class Form:
    """A form with what somebody wrote, and the token that it was sent with."""

    kind: ChangeKind
    given: Mapping[str, str]
    sent: str

    @property
    def token(self) -> str:
        """Sent again as it was it is the same form; with another animal or day in it, it is filed too."""
        return token_with(self.sent, [self.text(name) for name in FIELDS[self.kind]])

    def text(self, name: str) -> str:
        return clean(self.given.get(name, ""))

    def day(self) -> datetime.date:
        try:
            return datetime.date.fromisoformat(self.text("day"))
        except ValueError:
            raise Mistake(WebFault.NO_DAY.said()) from None

    def animal(self, book: Book) -> SocietyRecord:
        if not self.text("id"):
            raise Mistake(WebFault.NO_ANIMAL.said())
        return find(book, self.text("id"), may_be_file=False)

    def parent(self, book: Book, role: str) -> SocietyRecord | None:
        """The animal that is named; none where none is, or a word for an unknown one."""
        return parent_named(book, self.text(role), may_be_file=False)

    def named(self, book: Book) -> None:
        """A mistake where no animal of the book is named as it has to be."""
        if self.kind is not ChangeKind.BIRTH:
            self.animal(book)
        for role in {"sire", "dam"}.intersection(FIELDS[self.kind]):
            self.parent(book, role)

    def options(self, book: Book) -> tuple[Option, ...]:
        """What was written, as the history has the options of a word."""
        if self.kind is ChangeKind.PARENTS:
            return tuple(Option(f"--{role}", self.text(role) or UNKNOWN) for role in self.roles_said(book))
        names = [name for name in FIELDS[self.kind] if name != "id" and self.text(name)]
        return tuple(Option(f"--{name}", "" if name == "embryo" else self.text(name)) for name in names)

    def command(self, book: Book) -> FiledCommand:
        makers: dict[ChangeKind, Callable[[Book], FiledCommand]] = {
            ChangeKind.BIRTH: self.birth, ChangeKind.PARENTS: self.parents, ChangeKind.TRANSFER: self.transfer,
            ChangeKind.EXIT: lambda book: departed(book, self.animal(book), self.day(), self.reason()),
        }  # fmt: skip
        return replace(makers[self.kind](book), options=self.options(book), form=self.token)

    def birth(self, book: Book) -> FiledCommand:
        sex = self.text("sex")
        if sex not in ("M", "F"):
            raise Mistake(WebFault.NO_SEX.said())
        offspring = Offspring(
            self.text("id"), sex, self.day(), self.text("name"), self.parent(book, "sire"), self.parent(book, "dam"),
            self.text("owner"), self.text("embryo") == "1",
        )  # fmt: skip
        return born(book, offspring)

    def parents(self, book: Book) -> FiledCommand:
        """The parents that are said: an empty one is unknown."""
        said = self.roles_said(book)
        sire, dam = ((self.parent(book, role) or "") if role in said else None for role in ROLES)
        return with_parents(book, self.animal(book), sire, dam)

    def roles_said(self, book: Book) -> tuple[str, ...]:
        """Which parents somebody wrote otherwise than the form showed them; both where none was, or where it showed
        none and nothing is left empty that the book has."""
        animal, shown = self.animal(book), shown_in(self.given)
        now = parents_of(book, animal)
        if shown is None:
            if any(now[role] and not self.text(role) for role in ROLES):
                raise Mistake(WebFault.NONE_SHOWN.said(id=animal.id))
            return ROLES
        if self.given[OF_ANIMAL] != animal.id:
            raise Mistake(WebFault.OTHER_SHOWN.said(shown=self.given[OF_ANIMAL], id=animal.id))
        if shown != now:
            raise Mistake(WebFault.PARENTS_CHANGED.said(id=animal.id))
        return tuple(role for role in ROLES if self.text(role) != " ".join(shown[role].split())) or ROLES

    def reason(self) -> str:
        """One of the reasons of an exit; empty where none is said."""
        return self.text("reason") if self.text("reason") in [*ExitReason] else ""

    def transfer(self, book: Book) -> FiledCommand:
        return transferred(book, self.animal(book), self.day(), self.text("to"), None)


def written_in(change: Change, id: str) -> dict[str, str]:
    """What was written into the form of a change, as the form has it."""
    given = {one.option.removeprefix("--"): one.word or "1" for one in change.options}
    if "sex" in given:
        given["sex"] = given["sex"].upper()
    return {"id": id} | given


def file_form(served: ServedBook, form: Form) -> Change:
    """The change with which the command and its reply are stored."""
    with served.opened() as before:
        # which animals may be meant by a wrong word takes long to find: nobody waits for that
        if before is not None and not made_by(before, form.token):
            form.named(before)

    def make(book: Book) -> Change:
        one = looked_at(book, form.command(book))
        refuse_unseen(one.warnings, form.text(ANYWAY))
        return file(book, served.program, one)[0]

    change = change_once(served, form.token, make)
    assert change is not None
    return change
