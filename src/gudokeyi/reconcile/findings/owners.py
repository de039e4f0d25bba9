"""What may be wrong of the names of owners."""
from __future__ import annotations

from collections.abc import Mapping
from dataclasses import dataclass

from gudokeyi.domain.changes import Option
from gudokeyi.domain.findings import PlausibilityWarning, Suggestion
from gudokeyi.domain.messages import AnyOf
from gudokeyi.domain.wording import AllOf, Counted, Text


@dataclass(frozen=True, slots=True)
class OwnerIsNoName(PlausibilityWarning):
    """What stands for an owner reads like an exit, a day or a word for somebody."""

    owner: str
    count: int

    code = "owner is no name"
    message = Counted(
        "'{owner}' stands where {count} animal has its owner, and doesn't look like a name: an owner of this name is "
        "made; write who has the animal, or nothing where nobody knows",
        "'{owner}' stands where {count} animals have their owner, and doesn't look like a name: an owner of this name "
        "is made; write who has them, or nothing where nobody knows",
        "count",
    )


@dataclass(frozen=True, slots=True)
class OwnersCountUp(PlausibilityWarning):
    """Rows below one another whose owners' numbers count up: how many, the one above, the first and the last."""

    owner: str
    owner_line: int
    count: int
    first: str
    line: int
    last: str
    last_line: int

    code = "owners count up"
    message = Text(
        "below '{owner}' in line {owner_line} the owners' numbers count up in {count} rows, from '{first}' in line {line} "
        "to '{last}' in line {last_line}, as those of a spreadsheet do where a cell is pulled down: each becomes an owner "
        "of its own; if all are '{owner}', write that into these rows"
    )


@dataclass(frozen=True, slots=True)
class OwnerForSale(PlausibilityWarning):
    """What stands for an owner says that the animal may be bought."""

    text: str
    count: int

    code = "owner for sale"
    message = Counted(
        "'{text}' stands where {count} animal has its owner, and says that it is for sale: no owner is read there, and "
        "one that the book has stays; write who has the animal",
        "'{text}' stands where {count} animals have their owner, and says that they are for sale: no owner is read "
        "there, and those that the book has stay; write who has them",
        "count",
    )


@dataclass(frozen=True, slots=True)
class OwnerOfSeveral(PlausibilityWarning):
    """What stands for an owner has the names of others in it."""

    owner: str
    others: tuple[str, ...]
    count: int

    code = "owner of several"
    message = Counted(
        "the owner of {count} animal is written '{owner}', which has the name {which} in it, and becomes an owner of "
        "its own: write only the name of the one who has the animal",
        "the owner of {count} animals is written '{owner}', which has the name {which} in it, and becomes an owner of "
        "its own: write only the name of the one who has them",
        "count",
    )

    def values(self) -> Mapping[str, object]:
        return {"which": AllOf(self.others)}


@dataclass(frozen=True, slots=True)
class OwnerWithMore(PlausibilityWarning):
    """An owner has the last name of others alone, who have an initial or a first name more. `before` is written `now`
    where one of them is the book's, and the other the sheet's."""

    owner: str
    others: tuple[str, ...]
    before: str = ""
    now: str = ""

    code = "owner with more"
    message = Text(
        "the owner '{owner}' may be {which}, with an additional initial or first name: if they are one, write the name "
        "the same way in all rows, and take the sheet again"
    )

    def values(self) -> Mapping[str, object]:
        return {"which": AnyOf(self.others)}

    def suggestions(self) -> tuple[Suggestion, ...]:
        option = Option("--owner", f"{self.before}={self.now}")
        is_renamed = (Suggestion("if the name is only spelled differently", (option,), undoes=True),)
        return is_renamed if self.before else ()


# so many others are told
MOST_OTHERS = 5


@dataclass(frozen=True, slots=True)
class OwnerWithInitial(PlausibilityWarning):
    """An owner has an initial where others of the same last name have a first name that begins so."""

    owner: str
    others: tuple[str, ...]

    code = "owner with initial"
    message = Text(
        "the owner '{owner}' may be {which}, whose first name begins with that initial: if they are one, write the "
        "name the same way in all rows, and take the sheet again"
    )

    def values(self) -> Mapping[str, object]:
        return {"which": AnyOf(self.others)}


@dataclass(frozen=True, slots=True)
class OwnerOfGeneration(PlausibilityWarning):
    """An owner has neither `sen.` nor `jun.` where others of the name have one."""

    owner: str
    others: tuple[str, ...]

    code = "owner of generation"
    message = Text(
        "the owner '{owner}' may be {which}, as its name stands without sen. or jun.: if they are one, write the name "
        "the same way in all rows, and take the sheet again"
    )

    def values(self) -> Mapping[str, object]:
        return {"which": AnyOf(self.others)}
