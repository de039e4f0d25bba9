"""What is taken as it stands, and told for somebody to look at: each kind as data, and in words. Those that a command
filed by hand has too, as a parent that was young, stand in `by_hand.py`."""
from __future__ import annotations

import datetime
from collections.abc import Mapping
from dataclasses import dataclass

from gudokeyi.domain.changes import Option
from gudokeyi.domain.findings import PlausibilityWarning, Severity, Suggestion, columns
from gudokeyi.domain.kinds import Field, Role
from gudokeyi.domain.wording import Counted, OptionalPart, Text, Told


@dataclass(frozen=True, slots=True)
class RowOf(Told):
    """An animal and its line."""

    id: str
    line: int

    message = Text("{id}{maybe_line}")
    parts = {
        "maybe_line": OptionalPart(" (line {line})"),
    }


@dataclass(frozen=True, slots=True)
class BornDead(PlausibilityWarning):
    """An animal whose name says that it never lived."""

    name: str

    code = "born dead"
    message = Text(
        "its name '{name}' says that it was born dead, and it counts as living: write stillborn, totgeboren or mort-né into "
        "a column for exits"
    )


@dataclass(frozen=True, slots=True)
class BirthsTooNear(PlausibilityWarning):
    """Two births of one dam that are nearer to one another than can be."""

    dam: str
    other: str
    line: int
    days: int
    limit: int

    severity = Severity.PARENTS
    code = "births too near"
    message = Counted(
        "its dam {dam} bore {other}{maybe_line} {days} day before, less than {limit}",
        "its dam {dam} bore {other}{maybe_line} {days} days before, less than {limit}",
        "days",
    )
    parts = {
        "maybe_line": OptionalPart(" (line {line})"),
    }

    def suggestions(self) -> tuple[Suggestion, ...]:
        return (Suggestion("if that can be", (Option("--apart", str(self.days)),)),)


@dataclass(frozen=True, slots=True)
class BirthsNearerThanUsual(PlausibilityWarning):
    """Two births of one dam that are much nearer to one another than nearly all others of the sheet and the book."""

    dam: str
    other: str
    line: int
    days: int
    usual: int

    severity = Severity.PARENTS
    code = "births nearer than usual"
    message = Text(
        "its dam {dam} bore {other}{maybe_line} {days} days before, where nearly all births of one dam are {usual} "
        "days apart and more: is one of the days wrong, or the dam?"
    )
    parts = {
        "maybe_line": OptionalPart(" (line {line})"),
    }

    def suggestions(self) -> tuple[Suggestion, ...]:
        return (Suggestion("if that can be", (Option("--apart", str(self.days)),)),)


@dataclass(frozen=True, slots=True)
class OldParent(PlausibilityWarning):
    """A parent that was older than an animal gets when its offspring was born: one of the two days may be wrong."""

    role: Role
    parent: str
    line: int
    years: int

    severity = Severity.PARENTS
    code = "old parent"
    message = Text(
        "its {role} {parent}{maybe_line} would have been {years} years old at its birth: is one of the birth days "
        "wrong?"
    )
    parts = {
        "maybe_line": OptionalPart(" (line {line})"),
    }


@dataclass(frozen=True, slots=True)
class SireLeftLongBefore(PlausibilityWarning):
    sire: str
    line: int
    left: datetime.date
    born: datetime.date

    severity = Severity.PARENTS
    code = "sire left long before"
    message = Text(
        "its sire {sire}{maybe_line} left on {left}, more than a year before its birth on {born}: is it another sire, "
        "or frozen semen?"
    )
    parts = {
        "maybe_line": OptionalPart(" (line {line})"),
    }


@dataclass(frozen=True, slots=True)
class CastratedSire(PlausibilityWarning):
    """A wether, a gelding or another castrated male has offspring; `title` is that of a column of castrations that says
    so by the word."""

    word: str
    progeny: int
    first: str
    line: int
    title: str = ""

    severity = Severity.PARENTS
    code = "castrated sire"
    stored_fields = {"progeny": "calves"}
    message = Counted(
        "it is the sire of {first}{maybe_line}, and {maybe_word}{maybe_title}{maybe_of_book}",
        "it is the sire of {first}{maybe_line}{maybe_more}, and {maybe_word}{maybe_title}{maybe_of_book}",
        "progeny",
    )
    parts = {
        "maybe_line": OptionalPart(" (line {line})"),
        "maybe_more": OptionalPart(" and of {more} more"),
        "maybe_word": OptionalPart("its sex is '{word}'", when="is_of_sex"),
        "maybe_title": OptionalPart("'{title}' says '{word}'"),
        "maybe_of_book": OptionalPart("the book has it as castrated", when="is_of_book"),
    }

    def values(self) -> Mapping[str, object]:
        more = self.progeny - 1 if self.progeny > 1 else None
        return {"more": more, "is_of_book": not self.word, "is_of_sex": not self.title}


@dataclass(frozen=True, slots=True)
class NameAndDayTwice(PlausibilityWarning):
    """Two animals have one name and birth day."""

    other: str
    line: int

    severity = Severity.ANIMALS
    code = "name and day twice"
    message = Text("{other}{maybe_line} has its name and its birth day too: are they one animal?{maybe_row}")
    parts = {
        "maybe_line": OptionalPart(" (line {line})"),
        "maybe_row": OptionalPart(
            " If so, take out the row whose id it hasn't any more, this one or line {line} ({other}), and write the "
            "other id where offspring name it",
            when="has_row",
        ),
    }

    def values(self) -> Mapping[str, object]:
        return {"has_row": bool(self.line)}


@dataclass(frozen=True, slots=True)
class NewTagBesideRow(PlausibilityWarning):
    """A new row with the name and the birth day of an animal of the book, `former`, which has a row too."""

    former: str
    line: int
    now: str

    severity = Severity.ANIMALS
    code = "new tag beside row"
    message = Text(
        "{former} (line {line}) has its name and its birth day too: did that one get {now} as its new tag? If so, take "
        "line {line} with {former} out, and import the sheet again with --new-tag {former}={now}; if this one is "
        "taken, undo it first"
    )
    page_message = Text(
        "{former} (line {line}) has its name and its birth day too: did that one get {now} as its new tag? If so, take "
        "line {line} with {former} out, and write {former}={now} as a new tag; if the sheet is taken, undo it first"
    )


@dataclass(frozen=True, slots=True)
class RowOfFormerId(PlausibilityWarning):
    """A row of an animal that has another one with the id which it had before it got its new tag."""

    former: str
    line: int

    severity = Severity.ANIMALS
    code = "row of former id"
    message = Text(
        "its former id {former} has a row too, line {line}, with its name and its birth day: take line {line} out, or "
        "{former} counts as another animal"
    )


@dataclass(frozen=True, slots=True)
class NameAlike(PlausibilityWarning):
    """A parent's name differs from that of another animal in accents or capitals alone."""

    name: str
    other: str
    called: str

    severity = Severity.PARENTS
    code = "name alike"
    message = Text("its name is '{name}', and {other} is called '{called}': is that one meant?")


@dataclass(frozen=True, slots=True)
class OldAsLiving(PlausibilityWarning):
    """An animal without an exit that was born decades before the others."""

    born: datetime.date
    years: int
    median: int

    code = "old as living"
    message = Text(
        "born {born}, it counts as living; half of the living animals were born in {median} or later, {years} years "
        "after it: has it left?"
    )


@dataclass(frozen=True, slots=True)
class ManyOldAsLiving(PlausibilityWarning):
    """Many animals without an exit were born decades before the others."""

    animals: int
    years: int

    code = "many old as living"
    message = Text(
        "{animals} animals without an exit were born {years} years and more before half of the living ones: are their "
        "exits missing in that column?"
    )


@dataclass(frozen=True, slots=True)
class ExitsWithdrawn(PlausibilityWarning):
    """Animals that had left count as living again: how many, and the first of them. `other` has an exit in the sheet,
    as so many others have: then the column is the right one."""

    animals: int
    first: tuple[RowOf, ...]
    other: str = ""

    severity = Severity.ANIMALS
    code = "exits withdrawn"
    message = Counted(
        "{animals} animal that had left counts as living again, {first}: is its exit missing in the sheet?",
        "{animals} animals that had left count as living again, the first are {first}: are their exits missing in "
        "the sheet?",
        "animals",
    )

    def suggestions(self) -> tuple[Suggestion, ...]:
        if self.other:
            return ()
        option = columns({Field.EXIT: ""})
        return (Suggestion("if the sheet doesn't tell of exits", (option,), undoes=True),)


@dataclass(frozen=True, slots=True)
class MostChanged(PlausibilityWarning):
    """Most rows of animals that the book has have a field otherwise."""

    name: str
    changed: int
    both: int

    code = "most changed"
    message = Text(
        "{changed} of {both} animals have another {name} than before: is its column the right one?"
    )


@dataclass(frozen=True, slots=True)
class ColumnsSwapped(PlausibilityWarning):
    """Most parents of a sheet are refused for their sex; the titles are those of the sires' and the dams' columns."""

    refused: int
    links: int
    sires: str
    dams: str

    decides_much = True
    severity = Severity.ANIMALS
    code = "columns swapped"
    message = Text(
        "{refused} of {links} parents are left out for their sex: are the sires in '{dams}', and the dams in "
        "'{sires}'?"
    )

    def suggestions(self) -> tuple[Suggestion, ...]:
        option = columns({Field.SIRE: self.dams, Field.DAM: self.sires})
        return (Suggestion("if they are", (option,)),)
