"""What is found of a row that contradicts its offspring, or may be an animal of the book: each kind as data, and in
words."""
from __future__ import annotations

import datetime
from collections.abc import Mapping
from dataclasses import dataclass

from gudokeyi.domain.changes import Option
from gudokeyi.domain.findings import Severity, Suggestion, quoted
from gudokeyi.domain.kinds import Role
from gudokeyi.domain.wording import SEXES, Counted, OptionalPart, Text
from gudokeyi.domain.findings import PlausibilityWarning
from gudokeyi.ingest.findings.columns import SheetFinding

# the option by which an animal of the book has another id
NEW_TAG = "--new-tag"


@dataclass(frozen=True, slots=True)
class SexAgainstOffspring(PlausibilityWarning):
    """The cell of a sex that offspring, or the book and offspring, speak against: the parent stays one."""

    written: str
    sex: str
    role: Role
    progeny: int
    first: str
    in_book: bool

    severity = Severity.ANIMALS
    code = "sex against offspring"
    message = Counted(
        "its sex '{written}' is wrong, or its offspring are: it is the {role} of {progeny} animal, {first}"
        "{maybe_in_book}, so it is taken as {sex}",
        "its sex '{written}' is wrong, or its offspring are: it is the {role} of {progeny} animals, as of {first}"
        "{maybe_in_book}, so it is taken as {sex}",
        "progeny",
    )
    parts = {
        "maybe_in_book": OptionalPart(", and {sex} in the book", when="in_book"),
    }

    def values(self) -> Mapping[str, object]:
        return {"sex": SEXES.get(self.sex, self.sex)}


@dataclass(frozen=True, slots=True)
class SexOfAnother(PlausibilityWarning):
    """A female of the book that is a castrated male in the sheet, or the other way about: no animal becomes that."""

    word: str
    was_castrated: bool

    severity = Severity.ANIMALS
    code = "sex of another"
    message = Text(
        "its sex is '{word}', and the book has it as {maybe_castrated}{maybe_female}: it is taken as the sheet says; "
        "if the row has the id of another animal, correct that, and if the word is wrong, correct the word"
    )
    parts = {
        "maybe_castrated": OptionalPart("a castrated male", when="was_castrated"),
        "maybe_female": OptionalPart("a female", when="was_female"),
    }

    def values(self) -> Mapping[str, object]:
        return {"was_female": not self.was_castrated}


@dataclass(frozen=True, slots=True)
class NewTag(PlausibilityWarning):
    """A new row that has the name, the birth day and the parents of an animal that has no row any more."""

    before: str
    now: str

    severity = Severity.ANIMALS
    code = "new tag"
    message = Text(
        "it has the name, the birth day and the parents of {before}, which has no row any more: it is taken as another "
        "animal"
    )

    def suggestions(self) -> tuple[Suggestion, ...]:
        return (Suggestion("if it is that one with a new tag", (Option(NEW_TAG, quoted(f"{self.before}={self.now}")),),
                           undoes=True),)  # fmt: skip


@dataclass(frozen=True, slots=True)
class TagWithoutSign(NewTag):
    """A new row whose id has an animal without a row with a sign before it, by which animals leave."""

    code = "tag without sign"
    message = Text(
        "the book has {before}, which has no row: is it this animal, from a list that had a sign before its id? It is "
        "taken as another animal"
    )


@dataclass(frozen=True, slots=True)
class SameButForSign(PlausibilityWarning):
    """The book has an animal of a row twice: the `other`, which has no row, has a sign before the id."""

    other: str

    severity = Severity.ANIMALS
    code = "same but for sign"
    message = Text(
        "the book has {other} too, which has no row and a sign before the same id: are they one animal? If so, "
        "{other} needn't stay; --drop-gone drops what has no row, but for ancestors of animals that have one"
    )
    page_message = Text(
        "the book has {other} too, which has no row and a sign before the same id: are they one animal? If so, "
        "{other} needn't stay"
    )


@dataclass(frozen=True, slots=True)
class IdsWithApostrophe(SheetFinding):
    """Ids that the book took from a sheet with an apostrophe before them: how many, the first, and what it is now."""

    count: int
    before: str
    now: str

    severity = Severity.ANIMALS
    code = "ids with apostrophe"
    message = Counted(
        "{count} id of the book has an apostrophe, by which a spreadsheet knows a text, before it: {before} is {now} "
        "from now on",
        "{count} ids of the book have an apostrophe, by which a spreadsheet knows a text, before them: they are "
        "without it from now on, as {before} is {now}",
        "count",
    )


@dataclass(frozen=True, slots=True)
class IdsAsInBook(SheetFinding):
    """Ids that are written otherwise than in the book: how many, the first, and what it is there."""

    count: int
    line: int
    text: str
    id: str

    severity = Severity.ANIMALS
    code = "ids as in book"
    message = Counted(
        "{count} id of the sheet differs from one of the book in case, blanks, signs or zeros alone, '{text}' in line "
        "{line} from {id}: the row is taken as that animal, whose id stays as in the book",
        "{count} ids of the sheet differ from those of the book in case, blanks, signs or zeros alone, the first '{text}' "
        "in line {line} from {id}: these rows are taken as those animals, whose ids stay as in the book",
        "count",
    )


@dataclass(frozen=True, slots=True)
class IdsExchanged(PlausibilityWarning):
    """Two rows, each with the name, the birth day and the parents that the book has of the other one's id."""

    id: str
    other: str
    line: int
    name: str
    other_name: str
    is_left_out: bool

    severity = Severity.ANIMALS
    code = "ids exchanged"
    message = Text(
        "did it exchange its id with {other} (line {line})? Each has the name, the birth day and the parents of the "
        "other: until now '{name}' was {other}, and '{other_name}' {id}{maybe_taken}; if the ids are exchanged in the "
        "sheet alone, correct both lines, and take it again"
    )
    parts = {
        "maybe_taken": OptionalPart(
            "; as it stands each becomes the other, but for its offspring and notes", when="is_taken"
        ),
    }

    def values(self) -> Mapping[str, object]:
        return {"is_taken": not self.is_left_out}

    def suggestions(self) -> tuple[Suggestion, ...]:
        pairs = (self.id, self.other), (self.other, self.id)
        said = ",".join(quoted(f"{before}={now}") for before, now in pairs)
        return (Suggestion("if each has the other's id from now on", (Option(NEW_TAG, said),), undoes=True),)


@dataclass(frozen=True, slots=True)
class TagOfAnother(PlausibilityWarning):
    """A row with another name, another birth day and another parent than the animal of the book with its id. `id` and
    `line` are those of a row with the name and the birth day of that one, empty where there is none."""

    name_there: str
    born_there: datetime.date
    name_here: str
    born_here: datetime.date
    id: str = ""
    line: int = 0

    severity = Severity.ANIMALS
    code = "tag of another"
    message = Text(
        "is it another animal that got the tag of one of the book? There it is '{name_there}', born {born_there}, here "
        "'{name_here}', born {born_here}, of other parents{maybe_elsewhere}: if so, undo this, and give this one an id "
        "of its own; as it stands it takes the place of the other"
    )
    page_message = Text(
        "is it another animal that got the tag of one of the book? There it is '{name_there}', born {born_there}, here "
        "'{name_here}', born {born_here}, of other parents{maybe_elsewhere}: if so, give this one an id of its own; as "
        "it stands it takes the place of the other"
    )
    parts = {
        "maybe_elsewhere": OptionalPart(" (line {line} has '{name_there}' as {id})", when="is_elsewhere"),
    }

    def values(self) -> Mapping[str, object]:
        return {"is_elsewhere": bool(self.line)}


@dataclass(frozen=True, slots=True)
class OldTag(PlausibilityWarning):
    """A new row with the id of an animal that has no row any more in a column that isn't read."""

    before: str
    now: str
    title: str
    text: str

    severity = Severity.ANIMALS
    code = "old tag"
    message = Text(
        "'{title}' has '{text}', and {before} has no row any more: did that one get a new tag? It is taken as another "
        "animal"
    )

    def suggestions(self) -> tuple[Suggestion, ...]:
        return NewTag(self.before, self.now).suggestions()
