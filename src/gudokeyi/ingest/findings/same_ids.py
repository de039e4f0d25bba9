"""What is found of rows and lines that have an id that another has: each kind as data, and in words."""
from __future__ import annotations

import datetime
from collections.abc import Mapping
from dataclasses import dataclass

from gudokeyi.domain.findings import ANYWAY, LeftOut, Part, Severity, Suggestion
from gudokeyi.domain.wording import AllOf, Joined, OptionalPart, Text, Told, Word
from gudokeyi.ingest.findings.cells import RowLeftOut


# so many lines of rows are told
MOST_LINES = 9


@dataclass(frozen=True, slots=True)
class CellDiffers(Told):
    """A cell of a row, and that of another row with the same id; empty for none."""

    field: str
    here: str
    there: str

    message = Text("{field} '{here}', there '{there}'")
    parts = {
        "maybe_here": OptionalPart("'{here}'"),
        "maybe_none_here": OptionalPart("–", when="none_here"),
        "maybe_there": OptionalPart("'{there}'"),
        "maybe_none_there": OptionalPart("–", when="none_there"),
    }

    def values(self) -> Mapping[str, object]:
        return {"none_here": not self.here, "none_there": not self.there}


@dataclass(frozen=True, slots=True)
class IdAgain(RowLeftOut):
    """An earlier row has the id: its line, the parents there and here, and what else differs: the field, the cell here
    and the one there. One that was born otherwise may be another animal."""

    line: int
    parents_there: tuple[str, str]
    parents_here: tuple[str, str]
    differing: tuple[tuple[str, str, str], ...]
    is_born_otherwise: bool | None = None

    code = "id again"
    message = Text(
        "the row is left out: line {line} has this id too{maybe_parents_there}{maybe_differing}{maybe_born_otherwise}"
    )
    parts = {
        "maybe_parents_there": OptionalPart(
            ", with other parents, which are taken ({parents_there}; here they are {parents_here})",
        ),
        "maybe_differing": OptionalPart(" ({differing})"),
        "maybe_born_otherwise": OptionalPart(
            "; line {line} is taken: if this is another animal, give it an id of its own, also where its offspring "
            "name it",
            when="is_born_otherwise",
        ),
    }

    def values(self) -> Mapping[str, object]:
        both = (self.parents_there, self.parents_here)
        there, here = (AllOf(tuple(parent or Word.UNKNOWN for parent in pair)) for pair in both)
        are_others = self.parents_there != self.parents_here
        cells = tuple(CellDiffers(*one) for one in self.differing)
        return {
            "parents_there": there if are_others else None,
            "parents_here": here if are_others else None,
            "differing": Joined(cells, "; "),
        }


@dataclass(frozen=True, slots=True)
class LineAgain(IdAgain):
    """An earlier line of a pedigree has the id."""

    part = Part.LINE
    code = "line again"
    message = Text("the line is left out: line {line} has this id too{maybe_parents_there}{maybe_differing}")
    parts = {
        "maybe_parents_there": OptionalPart(
            ", with other parents, which are taken ({parents_there}; here they are {parents_here})",
        ),
        "maybe_differing": OptionalPart(" ({differing})"),
    }


@dataclass(frozen=True, slots=True)
class IdUsedAgain(LeftOut):
    """The id is that of another animal, of the book or of another line of the sheet, that was born years before.
    `named_in` are the lines of animals that are born later, and have this id as a parent: they are taken for offspring
    of the first."""

    born_there: datetime.date
    name_there: str
    born_here: datetime.date
    name_here: str
    named_in: tuple[int, ...]
    # the line of the other one, 0 where the book has it
    line: int = 0
    # whether that is taken since it was born first, or since it is the one of the book
    is_first_born: bool | None = None

    part = Part.ROW
    severity = Severity.ANIMALS

    code = "id used again"
    message = Text(
        "the row is left out: {maybe_line}{maybe_of_book} has this id for another animal ({maybe_name_there}born "
        "{born_there}; here {maybe_name_here}born {born_here}){maybe_first_born}{maybe_known}{maybe_named_in}: if the "
        "tag was used again, give this one an id of its own, also where its offspring name it"
    )
    parts = {
        "maybe_line": OptionalPart("line {line}"),
        "maybe_of_book": OptionalPart("the book", when="is_of_book"),
        "maybe_name_there": OptionalPart("'{name_there}', "),
        "maybe_name_here": OptionalPart("'{name_here}', "),
        "maybe_first_born": OptionalPart(", which is taken since it was born first", when="is_first_born"),
        "maybe_known": OptionalPart(", which is taken since the book has it", when="is_known"),
        "maybe_named_in": OptionalPart("; as a parent in line {named_in} it means the first"),
    }

    def values(self) -> Mapping[str, object]:
        is_known = self.is_first_born is False
        return {
            "is_of_book": not self.line, "is_known": is_known, "named_in": Joined(tuple(map(str, self.named_in)))
        }  # fmt: skip

    def suggestions(self) -> tuple[Suggestion, ...]:
        return () if self.line else (Suggestion("if it is the same animal", (ANYWAY,)),)


@dataclass(frozen=True, slots=True)
class IdUsedOften(LeftOut):
    """One id stands in the rows of several other animals than that which is taken: how many, and the first lines."""

    word: str
    count: int
    line: int
    lines: tuple[int, ...]

    part = Part.ROW
    severity = Severity.ANIMALS
    decides_much = True
    code = "id used often"
    message = Text(
        "{count} rows are left out (lines {said}{maybe_more}): they have the id {word}, which line {line} has for another "
        "animal: did a spreadsheet cut the numbers? Give the column the format text, and write each id anew"
    )
    parts = {"maybe_more": OptionalPart(" and {more} more")}

    def values(self) -> Mapping[str, object]:
        return {"said": Joined(tuple(map(str, self.lines))), "more": self.count - len(self.lines)}

    def times(self) -> int:
        return self.count
