"""What is found of rows that are read otherwise than cell by cell: each kind as data, and in words."""
from __future__ import annotations

import re
from collections.abc import Mapping
from dataclasses import dataclass

from gudokeyi.domain.changes import Option
from gudokeyi.domain.findings import Finding, Severity, Suggestion, What, is_animal
from gudokeyi.domain.kinds import Field, Role
from gudokeyi.domain.messages import AnyOf
from gudokeyi.domain.wording import Counted, Joined, OptionalPart, Text
from gudokeyi.ingest.findings.cells import RowLeftOut
from gudokeyi.ingest.findings.columns import SheetFinding, column
from gudokeyi.ingest.texts import listed, plain
from gudokeyi.ingest.words import has_word


# words by which a row tells something of the rows below
OF_OTHERS = {
    plain(word) for word in listed(
        "sire, dam, father, mother, litter, whelped, foaled, lambed, owner, breeder, Vater, Mutter, Wurf, geworfen, "
        "Besitzer, Besitzerin, Züchter, Züchterin, père, mère, portée, propriétaire, éleveur, élevage, naisseur"
    )
}  # fmt: skip

# marks for the cell above that elsewhere stand for what isn't known
SIGNS_ALONE = re.compile("/ ?/")


@dataclass(frozen=True, slots=True)
class NoteRow(RowLeftOut):
    """A row that reads like a heading or a note, and says nothing of an animal."""

    text: str

    code = "note row"
    message = Text(
        "the row is left out: '{text}' reads like a heading or a note, and the row says nothing else{maybe_of_others}"
    )
    parts = {
        "maybe_of_others": OptionalPart(
            "; what it says of the rows below isn't read: enter their days, parents and owners in their own cells",
            when="is_of_others",
        ),
    }

    def values(self) -> Mapping[str, object]:
        return {"is_of_others": has_word(self.text, OF_OTHERS)}

    def suggestions(self) -> tuple[Suggestion, ...]:
        return (Suggestion("if it is an animal", (is_animal(self.text),)),)


@dataclass(frozen=True, slots=True)
class CellsRepeated(SheetFinding):
    """Cells with a mark that stands for the cell above: how many, the first one, and what stands above it."""

    title: str
    count: int
    line: int
    text: str
    above: str

    code = "cells repeated"
    message = Counted(
        "{count} cell of the column '{title}' repeats the one above: {text} in line {line} means '{above}'",
        "{count} cells of the column '{title}' repeat the one above: {text} in line {line} means '{above}'",
        "count",
    )

    def suggestions(self) -> tuple[Suggestion, ...]:
        if SIGNS_ALONE.fullmatch(self.text) is None:
            return ()
        return (Suggestion(f"if {self.text} stands for what isn't known", (Option("--unknown", self.text),)),)


@dataclass(frozen=True, slots=True)
class NothingRepeated(SheetFinding):
    """Cells with such a mark above which nothing stands: how many, and the first one."""

    title: str
    count: int
    line: int
    text: str

    code = "nothing repeated"
    message = Counted(
        "{count} cell of the column '{title}' has a mark for the cell above, and nothing stands there: {text} in line "
        "{line} counts as empty",
        "{count} cells of the column '{title}' have a mark for the cell above, and nothing stands there, the first "
        "{text} in line {line}: they count as empty",
        "count",
    )


@dataclass(frozen=True, slots=True)
class MarksAreNames(SheetFinding):
    """Cells with such a mark that is the name of an animal too, which is meant: how many, and the first one."""

    title: str
    count: int
    line: int
    text: str

    severity = Severity.PARENTS
    code = "marks are names"
    message = Counted(
        "an animal is called '{text}', so {count} cell of the column '{title}', in line {line}, means that one; if it "
        "stands for the cell above, write there what that has",
        "an animal is called '{text}', so {count} cells of the column '{title}', the first in line {line}, mean that "
        "one; if they stand for the cells above, write there what those have",
        "count",
    )


@dataclass(frozen=True, slots=True)
class StatusRead(SheetFinding):
    """A column of words that is read beside that of the exits: in so many rows it alone tells of one."""

    title: str
    of_exits: str
    count: int

    severity = Severity.FACTS
    code = "status read"
    message = Counted(
        "the column '{title}' tells of an exit in {count} row where '{of_exits}' doesn't: its word is taken there",
        "the column '{title}' tells of an exit in {count} rows where '{of_exits}' doesn't: its words are taken there",
        "count",
    )

    def suggestions(self) -> tuple[Suggestion, ...]:
        return (Suggestion(f"if '{self.title}' tells of no exits", (column(Field.STATUS, ""),)),)


@dataclass(frozen=True, slots=True)
class StatusDisagrees(Finding):
    """Of an exit and a status one tells that the animal left, and the other that it lives, or they have other days."""

    exit_title: str
    exit: str
    status_title: str
    status: str
    is_gone: bool = True

    what = What.WARNING
    severity = Severity.FACTS
    code = "status disagrees"
    message = Text(
        "'{exit_title}' says '{exit}', and '{status_title}' says '{status}': the animal counts as gone{maybe_day}"
    )
    parts = {
        "maybe_day": OptionalPart(", on the day of the first", when="has_day"),
    }

    def values(self) -> Mapping[str, object]:
        return {"has_day": self.is_gone}


@dataclass(frozen=True, slots=True)
class StatusUnread(SheetFinding):
    """A column that isn't read, and most of whose cells tell that an animal lives or left."""

    title: str
    count: int
    texts: tuple[str, ...]
    as_field: Field = Field.STATUS

    decides_much = True
    severity = Severity.ANIMALS
    code = "status unread"
    message = Counted(
        "the column '{title}' isn't read, and {count} cell of it tells that an animal lives or left: {said}",
        "the column '{title}' isn't read, and {count} cells of it tell that animals live or left: {said}",
        "count",
    )

    def values(self) -> Mapping[str, object]:
        return {"said": self.texts}

    def suggestions(self) -> tuple[Suggestion, ...]:
        return (Suggestion("if it tells of exits", (column(self.as_field, self.title),)),)


@dataclass(frozen=True, slots=True)
class FieldUnread(SheetFinding):
    """A column that isn't read, and looks like what no column is read for."""

    as_field: Field
    title: str
    count: int
    texts: tuple[str, ...]

    decides_much = True
    severity = Severity.ANIMALS
    code = "field unread"
    message = Counted(
        "nothing is read as {as_field}, though the column '{title}' looks like that, with {count} cell: {said}",
        "nothing is read as {as_field}, though the column '{title}' looks like that, with {count} cells: {said}",
        "count",
    )

    def values(self) -> Mapping[str, object]:
        return {"said": self.texts}

    def suggestions(self) -> tuple[Suggestion, ...]:
        return (Suggestion("if it is the one", (column(self.as_field, self.title),)),)


@dataclass(frozen=True, slots=True)
class ExitsInRemarks(SheetFinding):
    """Some cells of a column that isn't read for exits tell that animals left, whose exits no other column has: the
    first of them, and the lines of others."""

    title: str
    count: int
    line: int
    text: str
    others: tuple[int, ...] = ()

    severity = Severity.FACTS
    code = "exits in remarks"
    message = Counted(
        "the column '{title}' isn't read for exits, and {count} cell of it tells that an animal left which has no exit: "
        "'{text}' in line {line}; the animal counts as living: if it left, enter that in the column for exits",
        "the column '{title}' isn't read for exits, and {count} cells of it tell that animals left which have no exit, the "
        "first is '{text}' in line {line}{maybe_others}{maybe_more}; these animals count as living: if one left, enter "
        "that in the column for exits",
        "count",
    )
    parts = {
        "maybe_others": OptionalPart(", the others in {in_others}"),
        "maybe_more": OptionalPart(" and {more} more"),
    }

    def values(self) -> Mapping[str, object]:
        more = self.count - 1 - len(self.others) if self.others else 0
        return {"in_others": Joined(tuple(map(str, self.others))), "more": more or None}


@dataclass(frozen=True, slots=True)
class ExitInRemark(Finding):
    """One of several such cells, at its animal: it stands in the report alone."""

    title: str
    text: str

    what = What.WARNING
    severity = Severity.FACTS
    code = "exit in remark"
    message = Text(
        "'{title}' says '{text}', and isn't read for exits: the animal counts as living; if it left, enter that in the "
        "column for exits"
    )


@dataclass(frozen=True, slots=True)
class ExitColumnUnread(ExitsInRemarks):
    """A column whose title names exits isn't read, and has cells of animals that have no exit."""

    code = "exit column unread"
    message = Counted(
        "the column '{title}' isn't read for exits, since none of its cells has a day, and {count} cell of it says "
        "something of an animal that has no exit: '{text}' in line {line}; the animal counts as living: if it left, "
        "write the day there",
        "the column '{title}' isn't read for exits, since none of its cells has a day, and {count} cells of it say "
        "something of animals that have no exit, the first is '{text}' in line {line}{maybe_others}{maybe_more}; these "
        "animals count as living: if one left, write the day there",
        "count",
    )


@dataclass(frozen=True, slots=True)
class LivingUnmarked(ExitsInRemarks):
    """A column such as `lebend` has a text that says yes of some animals, and nothing of others without an exit."""

    decides_much = True
    severity = Severity.ANIMALS
    code = "living unmarked"
    message = Counted(
        "the column '{title}' says '{text}' of some animals, and nothing of {count} that has no exit, in line {line}: it "
        "counts as living too; if it has left, write no, nein or non there, or the day of its exit",
        "the column '{title}' says '{text}' of some animals, and nothing of {count} that have no exit, the first in line "
        "{line}{maybe_others}{maybe_more}: they count as living too; if one has left, write no, nein or non there, or the day of its exit",
        "count",
    )


@dataclass(frozen=True, slots=True)
class StatusOfCodes(SheetFinding):
    """A column such as `Status` isn't read, and has letters or numbers of which nothing says what they mean; `more`
    aren't here."""

    title: str
    count: int
    texts: tuple[str, ...]
    more: int

    decides_much = True
    severity = Severity.ANIMALS
    code = "status of codes"
    message = Counted(
        "the column '{title}' isn't read, since nothing says which animals left by its {count} cell: {said}{maybe_more}; "
        "if it does, write words in place of these, as alive, dead and sold, or lebt, tot and verkauft",
        "the column '{title}' isn't read, since nothing says which animals left by its {count} cells: {said}{maybe_more}; "
        "if they do, write words in place of these, as alive, dead and sold, or lebt, tot and verkauft",
        "count",
    )
    parts = {"maybe_more": OptionalPart(" and {more} more")}

    def values(self) -> Mapping[str, object]:
        return {"said": self.texts}

    def suggestions(self) -> tuple[Suggestion, ...]:
        return (Suggestion("if it tells of no exits", (column(Field.STATUS, ""),)),)


@dataclass(frozen=True, slots=True)
class CastratedInRemarks(SheetFinding):
    """Some cells of a column that isn't read tell that males are castrated, whose sexes don't say so."""

    title: str
    count: int
    line: int
    text: str

    severity = Severity.FACTS
    code = "castrated in remarks"
    message = Counted(
        "the column '{title}' isn't read for sexes, and {count} cell of it tells that an animal is castrated whose "
        "sex doesn't: '{text}' in line {line}; it counts as not castrated: if it is, enter that in the column for "
        "sexes, as male castrated",
        "the column '{title}' isn't read for sexes, and {count} cells of it tell that animals are castrated whose "
        "sexes don't, the first is '{text}' in line {line}; they count as not castrated: if one is, enter that in the "
        "column for sexes, as male castrated",
        "count",
    )


@dataclass(frozen=True, slots=True)
class ParentNamedOtherwise(Finding):
    """A parent whose id is taken, beside which another column has the name of one or several others."""

    role: Role
    parent: str
    name: str
    title: str
    text: str
    others: tuple[str, ...]

    what = What.WARNING
    severity = Severity.PARENTS
    code = "parent named otherwise"
    message = Text(
        "its {role} {parent} is '{name}', and '{title}' has '{text}', which is {which}: {parent} is taken; if another "
        "is meant, write the id of that one"
    )

    def values(self) -> Mapping[str, object]:
        return {"which": AnyOf(self.others)}
