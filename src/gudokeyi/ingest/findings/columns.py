"""What is found of a sheet's titles and columns: each kind as data, and in words."""
from __future__ import annotations

from collections.abc import Mapping
from dataclasses import dataclass

from gudokeyi.domain.changes import Option
from gudokeyi.domain.findings import Finding, Severity, Suggestion, What, columns, kept_as
from gudokeyi.domain.kinds import Field
from gudokeyi.domain.messages import AnyOf
from gudokeyi.domain.own_columns import OwnKind
from gudokeyi.domain.wording import AllOf, Counted, Joined, OptionalPart, Quoted, Text
from gudokeyi.ingest.titles import title_list

# a sheet that lacks so many of its columns may have its titles elsewhere
MANY = 3


class SheetFinding(Finding):
    """Of a sheet as a whole: it is taken as it stands, and may be wrong, or it keeps the sheet from being taken."""

    what = What.WARNING
    severity = Severity.FACTS


def column(field: str, title: str) -> Option:
    return columns({field: title})


@dataclass(frozen=True, slots=True)
class TitleTwice(SheetFinding):
    """Columns, counted from 1, that have one title."""

    title: str
    columns: tuple[int, ...]
    have_same_cells: bool

    decides_much = True
    code = "title twice"
    message = Text("the title '{title}' stands in the columns {columns}, {maybe_have_same_cells}{maybe_differ}")
    parts = {
        "maybe_have_same_cells": OptionalPart("which have the same cells", when="have_same_cells"),
        "maybe_differ": OptionalPart("with other cells: only the first can be read", when="differ"),
    }

    def values(self) -> Mapping[str, object]:
        return {"columns": AllOf(self.columns), "differ": not self.have_same_cells}


@dataclass(frozen=True, slots=True)
class TitlesJoined(SheetFinding):
    """Columns above whose titles stands one of several columns: their own titles, and both together."""

    lower: tuple[str, ...]
    both: tuple[str, ...]

    code = "titles joined"
    message = Text("the titles stand in two lines: {lower_titles} is read as {titles}")

    def values(self) -> Mapping[str, object]:
        return {"lower_titles": Quoted(self.lower), "titles": Quoted(self.both)}


@dataclass(frozen=True, slots=True)
class TellsNoExits(SheetFinding):
    """A column whose title may be that of exits, and whose cells mostly tell of none."""

    title: str

    decides_much = True
    code = "tells no exits"
    message = Text(
        "the column '{title}' isn't read, since most of its cells tell of no exit: if it has the exits, write the "
        "day there, or sold, died, verkauft, verendet, vendu or mort, where an animal has left, and nothing or "
        "alive where it hasn't"
    )


@dataclass(frozen=True, slots=True)
class LikelierColumn(SheetFinding):
    """A column is read as last time, and the sheet has one besides whose title is likelier."""

    field: Field
    title: str
    other: str

    decides_much = True
    code = "likelier column"
    message = Text("{field} is read from '{title}', as last time, and '{other}' isn't")

    def suggestions(self) -> tuple[Suggestion, ...]:
        return (Suggestion(f"if '{self.other}' is the one", (column(self.field, self.other),)),)


@dataclass(frozen=True, slots=True)
class IdsMoved(SheetFinding):
    """The ids of the book are in a column that had another title."""

    title: str
    before: str

    decides_much = True
    severity = Severity.ANIMALS
    code = "ids moved"
    message = Text("the ids of the book are in the column '{title}': they were in '{before}'")


@dataclass(frozen=True, slots=True)
class IdsFromOther(SheetFinding):
    """The parents' cells are found in another column than that whose title is the likeliest for ids."""

    title: str
    found: int
    usual: str

    decides_much = True
    severity = Severity.ANIMALS
    code = "ids from other"
    message = Text(
        "the ids are read from '{title}', since {found} of the parents' cells are found there, and not from "
        "'{usual}'"
    )

    def suggestions(self) -> tuple[Suggestion, ...]:
        return (Suggestion(f"if '{self.usual}' has the ids", (column(Field.ID, self.usual),)),)


@dataclass(frozen=True, slots=True)
class ParentsFromOther(SheetFinding):
    """The ids of a parent are found in another column than that with the usual title."""

    field: Field
    title: str
    usual: str

    decides_much = True
    severity = Severity.PARENTS
    code = "parents from other"
    message = Text("{field} is read from '{title}', which has more of the ids, and not from '{usual}'")

    def suggestions(self) -> tuple[Suggestion, ...]:
        return (Suggestion(f"if '{self.usual}' is the one", (column(self.field, self.usual),)),)


@dataclass(frozen=True, slots=True)
class NamedColumnLacks(SheetFinding):
    """A title that an option names isn't there; `meant` is the one that is nearest to it, if one is near."""

    line: int
    field: Field
    title: str
    titles: tuple[str, ...]
    meant: str

    code = "named column lacks"
    message = Text(
        "line {line}: there is no column '{title}', which --columns names for {field}. The titles are {all_titles}"
    )
    page_message = Text("there is no column '{title}' for {field}{maybe_meant}")
    parts = {
        "maybe_meant": OptionalPart(": is '{meant}' meant?"),
    }

    def values(self) -> Mapping[str, object]:
        return {"all_titles": title_list(self.titles)}

    def suggestions(self) -> tuple[Suggestion, ...]:
        if not self.meant:
            return ()
        return (Suggestion(f"if '{self.meant}' is meant", (column(self.field, self.meant),)),)


# what a column has, in words
HAS = {Field.ID: "the ids", Field.BIRTH: "the birth days", Field.SIRE: "the sires", Field.DAM: "the dams"}


@dataclass(frozen=True, slots=True)
class LikelyColumn:
    """A column whose cells may be those of a field."""

    field: Field
    title: str

    def words(self) -> str:
        return f"'{self.title}' has {HAS.get(self.field, self.field)}"


def likely_titles(likely: tuple[LikelyColumn, ...]) -> tuple[Suggestion, ...]:
    """The command that names all of these columns."""
    if not likely:
        return ()
    case = " and ".join(one.words() for one in likely)
    return (Suggestion(f"if {case}", (columns({one.field: one.title for one in likely}),)),)


@dataclass(frozen=True, slots=True)
class ColumnsLack(SheetFinding):
    """No column is found for fields that a sheet has to have; `likely` are those whose cells may be theirs."""

    line: int
    fields: tuple[Field, ...]
    titles: tuple[str, ...]
    likely: tuple[LikelyColumn, ...] = ()

    code = "columns lack"
    message = Text(
        "line {line}: no column for {any_field} is found. The titles are {all_titles}{maybe_most_lack}{maybe_few_lack}"
    )
    page_message = Text("no column is found for: {fields}. Choose below which it is")
    parts = {
        "maybe_most_lack": OptionalPart(": does this line have the titles of the columns?", when="most_lack"),
        "maybe_few_lack": OptionalPart(
            ". Say which it is by --columns, with the field, = and its title", when="few_lack"
        ),
    }

    def values(self) -> Mapping[str, object]:
        most_lack = len(self.fields) >= MANY
        return {
            "any_field": AnyOf(self.fields),
            "all_titles": title_list(self.titles),
            "most_lack": most_lack,
            "few_lack": not most_lack,
        }

    def suggestions(self) -> tuple[Suggestion, ...]:
        found = likely_titles(self.likely)
        if Field.ID in self.fields or len(self.fields) >= MANY:
            return found
        which = "there is none" if len(self.fields) == 1 else "there are none"
        return (*found, Suggestion(f"if {which}", (columns(dict.fromkeys(self.fields, "")),)))


@dataclass(frozen=True, slots=True)
class PedigreeTitlesLack(SheetFinding):
    """No title of a geneticist's pedigree is known for these fields; `likely` are the columns left, in their order."""

    line: int
    fields: tuple[Field, ...]
    titles: tuple[str, ...]
    likely: tuple[LikelyColumn, ...]

    code = "pedigree titles lack"
    message = Text(
        "line {line}: no title for the {each_field} is found. The titles are {all_titles}. Say which it is by "
        "--columns, with the field, = and its title"
    )
    page_message = Text("line {line}: no title is known for {fields}; the titles are {titles}")

    def values(self) -> Mapping[str, object]:
        return {"each_field": Joined(self.fields, " and the "), "all_titles": title_list(self.titles)}

    def suggestions(self) -> tuple[Suggestion, ...]:
        return likely_titles(self.likely)


@dataclass(frozen=True, slots=True)
class ColumnLost(SheetFinding):
    """No column is found for a field that the last sheet had; `likely` is the title of one that may have it."""

    field: Field
    title: str
    likely: str

    decides_much = True
    code = "column lost"
    message = Text(
        "no column for {field} is found: last time it was '{title}'; the book keeps what it has"
    )

    def suggestions(self) -> tuple[Suggestion, ...]:
        likely = (
            (Suggestion(f"if '{self.likely}' is the one", (column(self.field, self.likely),)),) if self.likely else ()
        )
        return (*likely, Suggestion("if there is none", (column(self.field, ""),)))


@dataclass(frozen=True, slots=True)
class IdsCountRows(SheetFinding):
    """The column of the ids counts the rows, and another one has a text of its own in each."""

    title: str
    other: str

    decides_much = True
    severity = Severity.ANIMALS
    code = "ids count rows"
    message = Text(
        "the ids are read from '{title}', which only counts the rows: in a list that is sorted differently each number "
        "would be another animal's"
    )

    def suggestions(self) -> tuple[Suggestion, ...]:
        return (Suggestion(f"if '{self.other}' has the ids", (column(Field.ID, self.other),)),)


@dataclass(frozen=True, slots=True)
class ParentsBeside(SheetFinding):
    """Rows that have nothing in the column of a parent, and something in another with a title for that: how many, the
    first of them, and the lines of others."""

    title: str
    beside: str
    count: int
    line: int
    text: str
    others: tuple[int, ...] = ()

    severity = Severity.PARENTS
    code = "parents beside"
    message = Counted(
        "{count} row has nothing in '{title}', and '{text}' in '{beside}', which isn't read, in line {line}: this "
        "parent counts as unknown; enter it in '{title}'",
        "{count} rows have nothing in '{title}', and a parent in '{beside}', which isn't read, the first '{text}' in "
        "line {line}{maybe_others}{maybe_more}: these parents count as unknown; enter them in '{title}'",
        "count",
    )
    parts = {
        "maybe_others": OptionalPart(", the others in {in_others}"),
        "maybe_more": OptionalPart(" and {more} more"),
    }

    def values(self) -> Mapping[str, object]:
        more = self.count - 1 - len(self.others) if self.others else 0
        return {"in_others": Joined(tuple(map(str, self.others))), "more": more or None}


@dataclass(frozen=True, slots=True)
class ColumnUntitled(SheetFinding):
    """A column without a title, which isn't read, has texts: its letters, how many, and the first; and how many of them
    tell that animals left."""

    letters: str
    count: int
    line: int
    text: str
    exits: int

    decides_much = True
    code = "column untitled"
    message = Counted(
        "the column {letters} has no title and isn't read, and it has {count} cell with text: '{text}' in line "
        "{line}{maybe_exits}: if it belongs to the list, give it a title",
        "the column {letters} has no title and isn't read, and it has {count} cells with text, the first is '{text}' "
        "in line {line}{maybe_exits}: if they belong to the list, give it a title",
        "count",
    )
    parts = {
        "maybe_exits": OptionalPart(
            "; {exits} of them tell that animals left, which count as living",
            one="; {exits} of them tells that an animal left, which counts as living", value="exits",
        ),
    }

    def values(self) -> Mapping[str, object]:
        return {"exits": self.exits or None}


@dataclass(frozen=True, slots=True)
class TitleBelow(SheetFinding):
    """A title of a later row of titles that the first one lacks, whose column isn't read: the line of the first one,
    and how many cells the column has, with the first of them."""

    title: str
    titles_line: int
    count: int
    line: int
    text: str

    code = "title below"
    message = Counted(
        "'{title}' stands among these titles, and not among those in line {titles_line}: its column isn't read, with "
        "{count} cell, '{text}' in line {line}",
        "'{title}' stands among these titles, and not among those in line {titles_line}: its column isn't read, with "
        "{count} cells, the first '{text}' in line {line}",
        "count",
    )

    def suggestions(self) -> tuple[Suggestion, ...]:
        return (Suggestion(f"to keep '{self.title}'", (kept_as(self.title, OwnKind.TEXT),)),)


@dataclass(frozen=True, slots=True)
class OtherBreeds(SheetFinding):
    """Rows of a column of breeds that have another one than most: how many, and the first of them."""

    title: str
    count: int
    line: int
    text: str
    usual: str

    severity = Severity.ANIMALS
    code = "other breeds"
    message = Counted(
        "'{title}' says '{text}' in line {line}, where most rows have '{usual}': the animal is taken as one of the "
        "book's breed; if it is of another one, leave its row out",
        "'{title}' says another breed than '{usual}', which most rows have, in {count} rows, the first is line {line} "
        "with '{text}': these animals are taken as those of the book's breed; if they are of another one, leave their "
        "rows out",
        "count",
    )
