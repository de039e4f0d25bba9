"""What is found of the worksheets of a workbook, of which one is read: each kind as data, and in words."""
from __future__ import annotations

from collections.abc import Mapping
from dataclasses import dataclass

from gudokeyi.domain.changes import Option
from gudokeyi.domain.findings import APPEND, Severity, Suggestion
from gudokeyi.domain.wording import Counted, OptionalPart, Quoted, Text
from gudokeyi.ingest.findings.columns import SheetFinding


@dataclass(frozen=True, slots=True)
class WorksheetUnclear(SheetFinding):
    """Several worksheets have titles that fit, or none has."""

    path: str
    worksheets: tuple[str, ...]
    fit: bool

    code = "worksheet unclear"
    message = Text("{path}: {maybe_count}{maybe_none_fits} ({names}): say which one is taken by --worksheet{maybe_others}")
    page_message = Text("which worksheet is meant: {worksheets}?{maybe_each}")
    parts = {
        "maybe_count": OptionalPart("{count} worksheets have titles that fit", when="fit"),
        "maybe_none_fits": OptionalPart("no worksheet has such titles", when="none_fits"),
        "maybe_others": OptionalPart("; if others have animals too, take each of them then with --append", when="fit"),
        "maybe_each": OptionalPart(
            " One is read at a time: if others have animals too, take the file again for each of them, with new rows only.",
            when="fit",
        ),
    }

    def values(self) -> Mapping[str, object]:
        return {"count": len(self.worksheets), "none_fits": not self.fit, "names": Quoted(self.worksheets)}

    def suggestions(self) -> tuple[Suggestion, ...]:
        return tuple(Suggestion(f"for '{title}'", (Option("--worksheet", title),)) for title in self.worksheets)


@dataclass(frozen=True, slots=True)
class WorksheetUnread(SheetFinding):
    """Another worksheet has animals that neither the one which is read nor the book has: how many, and the first."""

    worksheet: str
    animals: int
    first: str

    severity = Severity.ANIMALS
    code = "worksheet unread"
    message = Counted(
        "the worksheet '{worksheet}' isn't read, and has {animals} animal that is neither on this one nor in the book, "
        "{first}: one worksheet is read at a time; to take it too, import the file again for that one",
        "the worksheet '{worksheet}' isn't read, and has {animals} animals that are neither on this one nor in the book, "
        "the first is {first}: one worksheet is read at a time; to take them too, import the file again for that one",
        "animals",
    )
    page_message = Counted(
        "the worksheet '{worksheet}' isn't read, and has {animals} animal that is neither on this one nor in the book, "
        "{first}: one worksheet is read at a time; take this one, and then drop the file again and choose that one",
        "the worksheet '{worksheet}' isn't read, and has {animals} animals that are neither on this one nor in the book, "
        "the first is {first}: one worksheet is read at a time; take this one, and then drop the file again and choose "
        "that one",
        "animals",
    )

    def suggestions(self) -> tuple[Suggestion, ...]:
        return (Suggestion("to read that one, as new rows", (Option("--worksheet", self.worksheet), APPEND)),)


@dataclass(frozen=True, slots=True)
class WorksheetLacks(SheetFinding):
    """The worksheet that is named isn't there."""

    path: str
    named: str
    worksheets: tuple[str, ...]

    code = "worksheet lacks"
    message = Text("{path} has no worksheet '{named}', which --worksheet names: it has {names}")
    page_message = Text("there is no worksheet '{named}'; there are: {worksheets}")

    def values(self) -> Mapping[str, object]:
        return {"names": Quoted(self.worksheets)}

    def suggestions(self) -> tuple[Suggestion, ...]:
        return WorksheetUnclear(self.path, self.worksheets, False).suggestions()
