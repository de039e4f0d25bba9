"""What is found of a sheet's file and its letters: each kind as data, and in words."""
from __future__ import annotations

from collections.abc import Mapping
from dataclasses import dataclass

from gudokeyi.domain.changes import Option
from gudokeyi.domain.findings import Obstacle, Severity, Suggestion
from gudokeyi.domain.kinds import Field
from gudokeyi.domain.messages import Some
from gudokeyi.domain.wording import Counted, Joined, OptionalPart, Text, Told
from gudokeyi.ingest.findings.columns import SheetFinding
from gudokeyi.ingest.findings.sheets import MOST_SHOWN


def lines_told(lines: tuple[int, ...], count: int) -> Mapping[str, object]:
    """The first lines of so many rows, and how many more there are."""
    return {"lines": Joined(tuple(map(str, lines))), "more": count - len(lines) or None}


@dataclass(frozen=True, slots=True)
class StrayBytes(SheetFinding):
    """A file in UTF-8 but for some bytes: where the first of them stands, behind which letters, and how many more
    there are."""

    path: str
    line: int
    place: int
    behind: str
    byte: int
    more: int

    code = "stray bytes"
    message = Counted(
        (
            "{path}: line {line}, byte {place} of the line, after '{behind}': the byte {byte:02X} isn't UTF-8, as the "
            "rest of the file is{maybe_more}: type this letter again, and save the sheet as CSV in UTF-8"
        ),
        (
            "{path}: line {line}, byte {place} of the line, after '{behind}': the byte {byte:02X} isn't UTF-8, as the "
            "rest of the file is{maybe_more}: type this letter again, and save the sheet as CSV in UTF-8"
        ),
        "more",
    )
    parts = {
        "maybe_more": OptionalPart(", nor are {more} more bytes", one=", nor are {more} more byte", value="more"),
    }


@dataclass(frozen=True, slots=True)
class MarksAlone(SheetFinding):
    """Quotation marks alone in cells of a text file, two of which would read as one text."""

    count: int
    line: int

    severity = Severity.PARENTS
    code = "marks alone"
    message = Counted(
        "{count} row, line {line}, has quotation marks alone in cells: they are read as marks for the cell above, and "
        "not as the beginning and the end of one text",
        "{count} rows, the first in line {line}, have quotation marks alone in cells: they are read as marks for the "
        "cell above, and not as the beginning and the end of one text",
        "count",
    )


@dataclass(frozen=True, slots=True)
class RowsBetweenMarks(SheetFinding):
    """Whole rows of a text file between two quotation marks, which would read as one row."""

    count: int
    line: int

    severity = Severity.PARENTS
    code = "rows between marks"
    message = Counted(
        "{count} row stands between two quotation marks, the first of which is in line {line}: it is read without "
        "these",
        "{count} rows stand between two quotation marks, the first of which is in line {line}: each is read as a row "
        "of its own, without these marks; take them out of the file",
        "count",
    )


@dataclass(frozen=True, slots=True)
class TextInLine(Told):
    """A text with its first line, and what it was before its letters were decoded twice, if they were."""

    text: str
    line: int
    mended: str = ""

    message = Text("'{text}'{maybe_mended}{maybe_line}")
    parts = {
        "maybe_mended": OptionalPart(" for '{mended}'"),
        "maybe_line": OptionalPart(" (line {line})"),
    }


@dataclass(frozen=True, slots=True)
class DecodedTwice(SheetFinding):
    texts: tuple[TextInLine, ...]

    severity = Severity.ANIMALS
    code = "decoded twice"
    message = Counted(
        "letters were decoded twice in {count} text: {first}: save the sheet again from the spreadsheet in which "
        "the letters are right, as CSV in UTF-8",
        "letters were decoded twice in {count} texts: {first}: save the sheet again from the spreadsheet in which "
        "the letters are right, as CSV in UTF-8",
        "count",
    )

    def values(self) -> Mapping[str, object]:
        return {"count": len(self.texts), "first": Some(self.texts, MOST_SHOWN)}


@dataclass(frozen=True, slots=True)
class LettersOfMac(SheetFinding):
    """A file whose letters make words in the encoding of a Mac alone: the first such word, its line, and how Windows
    would read it."""

    word: str
    line: int
    as_windows: str

    code = "letters of mac"
    message = Text(
        "the letters are read as an older Mac writes them (Mac Roman), as '{word}' in line {line}, which would "
        "otherwise be '{as_windows}': if they are wrong, save the sheet as CSV in UTF-8"
    )


@dataclass(frozen=True, slots=True)
class LettersDoubtful(SheetFinding):
    """A file with a word that is none in the encoding of Windows, and is one in another: the first one and its line."""

    word: str
    line: int

    severity = Severity.ANIMALS
    code = "letters doubtful"
    message = Text(
        "letters may be decoded wrongly, the first in '{word}' in line {line}: if they are, save the sheet again from "
        "the spreadsheet in which the letters are right, as CSV in UTF-8"
    )


@dataclass(frozen=True, slots=True)
class LettersLost(SheetFinding):
    texts: tuple[TextInLine, ...]

    severity = Severity.ANIMALS
    code = "letters lost"
    message = Counted(
        "letters are lost in {count} text: {first}: type them again",
        "letters are lost in {count} texts: {first}: type them again",
        "count",
    )

    def values(self) -> Mapping[str, object]:
        return {"count": len(self.texts), "first": Some(self.texts, MOST_SHOWN)}


@dataclass(frozen=True, slots=True)
class FormulasWithoutValue(SheetFinding):
    """Formulas of a worksheet that have no value, the first in a cell such as `B7`."""

    worksheet: str
    count: int
    cell: str

    code = "formulas without value"
    message = Counted(
        "the worksheet '{worksheet}' has {count} formula without a value, the first in the cell {cell}: open the "
        "file in the spreadsheet, save it there, and take that",
        "the worksheet '{worksheet}' has {count} formulas without a value, the first in the cell {cell}: open the "
        "file in the spreadsheet, save it there, and take that",
        "count",
    )


@dataclass(frozen=True, slots=True)
class DigitsLost(SheetFinding):
    """Numbers of a worksheet that are longer than a spreadsheet keeps them."""

    worksheet: str
    count: int
    cell: str

    code = "digits lost"
    message = Counted(
        "the worksheet '{worksheet}' has {count} number of more than 15 digits, of which a spreadsheet loses the "
        "last, the first in the cell {cell}: give the column the format text, and type these again",
        "the worksheet '{worksheet}' has {count} numbers of more than 15 digits, of which a spreadsheet loses the "
        "last, the first in the cell {cell}: give the column the format text, and type these again",
        "count",
    )


@dataclass(frozen=True, slots=True)
class Apostrophes(SheetFinding):
    """Cells with an apostrophe before their text: how many, and the line of the first."""

    count: int
    line: int

    code = "apostrophes"
    message = Counted(
        "{count} cell begins with an apostrophe, by which a spreadsheet knows a text, in line {line}: it is read "
        "without it",
        "{count} cells begin with an apostrophe, by which a spreadsheet knows a text, the first in line {line}: they "
        "are read without it",
        "count",
    )


@dataclass(frozen=True, slots=True)
class NotesAtCells(SheetFinding):
    """Cells of a worksheet that have a note of their own: how many, and the first of them with its text."""

    count: int
    cell: str
    text: str

    code = "notes at cells"
    message = Counted(
        "{count} cell has a note, which isn't read: '{text}' at {cell}; write in cells what the book is to have",
        "{count} cells have a note, which isn't read, the first '{text}' at {cell}; write in cells what the book is "
        "to have",
        "count",
    )


@dataclass(frozen=True, slots=True)
class StruckThrough(SheetFinding):
    """Animals' rows of a worksheet that are struck through: how many, and the first of them; an earlier version stored
    no more than the very first."""

    count: int
    line: int
    lines: tuple[int, ...] = ()

    severity = Severity.ANIMALS
    code = "struck through"
    message = Counted(
        "text is struck through in {count} row, line {line}, which is taken like all others: if its animal has left, "
        "write an exit",
        "text is struck through in {count} rows, in the lines {lines}{maybe_more}, which are taken like all others: if "
        "their animals have left, write exits",
        "count",
    )
    parts = {"maybe_more": OptionalPart(" and {more} more")}

    def values(self) -> Mapping[str, object]:
        return lines_told(self.lines or (self.line,), self.count)


@dataclass(frozen=True, slots=True)
class StruckCell(Told):
    """A cell all of whose text is struck through."""

    title: str
    line: int
    text: str

    message = Text("'{text}' in line {line} of the column '{title}'")


@dataclass(frozen=True, slots=True)
class StruckCells(SheetFinding):
    """Such cells of rows whose other cells aren't so: how many, and the first of them."""

    count: int
    cells: tuple[StruckCell, ...]

    severity = Severity.ANIMALS
    code = "struck cells"
    message = Counted(
        "the text of {count} cell is struck through, {cells}, and is read like all others: if it is no longer right, "
        "write what is, or nothing; if the animal has left, write an exit",
        "the texts of {count} cells are struck through, {cells}{maybe_more}, and are read like all others: if one is "
        "no longer right, write what is, or nothing; if an animal has left, write an exit",
        "count",
    )
    parts = {"maybe_more": OptionalPart(" and {more} more")}

    def values(self) -> Mapping[str, object]:
        return {"more": self.count - len(self.cells) or None}


@dataclass(frozen=True, slots=True)
class StruckWithin(SheetFinding):
    """Cells of a worksheet of whose text a part is struck through: how many, and the first of them with all that stands
    there, and with what is read."""

    count: int
    cell: str
    whole: str
    text: str

    severity = Severity.ANIMALS
    code = "struck within"
    message = Counted(
        "a part of the text is struck through in {count} cell, {cell}: '{whole}' is read as '{text}'",
        "a part of the text is struck through in {count} cells: '{whole}' at {cell} is read as '{text}', and the "
        "others alike",
        "count",
    )


@dataclass(frozen=True, slots=True)
class GreyRows(SheetFinding):
    """Rows of a worksheet that are filled grey, where the others aren't: how many, and the first of them."""

    count: int
    line: int

    severity = Severity.FACTS
    code = "grey rows"
    message = Counted(
        "{count} row has a grey fill, line {line}: nothing is read from it; if that marks an animal that has left, "
        "write an exit",
        "{count} rows have a grey fill, the first is line {line}: nothing is read from it; if that marks animals that "
        "have left, write exits",
        "count",
    )


@dataclass(frozen=True, slots=True)
class ColoredRows(SheetFinding):
    """The same of rows with a fill of another colour, which few have."""

    count: int
    line: int

    code = "colored rows"
    message = Counted(
        "{count} row has a fill of another colour than the others, line {line}: nothing is read from it; if it means "
        "something, as that an animal has left, enter that in a column",
        "{count} rows have a fill of another colour than the others, the first is line {line}: nothing is read from "
        "it; if it means something, as that animals have left, enter that in a column",
        "count",
    )


@dataclass(frozen=True, slots=True)
class HiddenRows(SheetFinding):
    """Rows that a worksheet hides: how many, and the first of them."""

    count: int
    line: int

    severity = Severity.FACTS
    code = "hidden rows"
    message = Counted(
        "{count} row is hidden, line {line}: it is taken like all others; if its animal has left, write an exit",
        "{count} rows are hidden, the first is line {line}: they are taken like all others; if their animals have "
        "left, write exits",
        "count",
    )


@dataclass(frozen=True, slots=True)
class ParentsInColumn(Obstacle):
    """Another column has more of the parents than that which is read for the ids."""

    title: str
    found: int
    ids: str
    found_in_ids: int
    parents: int

    code = "parents in column"
    message = Counted(
        "of {parents} parent {found} stand in the column '{title}', and {found_in_ids} in '{ids}', which is read "
        "for the ids: to take founders in their place changes coefficients",
        "of {parents} parents {found} stand in the column '{title}', and {found_in_ids} in '{ids}', which is read "
        "for the ids: to take founders in their place changes coefficients",
        "parents",
    )

    def suggestions(self) -> tuple[Suggestion, ...]:
        titles = (self.title, self.ids)
        return tuple(
            Suggestion(f"if '{one}' has the ids", (Option("--columns", f"{Field.ID.value}={one}"),)) for one in titles
        )
