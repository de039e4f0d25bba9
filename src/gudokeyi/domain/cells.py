"""What stands in cells and on a terminal: never a formula, nor a character that does something; and columns of cells as
the text of a CSV file."""
from __future__ import annotations

import contextlib
import csv
import io
import operator
import re
from collections.abc import Iterable, Sequence
from typing import TypeGuard, TypeVar

# What stands in cells and on a terminal: never a formula, nor a character that does something.

# how spreadsheets know a formula, also in the wide letters of East Asia
FORMULA = frozenset("=+-@\t\r＝＋－＠")
# those of them with which a text may begin that is read
SIGNS = FORMULA - frozenset("=＝\t\r")
# a number that has a sign is no formula: it stays as it is, for programs too
SIGNED = re.compile(r"[-+]\d+(?:[.,]\d+)?", re.ASCII)
FIRST_LETTER = operator.itemgetter(slice(1))
# an apostrophe before a cell says that it is text
TEXT = "'"
# characters of control but tabs and ends of lines, halves of characters, and marks that turn the direction of what
# follows
ACTING = re.compile("[\x00-\x08\x0b-\x1f\x7f-\x9f\ud800-\udfff\u061c\u200e\u200f\u202a-\u202e\u2066-\u2069]")
# what ends a line
ENDS = re.compile("[\n\r\v\f\x1c-\x1e\x85\u2028\u2029]")
# the bytes of ASCII that do nothing
HARMLESS = bytes(range(0x20, 0x7F)) + b"\t\n"


def for_spreadsheets(cell: str) -> str:
    """A cell that no spreadsheet takes for a formula."""
    return TEXT + cell if cell[:1] in FORMULA and not SIGNED.fullmatch(cell) else cell


def from_spreadsheets(cell: str) -> str:
    """A cell without the apostrophe by which no spreadsheet takes it for a formula."""
    return cell[1:] if cell[:1] == TEXT and cell[1:2] in SIGNS else cell


def may_have_texts(text: str) -> bool:
    """May a cell of a file have such an apostrophe?"""
    return TEXT in text and any(TEXT + sign in text for sign in SIGNS)


def column_for_spreadsheets(cells: Sequence[object]) -> Sequence[object]:
    """The same of a column, whose cells may be numbers too. Few columns have a cell that would be one."""
    if are_texts(cells) and FORMULA.isdisjoint({*map(FIRST_LETTER, cells)}):
        return cells
    return [for_spreadsheets(cell) if isinstance(cell, str) else cell for cell in cells]


def are_texts(cells: Sequence[object]) -> TypeGuard[Sequence[str]]:
    return {*map(type, cells)} <= {str}


def for_terminals(text: str) -> str:
    """The text with what would do something to a terminal as a name for it; lines may end, and tabs stay."""
    # what is printable does nothing, and most texts are; that is seen quickest of the bytes that aren't of ASCII
    with contextlib.suppress(UnicodeEncodeError):
        if text.encode().translate(None, HARMLESS).decode().isprintable():
            return text
    return ACTING.sub(lambda found: escape(found[0]), text)


def in_a_line(text: str) -> str:
    """The text with a name for each character that would end its line."""
    return ENDS.sub(lambda found: escape(found[0]), text)


def escape(character: str) -> str:
    number = ord(character)
    return f"\\x{number:02x}" if number < 0x100 else f"\\u{number:04x}"


# Columns as the text of a CSV file, in a fraction of the time that `csv` takes where no cell needs quotes.

Value = TypeVar("Value")

# what a cell is quoted for, beside the sign between cells and a line's end
QUOTED = ('"', "\r")


def csv_text(
    titles: Iterable[str], columns: Iterable[Sequence[object]], delimiter: str = ",", order: Sequence[int] | None = None
) -> str:
    """The titles, and below them the rows of some columns, in an order of their places if one is given. Of a cell of
    nothing nothing is written.

    Cells are quickest gone through in the order in which they were made; so rows are put into another order last."""
    cells = [*map(texts_of, columns)]
    above, rows = quoted_rows([[title] for title in titles], delimiter), joined(cells, delimiter)
    text = plain_text(rows, len(cells) - 1, delimiter, order)
    return above + (quoted_rows(cells, delimiter, order) if text is None else text)


def quoted_rows(columns: Sequence[Sequence[str]], delimiter: str, order: Sequence[int] | None = None) -> str:
    """The rows of columns, with quotes where a cell needs them."""
    text = io.StringIO()
    csv.writer(text, delimiter=delimiter, lineterminator="\n").writerows(ordered(zip(*columns), order))
    return text.getvalue()


def joined(columns: Sequence[Sequence[str]], delimiter: str) -> list[str]:
    """The rows of columns, each with the sign between its cells."""
    return [*map(delimiter.join, zip(*columns))]


def plain_text(rows: list[str], between: int, delimiter: str, order: Sequence[int] | None = None) -> str | None:
    """Rows with so many signs between their cells as one text; none where a cell needs quotes, as that of a row of one
    empty cell does. A cell with such a sign adds it to those between the cells and behind the rows."""
    text = "\n".join([*ordered(rows, order), ""])
    signs = text.count(delimiter), text.count("\n")
    is_plain = between and signs == (between * len(rows), len(rows)) and not any(sign in text for sign in QUOTED)
    return text if is_plain else None


def ordered(rows: Iterable[Value], order: Sequence[int] | None) -> Iterable[Value]:
    return rows if order is None else map(list(rows).__getitem__, order)


def texts_of(cells: Sequence[object]) -> Sequence[str]:
    if are_texts(cells):
        return cells
    return ["" if cell is None else str(cell) for cell in cells]
