"""Tables as files in the language of a page: with its titles, with what is inferred in a column of its own, and with
words that a sheet in this language has."""
from __future__ import annotations

import enum
from collections.abc import Iterable, Sequence

from gudokeyi.domain.findings import Entry
from gudokeyi.domain.kinds import CommandKind, ExitReason, Field
from gudokeyi.render.languages import MARKS, Mark
from gudokeyi.render.page_language import PageLanguage, name_of
from gudokeyi.render.page_wording import sentence_of
from gudokeyi.services.folder_files import REPORT_TITLES
from gudokeyi.services.lists import CASTRATED
from gudokeyi.services.tables import Cell, Kind, Table

# what columns of tables are called on a page, but for those of a sheet
TITLES = {
    "number": "Number",
    "coefficient": "Coefficient as a fraction",
    "decimal": "Coefficient as a decimal",
    "percent": "Coefficient in percent",
    "line": "Line",
    "what": "Kind",
    "why": "What it is",
    "change": "Change",
    "member_number": "Member number",
    "address": "Address",
    "mail": "E-mail",
    "telephone": "Telephone",
    "animals": "Animals",
    "living": "Living",
    "day": "Day",
    "from": "Owner before",
    "reason": "Reason",
    "exit_in_sheet": "Exit in the sheet",
}
# columns of words that stand for something
WORDS: dict[str, type[enum.Enum]] = {"what": CommandKind, "reason": ExitReason}
# the columns that may have marks, and the title of the column that has them
MARKED, INFERRED = (Field.SEX, Field.BIRTH, Field.EXIT), "inferred"
ENDS = {f" ({mark.value})": mark for mark in (Mark.INFERRED, Mark.INVENTED)}


def in_language(table: Table, words: PageLanguage, has_marks: bool = True) -> Table:
    """In English the titles stay as programs know them. Of some tables no cell has a mark."""
    columns, cells, marks = list[tuple[str, Kind]](), list[Sequence[Cell]](), list[list[str]]()
    for (title, kind), its in zip(table.columns, table.cells):
        if has_marks and title in (*MARKED,):
            its, marked = apart(its, name_of(Field(title), words) + words.colon, words)
            marks.append(marked)
        if title in WORDS and not words.is_english:
            its = [name_of(WORDS[title](cell), words) if cell else "" for cell in its]
        if title == Field.SEX:
            its = [words.gettext(CASTRATED) if cell == CASTRATED else cell for cell in its]
        columns.append((title_of(title, words), kind))
        cells.append(its)
    if marks:
        columns.append((words.gettext(INFERRED), Kind.TEXT))
        cells.append(["; ".join(filter(None, row)) for row in zip(*marks)])
    return Table(columns, cells, table.order)


def report_of(entries: Iterable[Entry], number: int, words: PageLanguage) -> Table:
    """What a change told, with its sentences in the language; what would be typed in a terminal isn't said."""
    columns = [(title_of(title, words), Kind.TEXT if title in ("id", "why") else Kind.PLAIN) for title in REPORT_TITLES]
    told = ((one, sentence_of(one.finding, words).text) for one in entries)
    rows = [(one.line or "", one.id, name_of(one.what, words), sentence, number) for one, sentence in told]
    return Table.of_rows(columns, rows)


def title_of(title: str, words: PageLanguage) -> str:
    if words.is_english:
        return title
    if title in TITLES:
        return words.gettext(TITLES[title])
    # the society's own columns have their own
    return name_of(Field(title), words) if title in list(Field) else title


def apart(cells: Sequence[Cell], name: str, words: PageLanguage) -> tuple[list[Cell], list[str]]:
    """The cells without their marks, and for each the mark with the column's name, empty for none."""
    found, marks = list[Cell](), list[str]()
    for cell in cells:
        end = next((end for end in ENDS if isinstance(cell, str) and cell.endswith(end)), "")
        found.append(str(cell).removesuffix(end) if end else cell)
        marks.append(f"{name} {words.gettext(MARKS[ENDS[end]])}" if end else "")
    return found, marks
