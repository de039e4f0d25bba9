"""Texts of a workbook's cells of which a part is struck through: what stands there besides is what they say now. Of
those that are so whole it is told."""
from __future__ import annotations

import io
import re
import xml.parsers.expat
import zipfile
from typing import Any, NamedTuple

# the row and the column of a cell, from 1 on
Place = tuple[int, int]
AT_ONCE = 256 << 10
# elements with the text of cells: one that several cells may have together, and one within a cell
OF_CELLS, IN_CELL = "si", "is"
# a run of letters, its text, and what is told of how it is spoken
RUN, TEXT, SPOKEN = "r", "t", "rPh"
COORDINATE = re.compile(r"([A-Z]+)(\d+)")
# what an element says that a run isn't struck through
NOT_STRUCK = ("0", "false", "off")


class StruckText(NamedTuple):
    """All that stands in a cell, and what isn't struck through, which is nothing where all is."""

    whole: str
    kept: str


class Struck(NamedTuple):
    """What is struck through whole of a worksheet: rows, of which nearly all cells are, by their numbers, and cells of
    other rows with their texts, by the rows and the places of their columns, from 0 on."""

    rows: list[int]
    cells: dict[Place, str]


NOTHING_STRUCK = Struck([], {})


class Runs:
    """Reads the texts of one part: those that cells have together, or those of a worksheet's cells, of which some have
    the text of a number."""

    def __init__(self, together: dict[int, StruckText]) -> None:
        self.together = together
        # the texts of this part by their numbers, and those of its cells
        self.numbered: dict[int, StruckText] = {}
        self.cells: dict[Place, StruckText] = {}
        self.count = 0
        self.row, self.column, self.kind, self.value = 0, 0, "", ""
        # of the text that is read: its runs, each with whether it is struck through
        self.runs: list[tuple[str, bool]] = []
        self.is_text, self.is_struck, self.is_spoken = False, False, False
        # the element whose letters are read
        self.reads = ""

    def read(self, data: bytes, part: str) -> None:
        parser = xml.parsers.expat.ParserCreate(namespace_separator=" ")
        parser.StartElementHandler, parser.EndElementHandler = self.begin, self.end
        parser.CharacterDataHandler, parser.buffer_text = self.read_letters, True
        with zipfile.ZipFile(io.BytesIO(data)) as archive, archive.open(part) as file:
            while text := file.read(AT_ONCE):
                parser.Parse(text, False)

    def begin(self, name: str, attributes: dict[str, str]) -> None:
        kind = name.rpartition(" ")[2]
        if kind == "row":
            self.row, self.column = int(attributes.get("r", self.row + 1)), 0
        elif kind == "c":
            self.begin_cell(attributes)
        elif kind in (OF_CELLS, IN_CELL):
            self.runs, self.is_text, self.is_struck = [], True, False
        elif kind == RUN:
            self.is_struck = False
        elif kind == "strike" and self.is_text:
            self.is_struck = attributes.get("val") not in NOT_STRUCK
        elif kind == SPOKEN:
            self.is_spoken = True
        elif kind == TEXT and self.is_text and not self.is_spoken or kind == "v":
            self.reads = kind

    def begin_cell(self, attributes: dict[str, str]) -> None:
        self.column, self.kind, self.value = self.column + 1, attributes.get("t", ""), ""
        if found := COORDINATE.fullmatch(attributes.get("r", "")):
            self.row, self.column = int(found[2]), number_of(found[1])

    def read_letters(self, text: str) -> None:
        if self.reads == TEXT:
            self.runs.append((text, self.is_struck))
        elif self.reads:
            self.value += text

    def end(self, name: str) -> None:
        kind = name.rpartition(" ")[2]
        if kind in (TEXT, "v"):
            self.reads = ""
        elif kind == SPOKEN:
            self.is_spoken = False
        elif kind in (OF_CELLS, IN_CELL):
            self.end_text(kind)
        elif kind == "c" and self.kind == "s" and self.value.isdigit() and int(self.value) in self.together:
            self.cells[self.row, self.column] = self.together[int(self.value)]

    def end_text(self, kind: str) -> None:
        self.is_text = False
        if any(is_struck for _, is_struck in self.runs):
            kept = "".join(text for text, is_struck in self.runs if not is_struck)
            found = StruckText("".join(text for text, _ in self.runs), kept)
            if kind == OF_CELLS:
                self.numbered[self.count] = found
            else:
                self.cells[self.row, self.column] = found
        self.count += kind == OF_CELLS


def number_of(column: str) -> int:
    """That of a column's letters: A is 1."""
    number = 0
    for letter in column:
        number = 26 * number + ord(letter) - ord("A") + 1
    return number


def struck_texts(data: bytes, worksheet: str) -> dict[Place, StruckText]:
    """Those of the cells of a worksheet."""
    from openpyxl.reader.excel import ExcelReader
    from openpyxl.xml.constants import SHARED_STRINGS

    reader: Any = ExcelReader(io.BytesIO(data), keep_links=False)
    reader.read_manifest()
    reader.read_workbook()
    together, strings = Runs({}), reader.package.find(SHARED_STRINGS)
    if strings is not None:
        together.read(data, strings.PartName[1:])
    found, parts = Runs(together.numbered), {sheet.name: of.target for sheet, of in reader.parser.find_sheets()}
    if worksheet in parts:
        found.read(data, parts[worksheet])
    return dict(sorted(found.cells.items()))
