"""Reads a geneticist's pedigree: `id sire dam` in each line, or with these among its titles; sex and birth too, where
it has them."""
from __future__ import annotations

import operator
from collections.abc import Mapping, Sequence
from dataclasses import dataclass
from typing import Container

from gudokeyi.domain.commands import COLUMNS
from gudokeyi.domain.findings import ImportRefused, Report
from gudokeyi.domain.kinds import Field
from gudokeyi.domain.messages import Mistake
from gudokeyi.domain.requests import MOST_IN_ID
from gudokeyi.ingest.animals import SheetAnimal
from gudokeyi.ingest.days import ANY_DAY, Unreadable, read_span
from gudokeyi.ingest.files import GivenFile, check_bounds
from gudokeyi.ingest.findings.cells import DayLeftOut, SexUnread
from gudokeyi.ingest.findings.files import ParentsInColumn
from gudokeyi.ingest.findings.same_ids import LineAgain
from gudokeyi.ingest.pedigree_files import (
    STANDARD_INPUT, WITHOUT_TITLES, Columns, Line, are_titles, check_cells, columns_read, family_column,
    find_pedigree_columns, read_lines,
)  # fmt: skip
from gudokeyi.ingest.sexes import Sexes
from gudokeyi.ingest.texts import composed

# the sexes of PLINK and of R's kinship2; other numbers stand for an unknown sex there
SEX_CODES = {"1": "M", "2": "F"}
UNKNOWN_CODES = ("0", "3", "4", "9")


@dataclass(frozen=True)
class Triples:
    """The animals by id, in the order of the lines, which columns they have, and what is told of the file."""

    animals: dict[str, SheetAnimal]
    columns: Columns
    told: list[str]


def read_triples(
    file: GivenFile, given: Mapping[Field, str], unknown: Container[str], known: Container[str], report: Report
) -> Triples:
    """The animals of a pedigree. An id that isn't `known` as it is written has composed letters."""
    lines = read_lines(file)
    if not file.data.isascii():
        lines = [Line(number, [cell if cell in known else composed(cell) for cell in cells]) for number, cells in lines]
    if lines and lines[0].cells in (COLUMNS, COLUMNS[:-1]):
        raise Mistake(
            f"{file.path} is a command file, whose animals are numbers and no ids: take what `export --triples` writes "
            "of its book"
        )
    has_titles = bool(lines) and are_titles(lines[0].cells, given)
    check_bounds(file.path, lines, int(has_titles))
    titles = lines.pop(0) if has_titles else None
    if given and not titles and lines:
        raise Mistake(f"{lines[0]} has none of the titles that --columns names: write a first line with titles")
    if not lines:
        what = "standard input" if file.path == STANDARD_INPUT else str(file.path)
        raise Mistake(f"{what} has no animals: write a line `id sire dam` for each")
    if titles is None:
        columns, told = WITHOUT_TITLES, [f"{lines[0]} has none of the known titles, and is taken for an animal"]
    else:
        columns = find_pedigree_columns(titles.number, titles.cells, given)
        told = [columns_read(titles.cells, columns)]
    reader = Reader(columns, unknown, Sexes([], {}), report, family_column(titles.cells) if titles else None)
    last = max(columns.values())
    for line in lines:
        check_cells(line, titles, last)
        if titles and line.cells == titles.cells:
            raise Mistake(f"{line} is that of the titles again: leave it out, it would be an animal")
        reader.read(line)
    check_comments(reader.animals)
    if titles and Field.ID not in given:
        refuse_other_column(titles, lines, columns, reader.animals)
    return Triples(reader.animals, columns, told)


class Reader:
    """Reads the animals line by line. In the column `family`, if there is one, are the families whose ids may be those
    of others too."""

    def __init__(
        self, columns: Columns, unknown: Container[str], sexes: Sexes, report: Report, family: int | None
    ) -> None:
        self.columns, self.unknown, self.sexes, self.report, self.family = columns, unknown, sexes, report, family
        self.cells_of = operator.itemgetter(*(columns[field] for field in (Field.ID, Field.SIRE, Field.DAM)))
        self.animals: dict[str, SheetAnimal] = {}
        self.families: dict[str, str] = {}

    def read(self, line: Line) -> None:
        id, sire, dam = self.cells_of(line.cells)
        if id in self.unknown:
            where = f"line {line.number}: '{id}'"
            raise Mistake(f"{where} is a word for an unknown parent, and stands for an animal: give it another id")
        sire = "" if sire in self.unknown else sire
        dam = "" if dam in self.unknown else dam
        longest = max(len(id), len(sire), len(dam))
        if longest > MOST_IN_ID:
            told = f"an id has {longest:,} letters, and {MOST_IN_ID} are kept at most: shorten it"
            raise Mistake(f"line {line.number}: {told}")
        first, family = self.animals.get(id), self.family_of(line)
        if first and family != self.families[id]:
            raise Mistake(
                f"line {line.number}: the id '{id}' is that of line {first.line} too, which has another family: give "
                f"each animal an id of its own, also where it is a parent, as {family}-{id}"
            )
        if first:
            self.report.add(line.number, id, LineAgain(first.line, (first.sire, first.dam), (sire, dam), ()))
            return
        animal = SheetAnimal(id, line.number, sire=sire, dam=dam, cells={"sire": sire, "dam": dam})
        if Field.SEX in self.columns:
            self.read_sex(animal, line.cells[self.columns[Field.SEX]])
        if Field.BIRTH in self.columns:
            self.read_birth(animal, line.cells[self.columns[Field.BIRTH]])
        self.animals[id], self.families[id] = animal, family

    def family_of(self, line: Line) -> str:
        """The family that a line names, empty for none."""
        return "" if self.family is None else "".join(line.cells[self.family : self.family + 1])

    def read_sex(self, animal: SheetAnimal, text: str) -> None:
        animal.cells["sex"] = text
        animal.sex = SEX_CODES.get(text) or self.sexes.read(text)[0]
        if not animal.sex and text not in UNKNOWN_CODES and text not in self.unknown:
            self.report.add(animal.line, animal.id, SexUnread(text))

    def read_birth(self, animal: SheetAnimal, text: str) -> None:
        animal.cells["birth"] = text
        if text in self.unknown:
            return
        try:
            animal.birth = read_span(text)
        except Unreadable as error:
            animal.birth = ANY_DAY
            self.report.add(animal.line, animal.id, DayLeftOut(Field.BIRTH, error.fault, error.text))


def check_comments(animals: Mapping[str, SheetAnimal]) -> None:
    """No line of a parent was read as a comment, for its id begins with `#`: its parents would be lost."""
    for animal in animals.values():
        lost = [parent for parent in animal.parent_ids() if parent.startswith("#") and parent not in animals]
        if lost:
            raise Mistake(
                f"line {animal.line}: the parent '{lost[0]}' of {animal.id} has no line, since a line that begins with "
                "# is a comment: put its id into quotation marks where its line begins, or write it otherwise"
            )


def refuse_other_column(
    titles: Line, lines: Sequence[Line], columns: Columns, animals: Mapping[str, SheetAnimal]
) -> None:
    """A mistake where a column that isn't read has more of the parents than that of the ids."""
    parents = {parent for animal in animals.values() for parent in animal.parent_ids()}
    found = len(parents & animals.keys())
    others = [at for at, title in enumerate(titles.cells) if title and at not in columns.values()]
    if found == len(parents) or not others:
        return
    counts = {at: len(parents & {cell for line in lines for cell in line.cells[at : at + 1]}) for at in others}
    best = max(others, key=lambda at: counts[at])
    if counts[best] > found:
        ids = titles.cells[columns[Field.ID]]
        raise ImportRefused(ParentsInColumn(titles.cells[best], counts[best], ids, found, len(parents)))
