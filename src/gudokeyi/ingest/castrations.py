"""Columns beside that of the sexes which tell of castrations, as `Kastriert am`: a day there, a year or a yes says that
a male is castrated."""
from __future__ import annotations

import datetime
import re
from collections.abc import Collection, Iterable, Iterator, Mapping
from typing import Container, NamedTuple

from gudokeyi.domain.kinds import Field
from gudokeyi.ingest.animals import SheetAnimal
from gudokeyi.ingest.days import SOME_YEAR, Unreadable, read_span, span_within
from gudokeyi.ingest.exits_beside import says_day
from gudokeyi.ingest.findings.columns import SheetFinding
from gudokeyi.ingest.findings.rows import CastratedInRemarks
from gudokeyi.ingest.findings.sexes import CastratedFemales, CastratedWithoutSex, CastrationsRead
from gudokeyi.ingest.remarks import SHORT_DAY, tells_castration
from gudokeyi.ingest.sexes import Sexes, is_castrated
from gudokeyi.ingest.sheets import Sheet
from gudokeyi.ingest.texts import listed, plain
from gudokeyi.ingest.words import (
    KNOWN_CASTRATED, KNOWN_NEGATIONS, KNOWN_NEUTERED, KNOWN_NO, KNOWN_NOTHING, KNOWN_SEXES, KNOWN_YES, has_word, sex_word,
)  # fmt: skip

# their titles, and those of columns that females have cells in too
OF_MALES = (
    "kastriert, kastriert am, kastriert seit, Kastration, Kastration am, Kastrationsdatum, Kastrationstag, Datum "
    "Kastration, Datum der Kastration, castrated, castrated on, castrated date, date castrated, date of castration, "
    "castration, castration date, gelded, gelded on, gelded date, date gelded, date of gelding, castré, castré le, "
    "castrée le, castré(e), castré(e) le, castré depuis, castration le, date castration, date de castration, date de "
    "la castration"
)
OF_BOTH = (
    "neutered, neutered on, date neutered, neutering date, neutered/spayed, spayed/neutered, sterilisiert, "
    "sterilisiert am, stérilisé, stérilisé le, stérilisé(e) le, date de stérilisation"
)
KNOWN_OF_MALES, KNOWN_OF_BOTH = ({plain(title) for title in listed(titles)} for titles in (OF_MALES, OF_BOTH))
# a castration beside which one of these stands isn't done
NOT_DONE = KNOWN_NEGATIONS | {
    plain(word) for word in listed(
        "geplant, vorgesehen, soll, sollte, muss, wird, planned, due, should, must, to be, prévu, prévue, à faire"
    )
}  # fmt: skip
SIGNS_ALONE = re.compile(r"\W+")
KNOWN_SAID_CASTRATED = KNOWN_CASTRATED | KNOWN_NEUTERED


def castration_columns(sheet: Sheet, columns: Mapping[str, int]) -> list[int]:
    """The columns that aren't read, have such a title, and in most of their different cells a day, a yes or a no."""
    known = KNOWN_OF_MALES | KNOWN_OF_BOTH
    titled = [at for at, title in enumerate(sheet.titles) if plain(title) in known and at not in columns.values()]
    return [at for at in titled if tell_castrations({*sheet.column(at)} - {""})]


def tell_castrations(texts: Collection[str]) -> bool:
    telling = sum(map(says_castrated, texts))
    return 0 < telling and 2 * (telling + sum(map(says_no, texts))) > len(texts)


def says_castrated(text: str) -> bool:
    """Is it a day that has come, a year, a yes or a word for a castrated animal?"""
    if text.casefold() in KNOWN_YES or tells_castration(text):
        return True
    is_day = says_day(text) or any(form.search(text) for form in (SOME_YEAR, SHORT_DAY))
    return is_day and not has_word(text, NOT_DONE) and not is_to_come(text)


def is_to_come(text: str) -> bool:
    try:
        span = span_within(text) or read_span(text)
    except Unreadable:
        return False
    return span.first > datetime.date.today()


def says_no(text: str) -> bool:
    is_word = text.casefold() in KNOWN_NO or plain(text) in KNOWN_NOTHING or has_word(text, KNOWN_NEGATIONS)
    return is_word or SIGNS_ALONE.fullmatch(text) is not None


def castrated_places(sheet: Sheet, columns: Mapping[str, int]) -> set[int]:
    """The places of the rows of which such a column says it."""
    found = [sheet.column(at) for at in castration_columns(sheet, columns)]
    return {place for texts in found for place, text in enumerate(texts) if text and says_castrated(text)}


class CastrationColumn(NamedTuple):
    """Its title, the texts of the cells that tell of a castration, by their lines, and of those that say neither yes
    nor no."""

    title: str
    said: Mapping[int, str]
    others: Mapping[int, str]


class Castrations:
    """What such columns of a sheet say, and what is told of it."""

    def __init__(self, sheet: Sheet, columns: Mapping[str, int], unknown: Container[str]) -> None:
        self.columns = [column_of(sheet, at, unknown) for at in castration_columns(sheet, columns)]
        # the title and the text of each, by lines
        self.lines = {line: (one.title, text) for one in reversed(self.columns) for line, text in one.said.items()}

    def told(self, animals: Collection[SheetAnimal], sexes: Sexes) -> Iterator[SheetFinding]:
        """Of males whose sexes don't say it, of females, and of animals whose sex no cell says."""
        likely = [(one, one.sex or one.likely_sex) for one in animals if one.line in self.lines] if self.lines else []
        cells = {one.line: one.cells.get(Field.SEX, "") for one, _ in likely}
        unsaid = {line for line, text in cells.items() if not (is_castrated(text) or sexes.meaning(text).is_castrated)}
        lines = {sex: [one.line for one, its in likely if its == sex and one.line in unsaid] for sex in ("M", "F", "")}
        for column in self.columns:
            males, females, others = (cells_in(column.said, lines[sex]) for sex in ("M", "F", ""))
            if males:
                line, text = next(iter(column.others.items()), (0, ""))
                yield CastrationsRead(column.title, len(males), len(column.others), line, text)
            if females and plain(column.title) in KNOWN_OF_MALES:
                yield CastratedFemales(column.title, len(females), *females[0])
            if others:
                yield CastratedWithoutSex(column.title, len(others), *others[0])


def column_of(sheet: Sheet, at: int, unknown: Container[str]) -> CastrationColumn:
    cells = {row.line: text for row, text in zip(sheet.rows, sheet.column(at)) if text and text not in unknown}
    are_said = {text: says_castrated(text) for text in {*cells.values()}}
    said = {line: text for line, text in cells.items() if are_said[text]}
    return CastrationColumn(
        sheet.titles[at], said, {line: text for line, text in cells.items() if not (are_said[text] or says_no(text))}
    )


def cells_in(texts: Mapping[int, str], lines: Iterable[int]) -> list[tuple[int, str]]:
    """The cells of some lines."""
    return [(line, texts[line]) for line in lines if line in texts]


def castrated_in_remarks(
    sheet: Sheet, columns: Mapping[str, int], at: int, texts: Collection[str]
) -> list[SheetFinding]:
    """Some cells of a column that isn't read tell that an animal is castrated; it isn't told of females, nor of those
    whose sex says so too, or another column."""
    if not texts:
        return []
    cells, said = sheet.column(at), castrated_places(sheet, columns)
    telling = [place for place, cell in enumerate(cells) if cell in texts and place not in said]
    if Field.SEX in columns:
        sexes = sheet.column(columns[Field.SEX])
        others = {sex for sex in {*sexes} if KNOWN_SEXES.get(sex_word(sex)) == "F" or has_word(sex, KNOWN_SAID_CASTRATED)}
        telling = [place for place in telling if sexes[place] not in others]
    if not telling:
        return []
    return [CastratedInRemarks(sheet.titles[at], len(telling), sheet.rows[telling[0]].line, cells[telling[0]])]
