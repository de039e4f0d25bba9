"""Rows of which a list of the book says in a column of its own that their sex is inferred: nobody gave it."""
from __future__ import annotations

from collections.abc import Callable, Mapping

from gudokeyi.domain.kinds import Field
from gudokeyi.ingest.sheets import Sheet, cell_of
from gudokeyi.ingest.texts import plain
from gudokeyi.ingest.titles import KNOWN_TITLES

# the title of the column that has an inferred sex again, and those of one that names what of a row is inferred, in the
# languages of pages
OF_SEXES, OF_ALL = "inferred_sex", ("inferred", "erschlossen", "déduit")
KNOWN_MARKS = {*map(plain, (OF_SEXES, *OF_ALL))}


def columns_of_inferred_values(sheet: Sheet, columns: Mapping[str, int]) -> list[int]:
    """Such columns beside one of sexes."""
    titles = enumerate(sheet.titles) if Field.SEX in columns else ()
    return [at for at, title in titles if plain(title) in KNOWN_MARKS and at not in columns.values()]


def lines_of_inferred_sexes(sheet: Sheet, columns: Mapping[str, int], sex_of: Callable[[str], str]) -> set[int]:
    """The lines of such rows. A sex that was written anew since isn't the inferred one."""
    marks = columns_of_inferred_values(sheet, columns)
    if not marks:
        return set()
    at = columns[Field.SEX]
    said = [(row.line, sex_of(cell_of(row, at)), cell_of(row, place)) for place in marks for row in sheet.rows]
    return {line for line, sex, mark in said if mark and (mark == sex or names_sex(mark))}


def names_sex(mark: str) -> bool:
    """Does it name the column of sexes, as `Geschlecht: erschlossen; Geburtstag: erschlossen`?"""
    return any(plain(part.partition(":")[0]) in KNOWN_TITLES[Field.SEX] for part in mark.split(";") if ":" in part)
