"""Columns beside that of the births which tell of these too: years alone, and days in three columns, as `Day`, `Month`
and `Year`."""
from __future__ import annotations

import re
from collections.abc import Mapping, Sequence
from typing import Container, NamedTuple

from gudokeyi.domain.findings import Report
from gudokeyi.domain.kinds import Field
from gudokeyi.ingest.days import MONTHS, ROMAN, SOME_YEAR, compared
from gudokeyi.ingest.findings.days import BirthsJoined, BirthYearsDisagree, BirthYearsRead
from gudokeyi.ingest.sheets import Sheet, SheetRow, cell_of
from gudokeyi.ingest.texts import listed, plain

# titles of columns that have the years of births, and those that have a part of days
OF_YEARS = (
    "birth year, year of birth, year born, yob, Geburtsjahr, Geb.-Jahr, Jahrgang, année de naissance, année naissance, "
    "né en, née en"
)
PARTS = {
    "day": "day, birth day, day of birth, Tag, Geburtstag, jour, jour de naissance",
    "month": "month, birth month, month of birth, Monat, Geburtsmonat, mois, mois de naissance",
    "year": "year, Jahr, année, " + OF_YEARS,
}
KNOWN_YEARS = {plain(title) for title in listed(OF_YEARS)}
KNOWN_PARTS = {part: {plain(title) for title in listed(titles)} for part, titles in PARTS.items()}
# `Tag` is a day beside months and years in German alone: in other lists ids are called so
TAG = plain("Tag")
GERMAN = {plain(title) for title in listed("Monat, Geburtsmonat, Jahr, Geburtsjahr, Geb.-Jahr, Jahrgang")}
# what such a column has
NUMBER = re.compile(r"0?\d{1,2}(?:\.0*)?")
# so great a part of its cells at least
MOSTLY = 0.9


class BirthParts(NamedTuple):
    """The places of the columns that have the months and years of births, and the days, if there is one."""

    day: int | None
    month: int
    year: int

    def places(self) -> tuple[int, ...]:
        return (self.month, self.year) if self.day is None else (self.day, self.month, self.year)


def parts_of_births(sheet: Sheet, taken: Container[int]) -> BirthParts | None:
    """Those of a sheet that has one of each, or none of days, which aren't taken for something else; most of their
    cells are such numbers."""
    titles = [(at, plain(title)) for at, title in enumerate(sheet.titles) if title and at not in taken]
    found = {part: [at for at, title in titles if title in known] for part, known in KNOWN_PARTS.items()}
    if not all(len(found[part]) == 1 for part in ("month", "year")):
        return None
    [month], [year] = found["month"], found["year"]
    if not all(plain(sheet.titles[at]) in GERMAN for at in (month, year)):
        found["day"] = [at for at in found["day"] if plain(sheet.titles[at]) != TAG]
    if len(found["day"]) > 1:
        return None
    parts = BirthParts(next(iter(found["day"]), None), month, year)
    looks = dict(zip(reversed(parts.places()), (is_year, is_month, is_day)))
    said = {at: [cell for cell in sheet.column(at) if cell] for at in looks}
    are_so = (sum(map(look, said[at])) >= max(1, MOSTLY * len(said[at])) for at, look in looks.items())
    return parts if all(are_so) else None


def is_day(text: str) -> bool:
    return NUMBER.fullmatch(text) is not None and float(text) <= 31


def is_month(text: str) -> bool:
    return NUMBER.fullmatch(text) is not None and float(text) <= 12 or text in ROMAN or compared(text) in MONTHS


def is_year(text: str) -> bool:
    return SOME_YEAR.fullmatch(text) is not None or re.fullmatch(r"'?\d\d", text) is not None


def others_than(columns: Mapping[str, int]) -> set[int]:
    """The columns that are read for something else than births."""
    return {at for name, at in columns.items() if name != Field.BIRTH}


def year_column(sheet: Sheet, columns: Mapping[str, int]) -> list[int]:
    """The only column that isn't read and has years, beside one of days."""
    if Field.BIRTH not in columns:
        return []
    titles = enumerate(sheet.titles)
    found = [at for at, title in titles if at not in columns.values() and plain(title) in KNOWN_YEARS]
    return found if len(found) == 1 else []


def births_said(
    rows: list[SheetRow], sheet: Sheet, columns: Mapping[str, int], unknown: Container[str], report: Report
) -> dict[int, str]:
    """What the cells of births say with those beside, by the places of rows, where that is another text."""
    at = columns.get(Field.BIRTH)
    parts = parts_of_births(sheet, others_than(columns)) if at is not None else None
    if at is None or parts and parts.year == at:
        return joined(rows, sheet, parts, unknown, report) if parts else {}
    found = dict[int, str]()
    for of_years in year_column(sheet, columns):
        found = with_years(rows, sheet, at, of_years, unknown, report)
    return found


def joined(
    rows: Sequence[SheetRow], sheet: Sheet, parts: BirthParts, unknown: Container[str], report: Report
) -> dict[int, str]:
    """The days of three columns; where the day isn't known, the month."""
    places = parts.places()
    no_day = [""] * (parts.day is None)
    cells = [no_day + [cell_of(row, at) for at in places] for row in rows]
    said = [["" if text in unknown or not text.strip("0") else text for text in texts] for texts in cells]
    found = {place: day_of(*texts) for place, texts in enumerate(said) if texts[1] and texts[2]}
    if found:
        first, text = next(iter(found.items()))
        titles = tuple(sheet.titles[at] for at in places)
        report.add(0, "", BirthsJoined(titles, len(found), rows[first].line, text))
    return found


def day_of(day: str, month: str, year: str) -> str:
    day, month = (text.partition(".")[0] if NUMBER.fullmatch(text) else text for text in (day, month))
    number = MONTHS.get(compared(month)) or ROMAN.get(month) or month
    return f"{day}.{number}.{year.lstrip(chr(39))}" if day else f"{number}.{year}"


def with_years(
    rows: Sequence[SheetRow], sheet: Sheet, at: int, of_years: int, unknown: Container[str], report: Report
) -> dict[int, str]:
    """The years of a column where that of births has nothing; where both speak and disagree, that is told."""
    said = [(place, row.line, cell_of(row, at), cell_of(row, of_years)) for place, row in enumerate(rows)]
    years = {text for text in {text for *_, text in said} if len({*SOME_YEAR.findall(text)}) == 1}
    said = [one for one in said if one[3] in years]
    found = {place: year for place, _, birth, year in said if not birth or birth in unknown}
    others = [(line, birth, year) for place, line, birth, year in said if place not in found and not agree(birth, year)]
    titles = sheet.titles[of_years], sheet.titles[at]
    if found:
        report.add(0, "", BirthYearsRead(*titles, len(found)))
    if others:
        line, birth, year = others[0]
        report.add(0, "", BirthYearsDisagree(*titles, len(others), line, birth, year))
    return found


def agree(birth: str, year: str) -> bool:
    """May a birth be in the year? A text without a year of four digits ends with two of them, if it has any."""
    if year in birth:
        return True
    [said] = {*SOME_YEAR.findall(year)}
    years = SOME_YEAR.findall(birth)
    short = re.search(r"\D(\d\d)\W*$", birth)
    if not years and short is None:
        return True
    return said in years or short is not None and said.endswith(short[1])
