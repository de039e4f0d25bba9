"""The page on a breed's state: measures, plots and the beginnings of the tables."""
from __future__ import annotations

import datetime
import enum
from collections.abc import Iterable, Mapping, Sequence
from dataclasses import dataclass
from fractions import Fraction
from typing import Any

from markupsafe import Markup

from gudokeyi.domain.decimals import fixed, percent
from gudokeyi.genetics.breed_state import State, Year
from gudokeyi.genetics.founders import Contribution
from gudokeyi.genetics.measures import Measure, Name
from gudokeyi.render.breed_plots import INBREEDING, Line, bar_plot, line_plot
from gudokeyi.render.drawing import rendered
from gudokeyi.render.languages import Language
from gudokeyi.render.texts.breed import LACKS, MEANINGS, NAMES, RULES
from gudokeyi.services.breed_pedigree import Breed

# so many rows of a table stand on the page; the files have all
MOST_ROWS = 20
# FAO's rules: a rate a generation at most, and an effective size at least
GREATEST_RATE, LEAST_SIZE = Fraction(1, 100), 50
# the means of a year with fewer births say little
FEW_BIRTHS = 10
# measures that are shares, and shown in percent
SHARES = {
    Name.MEAN_INBREEDING, Name.MEAN_KINSHIP, Name.RATE_OF_INBREEDING, Name.RATE_OF_INBREEDING_A_YEAR,
    Name.RATE_OF_INBREEDING_BY_YEARS,
}  # fmt: skip
COUNTS = {Name.ANIMALS, Name.INBRED_ANIMALS, Name.FOUNDERS}


@dataclass(frozen=True)
class MeasureRow:
    name: str
    value: str
    meaning: str
    # what the field compares it with, and whether the value is beyond that
    rule: str
    is_beyond: bool


@dataclass(frozen=True)
class ShareRow:
    who: str
    name: str
    share: str
    so_far: str


class BreedWords:
    """The words of a language."""

    def __init__(self, language: str) -> None:
        self.language = Language(language)

    def of(self, member: enum.Enum, texts: Mapping[Any, str]) -> str:
        """What a measure, or its lack, is called, or means."""
        return self.language.pgettext(f"{type(member).__name__}.{member.name}", texts[member])

    # -- who the measures are of

    def of_living(self) -> str:
        return self.language.gettext("the living animals")

    def of_owner(self, owner: str) -> str:
        return self.language.gettext("the living animals of {}", owner)

    def of_born(self, first: datetime.date, last: datetime.date) -> str:
        days = f"{self.language.day(first)} – {self.language.day(last)}"
        return self.language.gettext("the animals born {}", days)

    def of_file(self, name: str) -> str:
        return self.language.gettext("the animals of the file {}", name)

    # -- values

    def percent(self, value: Fraction | float, places: int = 2) -> str:
        return self.language.percent(percent(value, places))

    def value(self, measure: Measure) -> str:
        """The value, rounded as it is shown, or why there is none."""
        if measure.lack:
            return f"– ({self.of(measure.lack, LACKS)})"
        value = measure.exact if measure.exact is not None else Fraction(measure.value or 0)
        if measure.name in COUNTS:
            return self.language.count(int(value))
        if measure.name in SHARES:
            return self.percent(value, 3)
        return self.language.decimal(fixed(value))


def breed_page(state: State, breed: Breed, language: str, of_whom: str) -> str:
    return rendered("breed.html", **said(state, breed, language, of_whom))


def breed_part(state: State, breed: Breed, language: str, of_whom: str) -> str:
    """What stands on the page, as a part of another one."""
    return rendered("breed_part.html", **said(state, breed, language, of_whom))


def said(state: State, breed: Breed, language: str, of_whom: str) -> dict[str, object]:
    """What the templates say."""
    words = BreedWords(language)
    return {
        "language": language,
        "of_whom": of_whom,
        "_": words.language.gettext,
        "pgettext": words.language.pgettext,
        "measures": [measure_row(measure, words) for measure in state.measures.values()],
        "plots": [Markup(plot) for plot in plots_of(state, words)],
        "years": year_rows(state, words),
        "has_few": any(year.animals < FEW_BIRTHS for year in state.years),
        "founders": share_rows(sorted(state.founders, key=lambda one: -one.share), breed, words),
        "ancestors": share_rows(state.ancestors.ancestors, breed, words),
        "kinships": [
            (breed.rows[rank].id, breed.rows[rank].name, words.percent(kinship))
            for rank, kinship in state.mean_kinships[:MOST_ROWS]
        ],
        "more": words.language.pgettext(
            "more", "and {} more", words.language.count(max(0, len(state.mean_kinships) - MOST_ROWS))
        ),
        "has_more": len(state.mean_kinships) > MOST_ROWS,
    }


def measure_row(measure: Measure, words: BreedWords) -> MeasureRow:
    rule = words.of(measure.name, RULES) if measure.name in RULES else ""
    return MeasureRow(
        words.of(measure.name, NAMES), words.value(measure), words.of(measure.name, MEANINGS), rule, is_beyond(measure)
    )


def is_beyond(measure: Measure) -> bool:
    """Is the rate higher, or the size smaller, than the field's rule wants?"""
    value = measure.exact if measure.exact is not None else measure.value
    if value is None:
        return False
    if measure.name in (Name.RATE_OF_INBREEDING, Name.RATE_OF_INBREEDING_BY_YEARS):
        return value > GREATEST_RATE
    return measure.name in (Name.EFFECTIVE_SIZE, Name.EFFECTIVE_SIZE_BY_YEARS) and value < LEAST_SIZE


def plots_of(state: State, words: BreedWords) -> Iterable[str]:
    if state.years:
        yield from plots_by_year(state.years, words)
    if state.completeness:
        shown = state.completeness[:MOST_ROWS]
        names = [str(at) for at in range(1, len(shown) + 1)]
        yield bar_plot(
            words.language.gettext("Ancestors known, by generation"),
            names,
            [float(share) * 100 for share in shown],
            " %",
        )


def plots_by_year(years: Sequence[Year], words: BreedWords) -> Iterable[str]:
    """Each year from the first to the last has its place, also one without births. The means of years with few births
    aren't drawn."""
    found = {year.year: year for year in years}
    all_years = range(years[0].year, years[-1].year + 1)
    names, in_order = [str(year) for year in all_years], [found.get(year) for year in all_years]
    births = [year.animals if year else 0 for year in in_order]
    few = {place for place, count in enumerate(births) if 0 < count < FEW_BIRTHS}
    yield bar_plot(words.language.pgettext("born animals", "Born"), names, births, "", few)
    many = [year if year and year.animals >= FEW_BIRTHS else None for year in in_order]
    if any(many):
        inbreeding = [float(year.mean_inbreeding) * 100 if year else None for year in many]
        kinship = [float(year.mean_kinship) * 100 if year else None for year in many]
        lines = [
            Line(words.of(Name.MEAN_INBREEDING, NAMES), inbreeding, INBREEDING),
            Line(words.of(Name.MEAN_KINSHIP, NAMES), kinship, dashes="6 4", is_filled=False),
        ]
        yield line_plot(words.language.gettext("By birth year"), names, lines, " %")


def year_rows(state: State, words: BreedWords) -> list[Sequence[str]]:
    count = words.language.count
    return [
        (
            f"{year.year}{'*' * (year.animals < FEW_BIRTHS)}",
            count(year.animals), count(year.sires.in_use), count(year.sires.most),
            count(year.dams.in_use), count(year.dams.most), count(year.inbred), words.percent(year.mean_inbreeding),
            words.percent(year.mean_kinship),
        )
        for year in state.years
    ]  # fmt: skip


def share_rows(contributions: Sequence[Contribution], breed: Breed, words: BreedWords) -> list[ShareRow]:
    rows = []
    so_far = Fraction(0)
    for one in contributions[:MOST_ROWS]:
        so_far += one.share
        animal = breed.rows[one.rank]
        who = words.language.gettext("an unknown parent of {}", animal.id) if one.is_parent_of else animal.id
        rows.append(ShareRow(who, animal.name, words.percent(one.share), words.percent(so_far)))
    return rows
