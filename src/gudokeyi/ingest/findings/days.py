"""What is found of cells with days in no usual form: each kind as data, and in words."""
from __future__ import annotations

from collections.abc import Mapping
from dataclasses import dataclass

from gudokeyi.domain.findings import Severity
from gudokeyi.domain.messages import Worded
from gudokeyi.domain.wording import Counted, OptionalPart, Quoted, Text
from gudokeyi.ingest.findings.columns import SheetFinding


class DayReading(Worded):
    """How a text is read that has a day in no usual form."""

    TWO_DIGITS = "two digits"
    SERIAL = "serial"
    # as `12052023`
    TOGETHER = "together"
    WITHIN = "within"
    ONE_OF = "one of"
    UNSURE = "unsure"
    PERIOD_WITHIN = "period within"
    # a day that may be mistyped, as `12..3.2020`
    YEAR_ALONE = "year alone"
    OTHER_ORDER = "other order"

    def words(self) -> str:
        return READINGS[self]


READINGS = {
    DayReading.TWO_DIGITS: "two digits of the year",
    DayReading.SERIAL: "a spreadsheet's number for a day",
    DayReading.TOGETHER: "day, month and year without signs between",
    DayReading.WITHIN: "a day and a text",
    DayReading.ONE_OF: "one of several days",
    DayReading.UNSURE: "a day that isn't certain",
    DayReading.PERIOD_WITHIN: "a text with a month, a week or a season",
    DayReading.YEAR_ALONE: "a text of which the year alone can be read",
    DayReading.OTHER_ORDER: "day and month in the other order than elsewhere",
}


@dataclass(frozen=True, slots=True)
class DaysReadSo(SheetFinding):
    """Cells of a column whose days are read as it is told here: how many, and the first of them; `until` is the last
    day where it leaves several open."""

    title: str
    reading: DayReading
    count: int
    line: int
    text: str
    day: str
    until: str = ""

    code = "days read so"
    message = Counted(
        "{reading} in {count} cell of the column '{title}': '{text}' in line {line} is read as {day}{maybe_until}"
        "{maybe_more}",
        "{reading} in {count} cells of the column '{title}': '{text}' in line {line} is read as {day}{maybe_until}"
        "{maybe_more}",
        "count",
    )
    parts = {
        "maybe_until": OptionalPart(" to {until}"),
        "maybe_more": OptionalPart(", and the others alike", when="are_more"),
    }

    def values(self) -> Mapping[str, object]:
        return {"are_more": self.count > 1}


@dataclass(frozen=True, slots=True)
class NoDays(SheetFinding):
    """Cells such as `00/00/0000` and `31.12.9999`, which programs write where there is no day."""

    title: str
    count: int
    line: int
    text: str

    severity = Severity.FACTS
    code = "no days"
    message = Counted(
        "{count} cell of the column '{title}' has what programs write for no day, '{text}' in line {line}: it counts "
        "as empty",
        "{count} cells of the column '{title}' have what programs write for no day, the first '{text}' in line {line}: "
        "they count as empty",
        "count",
    )


@dataclass(frozen=True, slots=True)
class DaysExchanged(SheetFinding):
    """Days of a column that a spreadsheet seems to have read with the month first, since each is a twelfth at most and
    those that it kept as texts aren't: how many, and the first of both."""

    title: str
    count: int
    line: int
    day: str
    after: str
    texts: int
    text_line: int
    text: str

    severity = Severity.ANIMALS
    code = "days exchanged"
    message = Text(
        "a spreadsheet seems to have exchanged day and month in '{title}': none of its {count} days is later in a "
        "month than the 12th, and each of the {texts} that it kept as text is, such as {text} in line {text_line}. "
        "{day} in line {line} may be {after}: type these days again, where the spreadsheet has the day first"
    )


@dataclass(frozen=True, slots=True)
class YearsAsDays(SheetFinding):
    """Days of a column that may be years in cells whose format is a day: how many, and the first one."""

    title: str
    count: int
    line: int
    day: str
    year: int

    severity = Severity.ANIMALS
    code = "years as days"
    message = Counted(
        "'{title}' has {day} in line {line}, as a spreadsheet shows {year} in a cell whose format is a day: if that "
        "year is meant, enter it in a cell whose format is text",
        "'{title}' has {count} days of 1905, the first is {day} in line {line}, as a spreadsheet shows {year} in a "
        "cell whose format is a day: if years are meant, enter them in cells whose format is text",
        "count",
    )


@dataclass(frozen=True, slots=True)
class BirthsJoined(SheetFinding):
    """Days of births that stand in three columns: how many, and the first one."""

    titles: tuple[str, ...]
    count: int
    line: int
    text: str

    code = "births joined"
    message = Counted(
        "the birth day of {count} row is read from the columns {of_parts}: '{text}' in line {line}",
        "the birth days of {count} rows are read from the columns {of_parts}, as '{text}' in line {line}",
        "count",
    )

    def values(self) -> Mapping[str, object]:
        return {"of_parts": Quoted(self.titles)}


@dataclass(frozen=True, slots=True)
class BirthYearsRead(SheetFinding):
    """A column of years beside that of the births: in so many rows it alone has one."""

    title: str
    of_births: str
    count: int

    code = "birth years read"
    message = Counted(
        "the column '{title}' has the year of a birth in {count} row where '{of_births}' has none: it is taken there",
        "the column '{title}' has the years of births in {count} rows where '{of_births}' has none: they are taken "
        "there",
        "count",
    )


@dataclass(frozen=True, slots=True)
class BirthYearsDisagree(SheetFinding):
    """Cells of a column of years that have another year than those of births: how many, and the first one."""

    title: str
    of_births: str
    count: int
    line: int
    birth: str
    year: str

    severity = Severity.FACTS
    code = "birth years disagree"
    message = Counted(
        "'{of_births}' says '{birth}', and '{title}' says '{year}', in line {line}: the first is taken",
        "'{of_births}' says another year than '{title}' in {count} rows, the first is line {line}, with '{birth}' and "
        "'{year}': '{of_births}' is taken",
        "count",
    )
