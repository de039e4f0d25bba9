"""Days as sheets write them, in three languages, and days that can't be."""
from __future__ import annotations

import datetime

import pytest

from front_desk.desk import Desk
from gudokeyi.domain.findings import Report
from gudokeyi.domain.kinds import Field
from gudokeyi.ingest.animal_cells import AnimalCells, Unread
from gudokeyi.ingest.day_cells import DayCell, DayCells
from gudokeyi.ingest.days import (
    ANY_DAY, DayFault, Span, Unreadable, is_span, month_of, read_span, span_of_period, span_within, year_of,
)  # fmt: skip
from gudokeyi.ingest.findings.cells import DayLeftOut
from gudokeyi.ingest.sexes import Sexes
from gudokeyi.ingest.unknown_parents import UnknownParents

TITLES = "id;sex;birth;sire;dam;exit\n"
DAYS = {
    "3. April 2010": "2010-04-03",
    "08 January 2005": "2005-01-08",
    "03-Mar-2005": "2005-03-03",
    "1er août 2005": "2005-08-01",
    "January 8, 2005": "2005-01-08",
    "5.Dez.2011": "2011-12-05",
    "31/12/2010": "2010-12-31",
    "31-12-2010": "2010-12-31",
    "März 2004": "2004-03-16",
    "févr. 2004": "2004-02-15",
    "about 2010": "2010-07-02",
    "ca. 2010": "2010-07-02",
    "2010?": "2010-07-02",
    "2.5.2010 oder 3.5.2010": "2010-05-02",
    "15.13.2010": "2010-07-02",
    "20010315": "2001-03-15",
    "03-Mar-05": "2005-03-03",
    "01.02.98": "1998-02-01",
    "37800": "2003-06-28",
}
UNREADABLE = ["before 2010", "vor 2010", "2009 oder 2010", "12345", "Mai"]


def test_days_in_three_languages(desk: Desk) -> None:
    rows = "".join(f"a{at};F;{text};;;\n" for at, text in enumerate(DAYS))
    done = desk.take(TITLES + rows)
    assert list(desk.born().values()) == sorted(DAYS.values())
    assert {desk.born()[f"a{at}"] for at, _ in enumerate(DAYS)} == set(DAYS.values())
    assert all(desk.born()[f"a{at}"] == day for at, day in enumerate(DAYS.values()))
    done.tells(
        "line 12: a10: inferred: birth day 2010-07-02, from the year 2010 of 'about 2010'",
        "line 16: a14: inferred: birth day 2010-07-02, from the year 2010, since there is no day 15.13.2010",
    )


def test_texts_without_a_day(desk: Desk) -> None:
    rows = "".join(f"a{at};F;{text};;;\n" for at, text in enumerate([*UNREADABLE, *DAYS]))
    done = desk.take(TITLES + rows)
    assert f" {len(UNREADABLE)} left out" in done.last


def fault(text: str, month_first: bool = False, legible: bool = True) -> DayFault:
    """Why a text is no day."""
    with pytest.raises(Unreadable) as raised:
        read_span(text, month_first, legible)
    return raised.value.fault


def test_what_a_text_leaves_open() -> None:
    """Zeros stand for what isn't known, and a day that there isn't is named; days of other centuries are none, however
    they are written."""
    assert read_span("00.00.2010") == read_span("2010-00-00") == year_of(2010)
    for text in "2010-00-15", "15.00.2010", "05.13.2010", "2010-13-05":
        assert read_span(text) == year_of(2010, text)
    assert read_span("31.02.2010") == month_of(2010, 2, "31.02.2010")
    others = "1899-12-31", "31.12.1899", "2200-01-01", "01/01/2200", "1899"
    assert {fault(text) for text in others} == {DayFault.YEAR}
    assert read_span("about 2010") == year_of(2010, text="about 2010")
    assert fault("about 2010", legible=False) is DayFault.NO_DAY
    assert (fault("05/13/2010"), fault("13/05/2010", month_first=True)) == (DayFault.WRONG_ORDER,) * 2


def test_days_as_numbers() -> None:
    """Of eight digits, also as programs write them; zeros stand for what isn't known. Others are numbers."""
    day = datetime.date(2001, 3, 15)
    assert read_span("20010315") == read_span("20010315.0") == Span(day, day) and is_span("20010315")
    assert (read_span("20010000"), read_span("20010231")) == (year_of(2001), month_of(2001, 2, "20010231"))
    assert {fault(text) for text in ("20011315", "18990101", "22000101", "200103151")} == {DayFault.NO_DAY}
    assert span_within("sold to 20010315") is None


def test_days_of_a_period() -> None:
    """A month or a year that was read before has the days that it had, from its first to its last, and no others."""
    for span in month_of(2004, 2), month_of(2010, 2, "31.02.2010"), year_of(2010), year_of(2010, "05.13.2010"):
        assert span_of_period(span.period()) == span
        around = [day + datetime.timedelta(step) for day in (span.first, span.last) for step in (-1, 0, 1)]
        assert [span.has(day) for day in around] == [False, True, True, True, True, False]


def test_days_within_texts() -> None:
    """Of several days none is taken, nor the year behind one; one in the other order is told."""
    day = datetime.date(2010, 5, 13)
    assert span_within("sold 13.05.2010, seen 2012") == span_within("sold 13.05.2010 (2010)") == Span(day, day)
    assert [span_within(f"sold 12.{year}") for year in (1899, 1900, 2199, 2200)] == [
        None, month_of(1900, 12), month_of(2199, 12), None
    ]  # fmt: skip
    assert span_within("sold 13/05/2010.") == span_within("sold 05/13/2010", True) == Span(day, day)
    assert span_within("sold 3.4.2020 or 5.6.2021, in 2022") is span_within("sold for 2010 EUR") is None
    assert span_within("sold (2010).") == year_of(2010)
    # also where they are written in different forms; one day that is written twice is one
    several = "sold 03.04.2020, paid 2020-05-06", "sold 2020-05-06, paid 07/2020", "3 May 2020 or 4.5.1820"
    assert {span_within(text) for text in several} == {None}
    for text in "sold 13.05.2010 (2010-05-13)", "13.5.2010, 13.05.2010", "sold 13 May 2010, tag 12.3456":
        assert span_within(text) == Span(day, day), text
    with pytest.raises(Unreadable, match="'05/13/2010' has the day and the month in the other order"):
        span_within("sold 05/13/2010")


def test_cells_of_days(today: datetime.date) -> None:
    """What says nothing isn't counted, and what can't be read is; a day after today is read, and not taken."""
    for field, late in (Field.BIRTH, True), (Field.EXIT, True), (Field.SINCE, False):
        report, unread = Report(), Unread({})
        cells, later = AnimalCells(UnknownParents(), Sexes([], {}), unread, report, False), f"{today.year + 1}-01-02"
        texts = ["2004-02-03", "2004", "?", "12345", later]
        animals = [cells.animal(line, f"a{line}", {field: text}) for line, text in enumerate(texts)]
        assert unread.read[field] == 4 and {**unread.cells} == {field: [("12345", 3)]}
        assert [one.unread for one in animals] == [[], [], [], [field], [field] * late]
        left_out = [entry.line for entry in report.entries if entry.part]
        assert left_out == ([3, 4] if late else [3])
        births, since = [one.birth for one in animals], [one.since and one.since.last for one in animals]
        day, year = datetime.date(2004, 2, 3), year_of(2004)
        assert births == ([Span(day, day), year] + [ANY_DAY] * 3 if field is Field.BIRTH else [ANY_DAY] * 5)
        days = [day, year.last, None, None, datetime.date.fromisoformat(later)]
        assert since == (days if field is Field.SINCE else [None] * 5)
        assert [one.left for one in animals] == ([*days[:4], None] if field is Field.EXIT else [None] * 5)


@pytest.mark.parametrize("word", [
    "since", "Since the", "from", "seit", "Seit dem", "seit:", "ab", "ab dem", "depuis", "depuis le", "dès le",
    "à partir de", "à partir du",
])  # fmt: skip
def test_since_when(word: str) -> None:
    """A word for that is passed over where it is asked since when, and nowhere else."""
    days, day = DayCells(UnknownParents(), False), datetime.date(2003, 5, 13)
    spans = {
        "2003": year_of(2003), "05.2003": month_of(2003, 5), "Mai 2003": month_of(2003, 5), "13.05.2003": Span(day, day),
        "about 2003": year_of(2003, text="about 2003"),
    }  # fmt: skip
    for text, span in spans.items():
        assert days.day(Field.SINCE, f"{word} {text}") == DayCell(span), text
        assert days.day(Field.SINCE, text) == DayCell(span)
    assert not days.day(Field.SINCE, f"{word} ?").says_something
    faults = {"2003 or 2004": DayFault.NO_DAY, "before 2003": DayFault.NO_DAY}
    for text, fault in faults.items():
        assert days.day(Field.SINCE, f"{word} {text}").fault == DayLeftOut(Field.SINCE, fault, f"{word} {text}")
    assert days.day(Field.SINCE, f"{word} 13.05.03").span == Span(day, day)
    assert days.day(Field.SINCE, word).is_unread
    assert days.day(Field.BIRTH, "since 2003").is_unread


def test_month_first(desk: Desk) -> None:
    """The option is told where a day shows that it is needed; it stays with the book."""
    sheet = TITLES + "a;F;12/25/2001;;;\nb;F;12/05/2004;;;\nc;F;05.04.2004;;;\n"
    done = desk.wrong(
        "line 2: a: birth day: '12/25/2001' has the month first, so days with / can't be told from months",
        "import",
        desk.write("sheet.csv", sheet),
    )
    desk.typed(done.commands()[0])
    # what is remembered can be taken back
    done = desk.wrong(
        "'25/03/2001' has the day first", "import", desk.write("days.csv", TITLES + "a;F;25/03/2001;;;\n")
    )
    desk.copy_to(desk.room.parent / "taken back").typed(done.commands()[0])
    born = {"a": "2001-12-25", "b": "2004-12-05", "c": "2004-04-05"}
    assert desk.born() == born
    assert "as last time: --month-first" in desk.take(sheet).out
    assert desk.born() == born


def test_both_orders(desk: Desk) -> None:
    sheet = desk.write("sheet.csv", TITLES + "a;F;03/25/2001;;;\nb;F;25/03/2004;;;\n")
    told = "others have the day first (line 3: b: birth day: '25/03/2004'): write all days as 2001-03-01"
    desk.wrong(told, "import", sheet)
    desk.wrong("others have the month first (line 2: a: birth day: '03/25/2001')", "import", sheet, "--month-first")


def test_one_day_in_the_other_order(desk: Desk) -> None:
    """Beside few days that line is named; beside many it is read by itself, as an inferred day, and told."""
    sheet = TITLES + "a;F;13/03/2001;;;\nb;F;06/25/2004;;;\nc;F;14/03/2002;;;\n"
    desk.wrong(
        "line 3: b: birth day: '06/25/2004' has the month first, and 2 others have the day first, as line 2: a: birth day: "
        "'13/03/2001': write this day as 2001-03-01 or 01.03.2001, or all days where the others are wrong",
        "import", desk.write("sheet.csv", sheet),
    )  # fmt: skip
    more = "".join(f"d{day};F;{day}/03/2002;;;sold 02/{day}/2020\n" for day in range(15, 18))
    desk.wrong("has the month first", "import", desk.write("sheet.csv", sheet + more))
    done = desk.take(sheet + more.replace("sold 02/", "") .replace("/2020", "/02/2020"))
    done.shows(
        "to look at: day and month in the other order than elsewhere in 1 cell of the column 'birth': '06/25/2004' in line "
        "3 is read as 2004-06-25"
    )
    assert desk.born()["b"] == "2004-06-25" and " 1 inferred" in done.last
    months = "".join(f"m{day};F;03/{day}/2002;;;\n" for day in range(15, 18))
    desk.wrong("(3 such days)", "import", desk.write("sheet.csv", sheet.replace("06/25", "25/06") + months), "--book", "two")


def test_one_day_in_a_column_of_few(desk: Desk) -> None:
    """The order that the other columns show is read, unless others of the column may have the month first too."""
    sheet = TITLES + "".join(f"d{day};F;{day}/03/2002;;;\n" for day in range(13, 18)) + "b;F;25/06/2004;;;sold 3/28/2019\n"
    done = desk.take(sheet)
    told = "day and month in the other order than elsewhere in 1 cell of the column 'exit': 'sold 3/28/2019' in line 7"
    assert told in done.out and [line.split(",")[2] for line in desk.commands() if line[:4] == "exit"] == ["2019-03-28"]
    unsure = sheet + "c;F;26/06/2004;;;sold 3/4/2019\n"
    desk.wrong("'3/28/2019' has the month first", "import", desk.write("sheet.csv", unsure), "--book", "unsure")


def test_no_day_shows_the_order(desk: Desk) -> None:
    done = desk.take(TITLES + "a;F;03/04/2001;;;\nb;F;05/05/2004;;;\n")
    told = "1 day with / could have the month first, and no day in the sheet shows which"
    assert told in done.out
    assert told not in desk.take(TITLES + "a;F;03/04/2001;;;\nb;F;25/05/2004;;;\n").out


def test_days_after_today(desk: Desk, today: datetime.date) -> None:
    """A birth or an exit after today is left out, and told, and no day that is inferred is after today."""
    next_month = today + datetime.timedelta(40)
    done = desk.take(
        TITLES
        + f"a;F;2062-03-01;;;\nb;F;2001-03-01;;;{next_month}\nc;F;{today};;b;{today}\nd;F;{today.year};;;{today.year}\n"
        f"e;F;;;c;\nf;F;;;b;\nh;M;{today - datetime.timedelta(40)};;;\ni;F;;h;;\n"
    )
    done.tells(
        "line 2: a: its birth day is left out: 2062-03-01 is after today",
        f"line 3: b: its exit is left out: {next_month} is after today",
    )
    assert all(day <= str(today) for day in desk.born().values())
    left = {line.split(",")[1]: line.split(",")[2] for line in desk.commands() if line.startswith("exit")}
    ids = {number: id for id, number in desk.numbers().items()}
    assert {ids[number]: day for number, day in left.items()} == {"c": str(today), "d": str(today)}
    exits = {row["id"]: row["exit"] for row in desk.table("book/ids.csv")}
    assert exits["b"] == ""
