"""Days without signs between day, month and year, and such with the month as a Roman number."""
from __future__ import annotations

import pytest

from front_desk.desk import Desk

TITLES = "Nr.;geb.;Vater;Mutter;Abgang\n"


def rows(*days: str) -> str:
    return "".join(f"{at};{day};;;\n" for at, day in enumerate(days, 1))


def born(desk: Desk) -> list[str]:
    return [day for _, day in sorted(desk.born().items())]


@pytest.mark.parametrize(
    "days, wanted",
    [
        (("12052023", "31012020", "03032019"), ("2023-05-12", "2020-01-31", "2019-03-03")),
        # a spreadsheet drops the first zero
        (("12052023", "31012020", "3032019"), ("2023-05-12", "2020-01-31", "2019-03-03")),
        (("05312020", "01032019", "12122018"), ("2020-05-31", "2019-01-03", "2018-12-12")),
        (("200125", "310120", "010199"), ("2025-01-20", "2020-01-31", "1999-01-01")),
        (("200131", "191130", "180529"), ("2020-01-31", "2019-11-30", "2018-05-29")),
    ],
)
def test_days_together(desk: Desk, days: tuple[str, ...], wanted: tuple[str, ...]) -> None:
    """They are read where the whole column is written so, and told once; a second time nothing is changed."""
    done = desk.take(TITLES + rows(*days))
    assert born(desk) == [*wanted]
    done.tells(
        "to look at: day, month and year without signs between in 3 cells of the column 'geb.': "
        f"'{days[0]}' in line 2 is read as {wanted[0]}, and the others alike"
    )
    assert " 0 changed" in desk.take(TITLES + rows(*days)).last


@pytest.mark.parametrize(
    "days",
    [
        # either order can be, or none
        ("05062023", "01022020", "03032019"), ("010203", "020304", "030405"), ("12052023", "31022020", "03032019"),
        # after today, or long ago
        ("12052123", "31012120", "03032119"), ("12051923", "31011920", "03031919"),
        # others are written otherwise, or there are too few
        ("12052023", "31.01.2020", "03032019"), ("12052023", "31012020"),
    ],
)
def test_days_that_may_be_others(desk: Desk, days: tuple[str, ...]) -> None:
    """They are told as they stand, with how to write them."""
    done = desk.run("import", desk.write("sheet.csv", TITLES + rows(*days)))
    told = done.told + done.err
    assert "without signs between" not in told and f"'{days[0]}'" in told and "write days as 2001-03-01" in told


def test_usual_digits(desk: Desk) -> None:
    """With the year first they are read as ever, and nothing is told."""
    done = desk.take(TITLES + rows("20230512", "20200131", "20190303"))
    assert born(desk) == ["2023-05-12", "2020-01-31", "2019-03-03"] and "to look at" not in done.told


@pytest.mark.parametrize("day", ["26.III.17", "26. III. 17", "26/iii/17", "26-III-'17"])
def test_roman_months(desk: Desk, day: str) -> None:
    done = desk.take(TITLES + rows("2015-01-01", day))
    assert born(desk) == ["2015-01-01", "2017-03-26"]
    done.tells(
        f"to look at: two digits of the year in 1 cell of the column 'geb.': '{day}' in line 3 is read as 2017-03-26"
    )


@pytest.mark.parametrize("exit, day", [("verk. 3.XI.20", "2020-11-03"), ("verk. 2 x 20 EUR", "")])
def test_roman_months_within(desk: Desk, exit: str, day: str) -> None:
    """A sign between shows that it is a month."""
    desk.take(TITLES + rows("2015-01-01", "2016-01-01")[:-1] + exit + "\n")
    assert ("2020-" in desk.text("book/commands.csv")) == bool(day) and day in desk.text("book/commands.csv")
