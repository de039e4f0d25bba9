"""Cells with what programs write where there is no day."""
from __future__ import annotations

import pytest

from front_desk.desk import Desk
from front_desk.test_exits_beside import BEGIN, CALF, rows
from front_desk.test_reasons_of_exits import exits, reason

NO_DAYS = [
    "00.01.1900", "01/01/1900", "30.12.1899", "31/12/9999", "00/00/00", "00/00/0000", "9999-12-31 00:00:00", "00:00:00",
    "01.01.0001", "1/0/1900", "0000-00-00",
]  # fmt: skip


@pytest.mark.parametrize("text", NO_DAYS)
def test_no_days_of_exits(desk: Desk, text: str) -> None:
    """In a column of exits, also in a second one, they tell of none."""
    cells = f"{text};{text}", f"{text};3.3.2021", f"4.4.2021;{text}", "31.12.2099;"
    done = desk.take(BEGIN + "Gestorben am;Verkauft am\n" + rows((f"1.1.2020;{text}", f"{text};"), *cells))
    done.shows(
        f"to look at: 3 cells of the column 'Gestorben am' have what programs write for no day, the first '{text}' in line "
        "3: they count as empty",
        f"to look at: 3 cells of the column 'Verkauft am' have what programs write for no day, the first '{text}' in line "
        "2: they count as empty",
    )
    assert exits(desk) == {"4": "'Verkauft'"} and "is after today" in done.told
    assert [reason(desk, id)[0] for id in "123456"] == ["2020-01-01", "", "", "2021-03-03", "2021-04-04", ""]


def test_no_days_of_births(desk: Desk) -> None:
    """The day isn't known; of the first day of a book that is told by itself."""
    days = "00.01.1900", "31.12.9999", "00/00/0000", "30.12.1899", "01.01.1900", "00.00.2018"
    births = "".join(
        CALF.format(at, "", "").replace("02.03.2018", day).replace(";2;1;", ";;;") for at, day in enumerate(days, 3)
    )
    done = desk.take(BEGIN + "Abgang\n" + rows(("", "")) + births)
    done.shows(
        "to look at: 4 cells of the column 'Geburt' have what programs write for no day, the first '00.01.1900' in line 4: "
        "they count as empty"
    )
    born = {row["id"]: row["birth"] for row in desk.table("book/ids.csv")}
    assert born["3"] == born["6"] and born["7"] != born["3"] and born["8"] != born["3"]
    assert "1 animal that counts as living has the birth day 1900-01-01" in done.told
