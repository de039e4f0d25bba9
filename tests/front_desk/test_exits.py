"""Exits as sheets write them: days, words, and what the book has."""
from __future__ import annotations

import pytest

from front_desk.desk import Desk
from front_desk.test_days import TITLES

EXITS = {
    "lebt (Stand 2024)": "",
    "im Bestand seit 2019": "",
    "alive 2023": "",
    "en vie": "",
    "lebt, ja": "",
    "Zuchttier, verkauft 01.02.2012": "2012-02-01",
    "†": "day unknown",
    "2001": "2001-12-31",
    "lebt nicht mehr": "day unknown",
    "sold 01.01.2012": "2012-01-01",
    "01.01.2012": "2012-01-01",
    "† 3. April 2010": "2010-04-03",
    "sold 01.01.2000": "day unknown",
    "01.01.2000": "day unknown",
    "gekört 2020": "",
    "an Meier, 03.04.2020": "2020-04-03",
}


def test_exits(desk: Desk) -> None:
    """What says that an animal lives is no exit, and a day is read alike with a word before it and without."""
    rows = "".join(f"a{at};F;2001-02-03;;;{text}\n" for at, text in enumerate(EXITS))
    done = desk.take(TITLES + rows)
    left = {line.split(",")[1]: line.split(",")[2] for line in desk.commands() if line.startswith("exit")}
    exits = {row["id"]: left.get(row["number"], row["exit"].partition(":")[0]) for row in desk.table("book/ids.csv")}
    assert [exits[f"a{at}"] for at, _ in enumerate(EXITS)] == list(EXITS.values())
    done.tells(
        "line 14: a12: its exit is left out: the day in 'sold 01.01.2000' would be before its birth; the animal counts "
        "as gone",
        "line 15: a13: its exit is left out: 01.01.2000 is before its birth; the animal counts as gone",
    )
    done.shows(
        "to look at: a day, a month or a year beside words that tell of no exit stands in 1 of 11 cells that tell of an "
        "exit in the column 'exit', the first in line 17: 'an Meier, 03.04.2020': each counts as an exit then; where "
        "the animal hasn't left, write nothing or alive, lebt or vivant"
    )
    assert "can't be read" not in done.out


def test_exit_whose_day_the_book_has(desk: Desk) -> None:
    """A month or a year leaves it as it is, as it leaves a birth day; another one, or the book's month, gives way."""
    rows = TITLES + "a;F;2001-01-01;;;{}\nb;F;2001-01-02;;;{}\n"
    desk.take(rows.format("2020-05-06", "05.2020"))
    for cell in "2020", "sold in 05.2020":
        done = desk.take(rows.format(cell, "2020"))
        done.tells("line 2: a: inferred: exit on 2020-05-06, as in the book, since its cell gives none")
        assert " 2 inferred" in done.last
        assert exit_days(desk) == ["2020-05-06", "2020-12-31"]
    desk.take(rows.format("04.2020", "2020"))
    assert exit_days(desk) == ["2020-04-30", "2020-12-31"]


def exit_days(desk: Desk) -> list[str]:
    return [line.split(",")[2] for line in desk.commands() if line.startswith("exit")]


@pytest.mark.parametrize("cell", ["01.01.2012", "sold 01.01.2012"])
def test_exit_before_offspring(desk: Desk, cell: str) -> None:
    """An exit that is refused costs that cell."""
    done = desk.take(TITLES + f"a;F;2001-01-01;;;{cell}\nb;F;2014-01-01;;a;\n")
    assert "2 animals" in done.last
