"""Rows whose sire is a female of the list and whose dam is a male."""
from __future__ import annotations

import pytest

from front_desk.desk import Desk

LIST = """id;name;sex;birth;sire;dam
J1;Quarto;M;2010-03-12;;
J2;Ortie;F;2010-04-14;;
J3;Perle;F;2014-06-05;J1;J2
J4;Lise;F;2015-03-15;J1;J2
"""
TOLD = (
    "line 6: J5: its sire and dam may be swapped: J2, which stands as its sire, is female, and J1, which stands as its dam, "
    "is male: both are left out, and count as unknown; write each in its own column"
)


@pytest.mark.parametrize(("sire", "dam"), [("J2", "J1"), ("Ortie", "Quarto"), ("J2", "Quarto")])
def test_exchanged_parents(desk: Desk, sire: str, dam: str) -> None:
    """Both are told in one line, and no parent is added for them."""
    sheet = LIST + f"J5;Lila;F;2016-03-15;{sire};{dam}\n"
    done = desk.take(sheet)
    done.tells(TOLD)
    assert desk.parents()["J5"] == ("", "") and " 0 added" in done.last
    assert "refusal" not in done.told and "is J2 meant" not in done.told
    assert " 0 changed" in desk.take(sheet).last


@pytest.mark.parametrize("row", ["J5;Lila;F;2016-03-15;J1;J2", "J5;Lila;F;2016-03-15;J2;", "J5;Lila;F;2016-03-15;J2;J3"])
def test_other_parents(desk: Desk, row: str) -> None:
    assert "swapped" not in desk.take(LIST + row + "\n").told


def test_two_wrong_sexes(desk: Desk) -> None:
    """Two that stand so in all rows have wrong sexes, which are mended."""
    desk.take(LIST.replace("J1;Quarto;M", "J1;Quarto;F").replace("J2;Ortie;F", "J2;Ortie;M"))
    assert desk.parents()["J3"] == desk.parents()["J4"] == ("J1", "J2")


def test_exchanged_columns(desk: Desk) -> None:
    """That is told as before."""
    rows = "".join(f"K{at};;F;2016-03-{at};J2;J1\n" for at in range(10, 25))
    done = desk.take(LIST + rows, "--anyway")
    assert "may be swapped: J2" not in done.told
