"""Exits that a sheet's mistake made impossible: they are tried again at each taking, and come back when it is
mended."""
from __future__ import annotations

import pytest

from front_desk.desk import Desk

SHEET = "id,name,sex,birth,sire,dam,owner,exit\nA2,Max,m,2001-04-01,,,Mill,\nA3,Cid,f,2014-12-01,A2,,Mill,\n"
TYPO, OTHER = (SHEET.replace("2014-12-01", day) for day in ("2015-12-01", "2016-12-01"))


@pytest.mark.parametrize("cell", ["", "sold"])
def test_exit_by_hand(desk: Desk, cell: str) -> None:
    """It comes back with the birth day, or with another one that allows it. Nothing says that it stays where it is
    left out."""
    sheet, typo, other = (one.replace("A2,,Mill,", f"A2,,Mill,{cell}") for one in (SHEET, TYPO, OTHER))
    desk.take(SHEET)
    desk.good("exit", "A3", "--day", "2015-01-01")
    if cell:
        desk.take(sheet)
    left_out = (
        "line 3: A3: its exit on 2015-01-01 is left out: the day is before its birth, or before its owner got it "
        "(refusal 14); the animal counts as gone"
    )
    done = desk.take(typo)
    done.tells(left_out)
    assert "as filed by hand" not in done.told and "as in the book" not in done.told
    for text in typo, other:
        done = desk.take(text)
        assert left_out not in done.told and "as filed by hand" not in done.told and "exit: " not in done.told
    mended = desk.take(sheet.replace("2014-12-01", "2014-12-31"))
    assert mended.told.count("A3: changed: exit: 2015-01-01, before day unknown") == 1
    assert desk.commands()[-1].startswith("exit,HOLGBRF000000000002,2015-01-01,") and "its exit on" not in mended.told
    assert " 0 new, 0 changed" in desk.take(sheet.replace("2014-12-01", "2014-12-31")).last


def test_exits_that_the_society_changed_meanwhile(desk: Desk) -> None:
    """Another exit by hand holds, and the cell of a sheet that says another day, or that it is none."""
    desk.take(SHEET)
    desk.good("exit", "A3", "--day", "2015-01-01")
    desk.take(TYPO)
    desk.good("exit", "A3", "--day", "2016-01-01")
    desk.take(SHEET)
    assert desk.commands()[-1].startswith("exit,HOLGBRF000000000002,2016-01-01,")
    desk.good("undo", "--to", "3")
    desk.take(SHEET.replace("A2,,Mill,", "A2,,Mill,2017-01-01"))
    desk.take(SHEET)
    assert not desk.commands()[-1].startswith("exit")


def test_exit_of_a_sheet_before_a_mistyped_birth(desk: Desk) -> None:
    """It is left out, and one line tells it; the mended row has it again, as has one without the column."""
    sheet = SHEET.replace("A2,,Mill,", "A2,,Mill,2015-01-01")
    desk.take(sheet)
    done = desk.take(sheet.replace("2014-12-01", "2015-12-01"))
    done.tells("line 3: A3: its exit is left out: 2015-01-01 is before its birth; the animal counts as gone")
    assert done.told.count("is left out") == 2 and "as in the book" not in done.told
    assert " 1 left out" in done.last
    desk.take("id,birth,sire,dam\nA2,2001-04-01,,\nA3,2014-12-01,A2,\n")
    assert desk.commands()[-1].startswith("exit,HOLGBRF000000000002,2015-01-01,")
    desk.take(sheet.replace("2014-12-01", "2015-12-01"))
    assert "is left out" not in desk.take(sheet).told and desk.commands()[-1].startswith("exit,")
