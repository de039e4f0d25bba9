"""Any one change is taken back, as a new change, where nothing later stands on it; else what does is said, and goes
with it where somebody wishes that."""
from __future__ import annotations

import pytest

from front_desk.desk import Desk

SHEET = """\
id,name,sex,birth,sire,dam,owner,exit
S1,Sultan,M,2015-03-01,,,Oak,
D1,Dora,F,2016-03-01,,,Oak,
A1,Anna,F,2018-03-01,S1,D1,Oak,
A2,Alf,M,2019-03-05,S1,D1,Mill,
"""


@pytest.fixture
def goats(desk: Desk) -> Desk:
    """With an animal corrected, one that left, one born, and that one corrected and given on."""
    desk.take(SHEET)
    desk.good("correct", "A1", "--name", "Annabell", "--born", "2018-03-02")
    desk.good("exit", "A2", "--day", "2020-01-01")
    desk.good("birth", "B1", "--sex", "f", "--day", "2021-04-01", "--dam", "A1", "--owner", "Oak")
    desk.good("correct", "B1", "--id", "B 7", "--name", "Bella")
    desk.good("transfer", "B 7", "--day", "2021-08-01", "--to", "New Farm")
    return desk


def animals(desk: Desk) -> dict[str, str]:
    rows = desk.listed("list", "--columns", "id,name,birth,exit")
    return {row["id"]: f"{row['name']} {row['birth']} {row['exit']}".strip() for row in rows}


def test_one(goats: Desk) -> None:
    """All other changes stay; the history tells of it, and it can be taken back in its turn."""
    before = animals(goats)
    for change, id, there in ((2, "A1", "Anna 2018-03-01"), (3, "A2", "Alf 2019-03-05")):
        state, commands = animals(goats), goats.commands()
        goats.good("undo", "--change", str(change))
        assert animals(goats) == {**state, id: there}
        assert goats.commands() != commands
        goats.good("verify")
    assert "it was taken back by change 7" in goats.good("history", "2").out
    assert "took back change 2" in goats.good("history").out
    goats.wrong("change 2 changed nothing that the book has now", "undo", "--change", "2")
    goats.good("undo", "--change", "7")
    goats.good("undo", "--change", "8")
    assert animals(goats) == before
    assert "taken back" not in goats.good("history", "2").out


def test_stood_on(goats: Desk) -> None:
    """What stands on a change is named, and goes with it; nothing else does."""
    goats.good("correct", "D1", "--name", "Dorothea")
    goats.wrong("later changes stand on change 4: 5, 6", "undo", "--change", "4")
    goats.wrong("say --with-later to take these back too", "undo", "--change", "5")
    goats.good("undo", "--change", "5", "--with-later")
    assert animals(goats)["B1"] == "2021-04-01" and "B 7" not in animals(goats)
    goats.good("undo", "--change", "4")
    assert {*animals(goats)} == {"S1", "D1", "A1", "A2"} and animals(goats)["D1"].startswith("Dorothea")
    goats.good("verify")
    # the id is free again
    goats.good("birth", "B1", "--sex", "m", "--day", "2022-04-01", "--dam", "A1")
    goats.good("verify")


def test_refused(goats: Desk) -> None:
    """What the register would refuse stands on it too."""
    goats.good("correct", "A1", "--born", "2016-06-01", "--dam", "0")
    goats.good("birth", "B2", "--sex", "m", "--day", "2017-04-01", "--dam", "A1")
    goats.wrong("later changes stand on change 7: 8", "undo", "--change", "7")
    goats.good("undo", "--change", "7", "--with-later")
    assert animals(goats)["A1"].startswith("Annabell 2018-03-02") and "B2" not in animals(goats)
    goats.good("verify")


def test_sheet(goats: Desk) -> None:
    """A sheet is taken back, and what was filed of other animals since stays."""
    goats.take(SHEET.replace("Sultan", "Sulla") + "C1,Cora,F,2020-03-05,S1,D1,Hill,\n")
    goats.good("correct", "D1", "--name", "Dorothea")
    state = animals(goats)
    goats.good("undo", "--change", "7")
    assert "C1" not in animals(goats) and animals(goats)["S1"].startswith("Sultan")
    assert animals(goats)["D1"].startswith("Dorothea") and animals(goats)["B 7"] == state["B 7"]
    goats.good("verify")
