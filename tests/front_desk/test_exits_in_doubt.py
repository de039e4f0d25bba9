"""Exits that are to come or aren't sure, deaths on a day that can't be, and illnesses that are over."""
from __future__ import annotations

import datetime

import pytest

from front_desk.desk import Desk
from front_desk.test_exit_places import AWAY, PAIR, left

TITLES = "Tag;Name;Sex;DOB;Sire;Dam;Owner;Sortie\n"
YEAR = datetime.date.today().year


def taken(desk: Desk, text: str) -> str:
    """What is told of an animal with this text for its exit, and of its exit."""
    dead = "a4;Dan;m;2018-03-14;a2;a1;Daly;3.3.2021\n"
    return desk.take(TITLES + PAIR + dead + f"a3;Cal;m;2018-03-13;a2;a1;Daly;{text}\n").told


@pytest.mark.parametrize(
    "text",
    [
        f"sortie prévue 3/4/{(YEAR + 1) % 100}", f"sortie prévue 3/4/{YEAR + 1}", f"Verkauf geplant 3.4.{(YEAR + 1) % 100}",
        f"planned sale 3/4/{YEAR + 1}", "vente prévue", "soll geschlachtet werden", "soll heuer weg", "to be culled",
        f"wird geschlachtet {YEAR + 1}", f"geht 1/{(YEAR + 1) % 100} an Moser",
        "due 3/4/2022", "piroplasmose 3/4/2022, guérie", "lahm 3.4.2022, geheilt", "mastitis 3/4/2022, recovered",
    ],
)  # fmt: skip
def test_no_exits(desk: Desk, text: str) -> None:
    """An exit that is to come is none, nor is an illness that is over: the animal stays, and the cell is a note."""
    told = taken(desk, text)
    assert f"tells of something other than an exit, in line 5: '{text}': the animal stays" in told
    assert not left(desk, "a3") and "two digits" not in told


@pytest.mark.parametrize("text", ["sortie prévue 3/4/2020", "sortie prévue 3/4/20", "Verkauf geplant 3.4.2020"])
def test_planned_before_today(desk: Desk, text: str) -> None:
    """A planned exit whose day is past is one."""
    taken(desk, text)
    assert left(desk, "a3") == "2020-04-03"


@pytest.mark.parametrize("text", [f"mort le 3/4/{YEAR + 6}", f"† 3.4.{YEAR + 6}", f"slaughtered 3/4/{YEAR + 6}"])
def test_death_after_today(desk: Desk, text: str) -> None:
    """A death was before today, whatever day is written: the animal has left on one that isn't known."""
    told = taken(desk, text)
    assert f"a3: its exit is left out: {text} is after today; the animal counts as gone" in told
    assert left(desk, "a3") == AWAY


@pytest.mark.parametrize("text", [f"vendu le 3/4/{YEAR + 6}", f"3/4/{YEAR + 6}"])
def test_other_exits_after_today(desk: Desk, text: str) -> None:
    """A sale may be to come."""
    told = taken(desk, text)
    assert f"a3: its exit is left out: {text} is after today\n" in told and not left(desk, "a3")


@pytest.mark.parametrize(
    "text",
    [
        "vendu mais toujours chez nous", "verkauft 3.4.2022, noch nicht abgeholt", "sold 3/4/2022 but still here",
        "verk., bleibt bis Jänner",
    ],
)  # fmt: skip
def test_still_there(desk: Desk, text: str) -> None:
    """An exit after which the animal is said to be there isn't sure."""
    assert f"a3: to look at: '{text}' tells of an exit that isn't certain" in taken(desk, text) and left(desk, "a3")
