"""Places to which animals go that leave, short forms for exits, and words with a day that aren't known."""
from __future__ import annotations

import pytest

from gudokeyi.ingest.exit_places import place_of_exit
from front_desk.desk import Desk

TITLES = "Tag;Name;Sex;DOB;Sire;Dam;Owner;"
PAIR = "a1;Ann;f;2015-03-01;;;Daly;lebt\na2;Ben;m;2015-03-02;;;Daly;alive\n"
LIVING = "".join(f"c{at};Eva;f;2018-03-13;a2;a1;Daly;alive\n" for at in range(4))
AWAY = "on an exit that isn't known"


def left(desk: Desk, id: str) -> str:
    """The day on which an animal left, or that this isn't known; nothing where it lives."""
    days = {line.split(",")[1]: line.split(",")[2] for line in desk.commands() if line.startswith("exit")}
    said = {row["id"]: row["exit"] for row in desk.table("book/ids.csv")}
    return days.get(desk.numbers()[id], AWAY if said[id].startswith("day unknown") else "")


@pytest.mark.parametrize(("text", "day"), [
    ("Factory 29/01/2023", "2023-01-29"), ("knackery", AWAY), ("Mart", AWAY), ("TB reactor 5-Nov-22", "2022-11-05"),
    ("d. 12.1.19", "2019-01-12"), ("Off farm 14/2/19", "2019-02-14"), ("moved out 14/2/19", "2019-02-14"),
    ("meat works 3.4.2022", "2022-04-03"), ("Mart Kenmare 12/10/22", "2022-10-12"), ("Schlachthof Wels 3.4.2022", "2022-04-03"),
    ("TKV", AWAY), ("Tierkörperverwertung 3.4.2022", "2022-04-03"), ("équarrissage", AWAY), ("à l'abattoir", AWAY),
    ("marché 3/4/2022", "2022-04-03"),
])  # fmt: skip
def test_places_in_a_column_of_states(desk: Desk, text: str, day: str) -> None:
    """A place of slaughter or sale tells there that the animal left."""
    done = desk.take(TITLES + "Status\n" + PAIR + f"a3;Cal;m;2018-03-13;a2;a1;Daly;{text}\n")
    assert left(desk, "a3") == day and "tells of something other than an exit" not in done.told


@pytest.mark.parametrize(
    "text",
    [
        "ex mart", "bought at mart", "for factory", "Martha", "factory tested", "Mart champion 2022", "mart 3/4/22 unsold",
        "reactor, retest clear 3/4/22", "Off farm grazing 3/4/22", "Factory visit 3/4/22", "moved out", "d. h.", "non reactor",
        "moved out to the hill", "Factory Lane", "returned from mart 3/4/2022",
    ],
)  # fmt: skip
def test_other_states(text: str) -> None:
    assert not place_of_exit(text)


def test_words_with_a_day_that_are_not_known(desk: Desk) -> None:
    """They are told by name, with all lines, apart from those that tell of something else."""
    cells = "Zirkus 3.4.2022", "on loan 5.5.2021", "pet only", "Wanderschau 5.6.2022", "Zirkus 3.4.2022"
    rows = "".join(f"b{at};Cal;m;2018-03-13;a2;a1;Daly;{cell}\n" for at, cell in enumerate(cells))
    done = desk.take(TITLES + "Status\n" + PAIR + rows + LIVING)
    done.tells(
        "to look at: 3 cells of the column 'Status' have a day beside words that aren't known to tell of an exit, the "
        "first in line 4, the others in 7, 8: 'Zirkus 3.4.2022', 'Wanderschau 5.6.2022': these animals count as living, "
        "and what the cells say is kept as notes; if one has left, write the day alone, or a word such as sold, verkauft "
        "or vendu before it",
        "to look at: 2 cells of the column 'Status' tell of something other than exits, the first in line 5: 'on loan "
        "5.5.2021', 'pet only': these animals stay, and what the cells say is kept as notes; if one has left, write a day, "
        "or a word such as sold, verkauft or vendu",
    )
    assert not any(left(desk, f"b{at}") for at in range(5))


def test_one_word_with_a_day_beside_exits(desk: Desk) -> None:
    """The same of a status beside the column of the exits."""
    rows = "a3;Cal;m;2018-03-13;a2;a1;Daly;;Zirkus 3.4.2022\na4;Dan;m;2018-03-13;a2;a1;Daly;3.3.2021;dead\n"
    pair = PAIR.replace("lebt", ";lebt").replace("alive", ";alive")
    done = desk.take(TITLES + "Exit;Status\n" + pair + rows)
    assert "1 cell of the column 'Status' has a day beside words that aren't known to tell of an exit, in line 4" in done.out
    assert not left(desk, "a3")


@pytest.mark.parametrize("text", ["eing.", "ausg.", "gestochen", "abg.", "verend.", "geschl."])
def test_short_forms_in_a_column_of_exits(desk: Desk, text: str) -> None:
    """With a day or without one they are words for exits."""
    rows = f"a3;Cal;m;2018-03-13;a2;a1;Daly;{text}\na4;Dan;m;2018-03-13;a2;a1;Daly;{text} 3.4.2022\n"
    done = desk.take(TITLES + "Abgang\n" + PAIR + rows)
    assert left(desk, "a3") == AWAY and left(desk, "a4") == "2022-04-03"
    told = "an exit without a day stands in 1 of 2 cells that tell of an exit in the column 'Abgang', the first in line 4: "
    assert f"{told}'{text}'" in done.out
    assert "tell of no exit" not in done.told and "can't be read" not in done.told


def test_short_forms_in_a_column_of_states(desk: Desk) -> None:
    """There `eing.` may be eingetragen."""
    desk.take(TITLES + "Status\n" + PAIR + "a3;Cal;m;2018-03-13;a2;a1;Daly;eing.\n")
    assert not left(desk, "a3")
