"""Animals that were born dead: one advice is told of each, and as an exit it is read."""
from __future__ import annotations

import pytest

from front_desk.desk import Desk

TITLES = "Ohrmarke;Name;Geschlecht;geb;Vater;Mutter;Besitzer;Abgang;Bemerkung\n"
PAIR = "001;Max;m;01.02.2010;;;Huber;;\n002;Eva;w;03.02.2010;;;Huber;;\n"
ADVICE = "it counts as living: write stillborn, totgeboren or mort-né into a column for exits"


@pytest.mark.parametrize("word", ["totgeboren", "Totgeburt", "stillborn", "mort-né", "mortinato"])
def test_exit(desk: Desk, word: str) -> None:
    """It left on the day of its birth, also where that day stands behind the word, and it isn't told as unread."""
    rows = f"003;;w;3.2.2013;001;002;Huber;{word};\n004;;w;3.2.2013;001;002;Huber;{word} 3.2.2013;\n"
    done = desk.take(TITLES + PAIR + rows, "--preview")
    assert f"line 4: 003: inferred: exit on 2013-02-03, from '{word} 3.2.2013'" in done.out
    assert "line 5: 004: inferred: exit on 2013-02-03" in done.out and "to look at" not in done.out


def test_exit_without_a_birth_day(desk: Desk) -> None:
    done = desk.take(TITLES + PAIR + "003;Totgeburt;w;2013;001;002;Huber;totgeboren;\n", "--preview")
    assert "exit on 2013-12-31" in done.out and ADVICE not in done.out


@pytest.mark.parametrize("cells", ["003;Totgeburt;w;3.2.2013", "003;Ida;w;3.2.2013 totgeboren"])
def test_one_advice(desk: Desk, cells: str) -> None:
    """A name or a birth that says so advises an exit, and a remark besides isn't told."""
    done = desk.take(TITLES + PAIR + f"{cells};001;002;Huber;;\n", "--preview")
    assert "line 4: 003: to look at: its " in done.out and "column for exits" in done.out
    assert "leave its row out" not in done.out


def test_remark_besides(desk: Desk) -> None:
    done = desk.take(TITLES + PAIR + "003;Totgeburt;w;3.2.2013;001;002;Huber;;totgeboren\n", "--preview")
    assert ADVICE in done.out and "isn't read for exits" not in done.out


@pytest.mark.parametrize("text", ["1 Lamm totgeboren", "had a stillborn lamb 2024", "2 agneaux mort-nés"])
def test_young_of_a_dam(desk: Desk, text: str) -> None:
    """What a status tells of young is no exit of their dam's."""
    titles = TITLES.replace("Bemerkung", "Status")
    rows = "003;;w;3.2.2013;001;002;Huber;;lebt\n004;;w;3.2.2013;001;002;Huber;;" + text + "\n"
    done = desk.take(titles + PAIR.replace(";\n", ";lebt\n") + rows, "--preview")
    assert "tells of an exit" not in done.out and "exit on" not in done.out
