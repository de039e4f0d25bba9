"""Rows with the id of another animal of the book: two that have each other's, and a tag that was used again."""
from __future__ import annotations

import pytest

from front_desk.desk import Desk

TITLES = "Ohrmarke;Name;Geschlecht;geb;Vater;Mutter;Besitzer;Abgang\n"

TWO = (
    "S1;Sultan;m;1.1.2005;;;Huber;\nS2;Satan;m;1.2.2005;;;Huber;\nD1;Dora;w;1.1.2006;;;Huber;\n"
    "A1;Anna;w;1.3.2010;S1;D1;Huber;\nA2;Berta;w;1.4.{};Satan;;Meier;\nK1;Kalb;w;1.4.2014;S2;A1;Huber;\n"
)


def exchanged(rows: str) -> str:
    return rows.replace("A1;Anna", "A;Anna").replace("A2;Berta", "A1;Berta").replace("A;Anna", "A2;Anna")


@pytest.mark.parametrize("year", [2010, 2011, 2013])
def test_exchanged_ids(desk: Desk, year: int) -> None:
    """Two animals that have each other's ids are asked about once and first, also where their rows are left out; where
    somebody says that they have, each keeps what the book has of it."""
    rows = TWO.format(year)
    desk.take(TITLES + rows)
    numbers, before = desk.numbers(), desk.parents()
    done = desk.take(TITLES + exchanged(rows), "--preview")
    told = (
        "line 5: A2: to look at: did it exchange its id with A1 (line 6)? Each has the name, the birth day and the "
        "parents of the other: until now 'Anna' was A1, and 'Berta' A2; "
    )
    lines = done.out.splitlines()
    assert lines[0].startswith(told) and done.out.count("exchange its id") == 1
    assert ("each becomes the other" in lines[0]) == ("name: Anna, before Berta" in done.out) == (year == 2010)
    command = done.commands()[0]
    # offspring by the ids that their cells have
    assert ", 0 new, 1 changed, 1 inferred, 0 left out" in desk.typed(command.replace(" --preview", "")).last
    assert desk.numbers() == numbers | {"A1": numbers["A2"], "A2": numbers["A1"]}
    assert desk.parents() == before | {"A1": before["A2"], "A2": before["A1"]}
    assert "id A2, before A1" in desk.good("show", "A2").out and "dam           A1  Berta" in desk.good("show", "K1").out
    # said again it isn't done again
    done = desk.take(TITLES + exchanged(rows), "--new-tag", "A2=A1,A1=A2")
    assert " 0 new, 0 changed" in done.last and "exchange its id" not in done.out
    desk.good("verify")
    desk.good("undo", "--to", "1")
    assert desk.numbers() == numbers and desk.parents() == before
    desk.wrong("the book has another animal with the id A2", "import", "sheet.csv", "--new-tag", "A1=A2")
    desk.wrong("the book has another animal with the id X", "import", "sheet.csv", "--new-tag", "A1=X,A2=X")


@pytest.mark.parametrize(
    "first, later",
    [
        # names alone, of rows that stay what they are, and of twins
        (TWO.format(2010), TWO.format(2010).replace("Anna", "B").replace("Berta", "Anna").replace(";B;", ";Berta;")),
        ("T1;Eva;w;1.3.2010;;;;\nT2;Uta;w;1.3.2010;;;;\n", "T1;Uta;w;1.3.2010;;;;\nT2;Eva;w;1.3.2010;;;;\n"),
        # one has the values of the other, and that one has its own
        (TWO.format(2010), TWO.format(2010).replace("A2;Berta;w;1.4.2010;Satan;;", "A2;Anna;w;1.3.2010;S1;D1;")),
        # other parents than in the book
        (TWO.format(2010), exchanged(TWO.format(2010)).replace("Satan;;Meier", "S1;;Meier")),
    ],
)  # fmt: skip
def test_no_exchanged_ids(desk: Desk, first: str, later: str) -> None:
    desk.take(TITLES + first)
    assert "exchange its id" not in desk.take(TITLES + later).told


def test_exchanged_parents(desk: Desk) -> None:
    """Also where one is the other's dam, by the id that she has now or had; of one the month of birth is known."""
    rows = "S1;Sultan;m;1.1.2005;;;;\nA1;Anna;w;03.2010;S1;;;\nA2;Berta;w;1.4.2011;S1;A1;;\n"
    desk.take(TITLES + rows)
    for dam in "A1", "A2":
        done = desk.take(TITLES + exchanged(rows).replace("S1;A1", f"S1;{dam}"), "--preview")
        assert done.out.startswith("line 3: A2: to look at: did it exchange its id with A1 (line 4)?")


LAMBS = (
    "S1;Max;m;1.3.2017;;;Huber;\nD1;Alma;w;2.3.2017;;;Huber;\nD2;Berta;w;3.3.2017;;;Huber;\n"
    "Lamm 1;Lola;w;16.3.2025;Max;Berta;Huber;\nLamm 2;Lisi;w;16.3.2025;Max;Berta;Huber;\n"
)
MINI = "Lamm 1;Mini;w;20.4.2025;Max;Alma;Huber;"


def test_tag_of_another(desk: Desk) -> None:
    """A row with another name, birth day and dam than the book's animal is told before what it changes, and taken."""
    desk.take(TITLES + LAMBS)
    later = LAMBS.replace("Lamm 1;Lola;w;16.3.2025;Max;Berta;Huber;", MINI)
    told = (
        "line 5: Lamm 1: to look at: is it another animal that got the tag of one of the book? There it is 'Lola', "
        "born 2025-03-16, here 'Mini', born 2025-04-20, of other parents"
    )
    for options in ("--preview",), ():
        done = desk.take(TITLES + later, *options)
        assert done.out.startswith(f"{told}: if so, undo this, and give this one an id of its own; as it stands it ")
        assert done.out.count("got the tag of") == 1 and " 0 new, 1 changed" in done.last
    # taken once, it is as in the book
    assert "got the tag of" not in desk.take(TITLES + later).told
    desk.good("undo", "--to", "1")
    # where the other one is now
    done = desk.take(TITLES + later + "CH 7;Lola;w;16.3.2025;Max;Berta;Huber;\n", "--preview")
    assert done.out.startswith(f"{told} (line 7 has 'Lola' as CH 7): if so")


@pytest.mark.parametrize(
    "later",
    [
        # a name, a name and a day, a day and a dam, twins, a parent that wasn't known, a day that isn't
        "Lamm 1;Mini;w;16.3.2025;Max;Berta;Huber;", "Lamm 1;Mini;w;20.4.2025;Max;Berta;Huber;",
        "Lamm 1;Lola;w;20.4.2025;Max;Alma;Huber;", "Lamm 1;Mini;w;18.3.2025;Max;Alma;Huber;",
        "Lamm 1;Mini;w;20.4.2025;Max;;Huber;", "Lamm 1;Mini;w;2026;Max;Alma;Huber;",
        # each the other's
        "Lamm 1;Mini;w;16.4.2025;Max;Alma;Huber;\nLamm 2;Lola;w;16.3.2025;Max;Berta;Huber;",
    ],
)  # fmt: skip
def test_no_tag_of_another(desk: Desk, later: str) -> None:
    first = LAMBS
    if "Lamm 2" in later:
        first = LAMBS.replace("Lisi;w;16.3.2025;Max;Berta", "Mini;w;16.4.2025;Max;Alma")
    desk.take(TITLES + first)
    rows = [row for row in first.splitlines(keepends=True) if not row.startswith(("Lamm 1", later.split("\n")[-1][:6]))]
    done = desk.take(TITLES + "".join(rows) + later + "\n")
    assert "got the tag of" not in done.told and ("exchange its id" in done.told) == ("Lamm 2" in later)


NEXT = (
    "line 5: Lamm 1: the row is left out: the book has this id for another animal ('Lola', born 2025-03-16; here "
    "'{}', born {}){}: if the tag was used again, give this one an id of its own, also where its offspring name it"
)


@pytest.mark.parametrize("name, day", [("Mini", "20.03.2026"), ("Lora", "12.05.2025"), ("Nola", "27.04.2025")])
def test_tag_used_again_within_two_years(desk: Desk, name: str, day: str) -> None:
    """With another name and another birth day, weeks apart at least, it is another animal: the first one stays, with
    its offspring."""
    lamb = "L3;Lina;w;1.10.2026;Max;Lamm 1;Huber;\n"
    desk.take(TITLES + LAMBS + lamb)
    later = LAMBS.replace("Lola;w;16.3.2025", f"{name};w;{day}") + lamb
    born = "-".join(reversed(day.split(".")))
    is_other = name != "Lora"
    for options in ("--preview",), ():
        done = desk.take(TITLES + later, *options)
        named = "; as a parent in line 7 it means the first"
        assert (NEXT.format(name, born, named) in done.out) == is_other
        assert (", 0 changed" in done.last, "1 left out (1 row)" in done.last) == (is_other, is_other)
    assert desk.born()["Lamm 1"] == ("2025-03-16" if is_other else born)
    if is_other:
        desk.typed(desk.take(TITLES + later).commands()[0])
        assert desk.born()["Lamm 1"] == born
        assert "row is left out" not in desk.take(TITLES + later).told


@pytest.mark.parametrize(
    "lamb",
    [
        # a name, a day, a name that is mistyped or longer, a day near, a month, without a name
        "Mini;w;16.3.2025", "Lola;w;20.3.2026", "Lolla;w;20.3.2026", "Lola II;w;20.3.2026", "Lola vom Hof;w;20.3.2026",
        "Mini;w;20.4.2025", "Mini;w;3.2026", ";w;20.3.2026",
    ],
)  # fmt: skip
def test_corrected_name_or_birth(desk: Desk, lamb: str) -> None:
    """One of both alone is a correction."""
    desk.take(TITLES + LAMBS)
    done = desk.take(TITLES + LAMBS.replace("Lola;w;16.3.2025", lamb))
    assert "has this id for another" not in done.told and " 1 changed" in done.last


@pytest.mark.parametrize("field, value", [("--name", "Mini"), ("--born", "2026-03-20")])
def test_corrected_by_hand_is_no_other_animal(desk: Desk, field: str, value: str) -> None:
    """A name or a day that somebody corrected in the book stays, where the list still has the old one."""
    desk.take(TITLES + LAMBS)
    desk.good("correct", "Lamm 1", field, value)
    other = LAMBS.replace("Lola;w;16.3.2025", "Lola;w;20.3.2026" if field == "--name" else "Mini;w;16.3.2025")
    assert "has this id for another" not in desk.take(TITLES + other).told


def test_tag_twice_within_two_years(desk: Desk) -> None:
    """Two rows of one tag with other names and birth days, a year apart, are told as two animals."""
    desk.take(TITLES + LAMBS + "Lamm 1;Mini;w;20.3.2026;Max;Alma;Huber;\nL3;Lina;w;1.10.2026;Max;Lamm 1;Huber;\n").tells(
        "line 7: Lamm 1: the row is left out: line 5 has this id for another animal ('Lola', born 2025-03-16; here "
        "'Mini', born 2026-03-20), which is taken since it was born first; as a parent in line 8 it means the first: if "
        "the tag was used again, give this one an id of its own, also where its offspring name it"
    )
    assert desk.born()["Lamm 1"] == "2025-03-16"
