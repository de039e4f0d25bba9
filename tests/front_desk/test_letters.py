"""The letters with which numbers begin: an animal's stay, and new ones have those that are set, or the book's."""
from __future__ import annotations

from front_desk.desk import Desk

SHEET = "id,name,sex,birth,sire,dam\nA1,Ada,f,2001-03-01,,\nA2,Max,m,2001-04-01,,\n"
LATER = f"{SHEET}A3,Cid,f,2004-12-01,A2,A1\n"


def letters(desk: Desk) -> dict[str, str]:
    return {id: number[:6] for id, number in desk.numbers().items()}


def test_import_by_hand(desk: Desk) -> None:
    """An import keeps letters of its own when the next sheet comes, and gives them to no other animal."""
    desk.take(SHEET, "--breed", "SKU", "--country", "DEU")
    desk.good("birth", "I1", "--sex", "m", "--day", "2020-01-01", "--breed", "FRI", "--country", "NLD")
    desk.good("birth", "I2", "--sex", "f", "--day", "2021-01-01", "--dam", "A1")
    assert "written anew" not in desk.take(LATER).out
    assert letters(desk) == {"I1": "FRINLD"} | {id: "SKUDEU" for id in ("A1", "A2", "A3", "I2")}


def test_settings(desk: Desk) -> None:
    """They are for new numbers alone, by hand and of a sheet. What `take` itself is given changes all, which is
    told."""
    desk.take(SHEET, "--breed", "SKU", "--country", "DEU")
    desk.good("settings", "--breed", "SKB")
    desk.good("birth", "I1", "--sex", "m", "--day", "2020-01-01")
    done = desk.take(LATER)
    assert "written anew" not in done.out and "number" not in done.told.replace("with the number SKBDEU", "")
    wanted = {"A1": "SKUDEU", "A2": "SKUDEU", "I1": "SKBDEU", "A3": "SKBDEU"}
    assert letters(desk) == wanted
    pedigree = desk.write("p.txt", "id sire dam\nA4 A2 A1\n")
    desk.good("import", "--pedigree", pedigree)
    assert letters(desk) == wanted | {"A4": "SKBDEU"}
    done = desk.take(LATER, "--country", "CHE")
    assert "changed: number 5\n" in done.out and "written anew" in done.out
    wanted = {id: f"{begin[:3]}CHE" for id, begin in letters(desk).items()}
    assert letters(desk) == wanted and {*wanted.values()} == {"SKUCHE", "SKBCHE"}


def test_undone(desk: Desk) -> None:
    """An animal that comes back to an empty book has its letters again, and new ones have those that are set; without
    these they have the first number's that was there."""
    desk.take(SHEET, "--breed", "SKU", "--country", "DEU")
    desk.good("undo", "--to", "0")
    desk.good("birth", "I1", "--sex", "m", "--day", "2020-01-01")
    assert letters(desk) == {"I1": "SKUDEU"}
    desk.good("undo")
    desk.good("settings", "--breed", "SKB", "--country", "CHE")
    assert "numbers begin with SKUDEU" in desk.take(LATER).out
    assert letters(desk) == {"A1": "SKUDEU", "A2": "SKUDEU", "A3": "SKBCHE"}
    desk.good("undo", "--to", "0")
    # what is set needn't be told
    assert "numbers begin" not in desk.take(SHEET.replace("\nA", "\nB")).out
    assert letters(desk) == {"B1": "SKBCHE", "B2": "SKBCHE"}
