"""The society's own columns that a sheet lacks."""
from __future__ import annotations

from front_desk.desk import Desk

SHEET = "id;name;sex;birth;sire;dam;owner;{}\na;Rosl;f;2019-03-01;;;Huber;Kusel\nb;Ute;f;2019-03-03;;;Weber;Trier\n"
LOST = "to look at: no column 'Ort' is found, which the book keeps and an earlier sheet had: the book keeps what it has"


def test_own_column_with_another_title(desk: Desk) -> None:
    """It is told at each taking, with the title that may be the one, and the columns aren't said to be as before."""
    desk.take(SHEET.format("Ort"), "--own", "Ort=text")
    assert "columns as last time" in desk.take(SHEET.format("Ort")).out
    for _ in range(2):
        done = desk.take(SHEET.format("Wohnort"))
        done.shows(f"{LOST}; if 'Wohnort' is the one, give it that title")
        assert "columns as last time" not in done.out and "not read: 'Wohnort'" in done.out
    desk.take(SHEET.format("Farbe")).shows(LOST)
    assert "no column 'Ort'" not in desk.take(SHEET.format("Ort")).told


def test_own_column_of_no_sheet(desk: Desk) -> None:
    """One whose values were all written by hand isn't missed."""
    desk.take(SHEET.format("Ort").replace(";Kusel", ";").replace(";Trier", ";"), "--own", "Ort=text")
    desk.good("own", "a", "Ort=Kusel")
    done = desk.take(SHEET.format("Farbe"))
    assert "no column" not in done.told and "columns as last time" in done.out
    assert "Kusel" in desk.good("own", "a").out
