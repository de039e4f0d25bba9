"""Rows between animals that are none: what they say of the rows below isn't lost unseen."""
from __future__ import annotations

import pytest

from front_desk.desk import Desk

LEFT_OUT = "reads like a heading or a note, and the row says nothing else"


@pytest.mark.parametrize(
    "male, female", [("Böcke", "Ziegen"), ("DOGS", "BITCHES"), ("--- Hengste ---", "Stuten (2024)")]
)
def test_sections_of_a_sex(desk: Desk, male: str, female: str) -> None:
    """An animal of which another sex is inferred than stands above it is told, and one that is a sire isn't."""
    rows = f"{male};;;;\nA 2;Hans;2015-03-02;;\nA 4;Sepp;2015-03-02;;\n{female};;;;\nA 1;Rosl;2015-03-02;;\n"
    done = desk.take(f"id;name;birth;sire;dam\n{rows}A 3;Kitz;2021-03-02;A 2;A 1\n")
    done.shows(
        f"line 2: to look at: '{male}' stands above A 4 (line 4), whose row says no sex, and it counts as female: "
        f"nothing is "
        "read from such a row; enter male in a column for the sex"
    )
    assert f"'{female}' stands above" not in done.told


def test_section_without_an_id(desk: Desk) -> None:
    """A heading in another column is told with what it says; several animals below it are counted."""
    rows = ";Böcke;;;\nA 2;Hans;2015-03-02;;\nA 4;Sepp;2015-03-02;;\n;Hof Süd;;;\nA 1;Rosl;2015-03-02;;\n"
    done = desk.take(f"id;name;birth;sire;dam\n{rows}")
    done.shows(
        "line 2: the row is left out: it has no id; it says 'Böcke'",
        "line 5: the row is left out: it has no id; it says 'Hof Süd'",
        "to look at: 'Hof Süd' in line 5 stands above animals without an owner (1): nothing is read from such a row; "
        "if it names their owner, enter that in a column for the owners",
        "line 2: to look at: 'Böcke' stands above 2 animals whose rows say no sex, and they count as female, the "
        "first is A 2 (line 3): nothing is read from such a row; enter male in a column for the sex",
    )


def test_sections_of_owners(desk: Desk) -> None:
    """Rows that may name them are told together, where none of the animals below has one."""
    rows = ";Hof Süd;;;;\nA 2;Hans;2015-03-02;;;\n;Hof Nord;;;;\nA 4;Sepp;2015-03-02;;;\nA 1;Rosl;2015-03-02;;;\n"
    done = desk.take(f"id;name;birth;sire;dam;owner\n{rows}")
    done.shows(
        "to look at: 2 rows, the first is 'Hof Süd' in line 2, stand above animals without an owner (3): nothing is "
        "read from such rows; if they name their owners, enter these in a column for the owners"
    )
    owned = rows.replace("2015-03-02;;;", "2015-03-02;;;Huber")
    assert "without an owner" not in desk.take(f"id;name;birth;sire;dam;owner\n{owned}", "--book", "other").told


def test_section_that_is_taken_for_an_animal(desk: Desk) -> None:
    """A row that is written as an id is asked about, and what it says of a sex is told all the same."""
    rows = "Böcke;;;;\nA 2;Hans;2015-03-02;;\nRex;Sepp;2015-03-02;;\nA 4;Udo;2015-03-02;;\n"
    done = desk.take(f"id;name;birth;sire;dam\n{rows}")
    assert "line 2: Böcke: to look at: is this row an animal?" in done.out
    assert "line 2: to look at: 'Böcke' stands above 3 animals whose rows say no sex" in done.out


@pytest.mark.parametrize("heading", ["Ziegen", "Alttiere", "Böcke und Ziegen"])
def test_sections_of_no_sex(desk: Desk, heading: str) -> None:
    """A word for a species tells no sex by itself."""
    rows = f"{heading};;;;\nA 2;Hans;2015-03-02;;\nA 1;Rosl;2015-03-02;;\nA 3;Kitz;2021-03-02;A 2;A 1\n"
    told = desk.take(f"id;name;birth;sire;dam\n{rows}").told
    assert "says no sex" not in told and "say no sex" not in told


def test_sections_of_a_litter(desk: Desk) -> None:
    """What such a row says of those below is told to be lost."""
    rows = "A101;Foo;2012-05-13;;\nA102;Bar;2012-05-13;;\n{};;;;\nA103;Baz;;;\n"
    litter = "Litter whelped 14th June 2022 - Sire: Foo Dam: Bar"
    done = desk.take("id;name;birth;sire;dam\n" + rows.format(litter))
    lost = "; what it says of the rows below isn't read: enter their days, parents and owners in their own cells"
    done.shows(f"line 4: the row is left out: '{litter}' {LEFT_OUT}{lost}")
    done.shows(
        f"line 4: to look at: '{litter}' stands above A103 (line 5), of which nothing shows the birth day: it gets "
        "1900-01-01, the earliest that a book can have; enter its day in its own cell"
    )
    done = desk.take("id;name;birth;sire;dam\n" + rows.format("--- Jahrgang 2020 ---"), "--book", "other")
    done.shows(f"line 4: the row is left out: '--- Jahrgang 2020 ---' {LEFT_OUT}")


@pytest.mark.parametrize("heading", ["Aus dem Herdbuch gelöscht", "DELETED FROM HERD BOOK", "Verstorbene Tiere", "Sorties 2023"])
def test_section_of_exits(desk: Desk, heading: str) -> None:
    """A heading that tells of exits is told with the animals below that live, and one with words for sale isn't."""
    rows = f"A 1;Rosl;2015-03-02;;;\n{heading};;;;;\nA 2;Hans;2015-03-02;;;3.4.2020\nA 3;Sepp;2015-03-02;;;\n"
    done = desk.take(f"id;name;birth;sire;dam;exit\n{rows}", "--preview")
    done.shows(
        f"line 3: to look at: '{heading}' stands above A 3 (line 5), which counts as living: nothing is read from such a "
        "row; if it has left, enter a day, or a word such as sold, verkauft or vendu, in a column for exits"
    )
    done = desk.take(f"id;name;birth;sire;dam;exit\n{rows.replace(heading, 'Zu verkaufen')}", "--preview")
    assert "counts as living: nothing is read" not in done.told
