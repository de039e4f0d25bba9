"""Columns of castrations beside that of the sexes, as `Kastriert am`."""
from __future__ import annotations

import pytest

from front_desk.desk import Desk
from front_desk.test_unsure_sexes import sex_of
from gudokeyi.ingest.castrations import says_castrated

TITLES = "Ohrmarke;Name;Geschlecht;Geburt;Vater;Mutter;{}\n"
PARENTS = "1;Anna;w;01.03.2015;;;{}\n2;Bert;m;02.03.2015;;;{}\n"
KID = "{};{};{};02.03.2018;2;1;{}\n"


def rows(parents: tuple[str, str], *kids: tuple[str, str]) -> str:
    """The parents with these cells, and offspring with these sexes and cells."""
    return PARENTS.format(*parents) + "".join(KID.format(at, chr(64 + at), *one) for at, one in enumerate(kids, 3))


@pytest.mark.parametrize("title", ["Kastriert am", "Date castrated", "Castrated on", "Castré le", "kastriert"])
def test_days(desk: Desk, title: str) -> None:
    """A day, a month, a year or a yes says that a male is castrated; the column counts as read, and nothing changes by
    the same list again."""
    kids = ("m", "3.3.2019"), ("m", "3/2019"), ("Bock", "2019"), ("m", "x"), ("m", "5.3.20"), ("m", "nein"), ("m", "")
    sheet = TITLES.format(title) + rows(("", ""), *kids)
    done = desk.take(sheet)
    done.tells(
        f"to look at: the column '{title}' says that 5 males are castrated whose sexes don't: they count as castrated, "
        "without the days"
    )
    assert "not read" not in done.out and "isn't read" not in done.told
    assert [sex_of(desk, id) for id in "23456789"] == ["male", *["male, castrated"] * 5, "male", "male"]
    assert " 0 new, 0 changed" in desk.take(sheet).last
    done = desk.take(sheet.replace("m;02.03.2018;2;1;nein", "m;02.03.2018;2;1;1.2.2021"))
    assert "changed: castrated 1" in done.out and sex_of(desk, "8") == "male, castrated"


def test_said_by_the_sex_too(desk: Desk) -> None:
    """Such a male isn't told, nor is a word among remarks where the column says it."""
    males = ("Wallach", "3.3.2019;"), ("m", "2019;kastriert 2019")
    done = desk.take(TITLES.format("Kastriert am;Bemerkung") + rows(("", ""), *males))
    done.tells(
        "to look at: the column 'Kastriert am' says that 1 male is castrated whose sex doesn't: it counts as "
        "castrated, without the day"
    )
    assert "isn't read for sexes" not in done.told and sex_of(desk, "3") == sex_of(desk, "4") == "male, castrated"


def test_females(desk: Desk) -> None:
    """A female stays one, and an animal without a sex isn't castrated: both are told."""
    kids = ("w", "5.4.2020"), ("", "6.4.2020"), ("m", "7.4.2020")
    sheet = TITLES.format("Kastriert am") + rows(("4.4.2020", ""), *kids)
    done = desk.take(sheet)
    done.tells(
        "to look at: the column 'Kastriert am' says that 2 females are castrated, the first '4.4.2020' in line 2: they "
        "stay females; if one is a castrated male, write that as its sex, as male castrated",
        "to look at: the column 'Kastriert am' says that 1 animal is castrated whose sex no cell says, '6.4.2020' in "
        "line 5: it counts as not castrated; write its sex, as male castrated",
    )
    assert [sex_of(desk, id) for id in "135"] == ["female", "female", "male, castrated"]
    assert "castrated" not in sex_of(desk, "4")
    # of bitches it is said in one column with dogs
    both = desk.take(sheet.replace("Kastriert am", "Neutered"), "--book", "two")
    assert "females are castrated" not in both.told and "says that 1 male is castrated" in both.told


def test_sires(desk: Desk) -> None:
    """Offspring of a castrated male are told that he can't have begotten before that day."""
    sheet = TITLES.format("Kastriert am") + rows(("", "{}"), ("w", ""), ("w", ""))
    for text in "3.3.2018", "20.3.17", "2017":
        assert "sire of" not in desk.take(sheet.format(text)).told
    for text in "20.1.17", "12/2016", "x":
        done = desk.take(sheet.format(text))
        done.tells(f"line 3: 2: to look at: it is the sire of 3 (line 4) and of 1 more, and 'Kastriert am' says '{text}'")
    assert "male, castrated" in desk.good("show", "2").out


def test_other_cells(desk: Desk) -> None:
    """A cell that says neither is told; a column of other texts stays one that isn't read."""
    kids = ("m", "3.3.2019"), ("m", "2020"), ("m", "bei Dr. Huber"), ("m", "nein")
    done = desk.take(TITLES.format("Kastriert am") + rows(("", ""), *kids))
    done.tells(
        "to look at: the column 'Kastriert am' says that 2 males are castrated whose sexes don't: they count as "
        "castrated, without the days; another cell of it tells of no castration: 'bei Dr. Huber' in line 6"
    )
    assert sex_of(desk, "5") == "male"
    texts = ("m", "Dr. Huber"), ("m", "Dr. Meier"), ("m", "2020")
    done = desk.take(TITLES.format("Kastriert am") + rows(("", ""), *texts), "--book", "two")
    assert "not read: 'Kastriert am'" in done.out and "castrated" not in desk.good("show", "5", "--book", "two").out


@pytest.mark.parametrize(
    "text",
    ["3.3.2099", "soll 5/2020", "geplant 2020", "nicht 2020", "to be castrated 2020", "Dr. Huber", "nein", "-", "0"],
)
def test_not_castrated(text: str) -> None:
    assert not says_castrated(text)


@pytest.mark.parametrize(
    "text", ["Mai 2020", "vor 2020", "5/19", "ca. 2018", "2020 (Dr. Huber)", "kastriert", "45123", "Ja"]
)
def test_castrated(text: str) -> None:
    assert says_castrated(text)
