"""Columns beside that of the births: years of births, and the days, months and years of births in three columns."""
from __future__ import annotations

import json

import pytest

from front_desk.desk import Desk

YEARS = "Ohrmarke;Name;Geschlecht;{};Geburtsdatum;Vater;Mutter;Besitzer\n"
ROWS = (
    "1;Anna;w;2015;01.03.2015;;;Meier\n2;Bert;m;2015;02.03.15;;;Meier\n3;Cora;w;2018;02.03.2017;2;1;Meier\n"
    "4;Dora;w;2019;;2;1;Meier\n5;Emma;w;ca. 2020;unbekannt;2;1;Meier\n6;Fine;w;?;;2;1;Meier\n7;Gala;w;2019;2.3.18;2;1;Meier\n"
)


def births(desk: Desk) -> dict[str, str]:
    return {id: json.loads(desk.good("show", id, "--json").out)["animal"]["born"] for id in "123456"}


@pytest.mark.parametrize("title", ["Geburtsjahr", "Jahrgang", "Year of birth", "Année de naissance"])
def test_years_beside_days(desk: Desk, title: str) -> None:
    """A year is that of a birth whose day isn't there; where both speak the day is taken, and another year is told."""
    done = desk.take(YEARS.format(title) + ROWS)
    done.shows(
        f"to look at: the column '{title}' has the years of births in 2 rows where 'Geburtsdatum' has none: they are taken "
        "there",
        f"to look at: 'Geburtsdatum' says another year than '{title}' in 2 rows, the first is line 4, with '02.03.2017' "
        "and '2018': 'Geburtsdatum' is taken",
    )
    done.tells("line 5: 4: inferred: birth day 2019-07-02, from the year 2019")
    assert "line 6: 5: inferred: birth day 2020-07-02, from the year 2020" in done.told and "not read" not in done.out
    days = births(desk)
    assert (days["2"], days["3"], days["4"]) == ("2015-03-02", "2017-03-02", "2019-07-02")
    assert " 0 new, 0 changed" in desk.take(YEARS.format(title) + ROWS).last


@pytest.mark.parametrize("month", ["03", "März", "III"])
@pytest.mark.parametrize(
    "titles",
    ["Ohrmarke;Name;Sex;Tag;Monat;Jahr", "Tag;Name;Sex;Day;Month;Year", "N° de travail;Nom;Sexe;Jour;Mois;Année",
     "Ohrmarke;Name;Sex;Birth day;Birth month;Birth year"],
)  # fmt: skip
def test_days_in_three_columns(desk: Desk, titles: str, month: str) -> None:
    """They are one day; without its day a month, and without that a year."""
    rows = f"1;Ann;F;1;{month};2005;;;Hart\n2;Ben;M;2.0;{month};05;;;Hart\n3;Cal;M;13;{month};2008;2;1;Hart\n"
    rows += f"4;Dan;M;;{month};2008;2;1;Hart\n5;Eve;F;;;2008;2;1;Hart\n6;Fay;F;31;2;2009;2;1;Hart\n"
    sheet = titles + ";Sire;Dam;Owner\n" + rows
    done = desk.take(sheet)
    days = "2005-03-01", "2005-03-02", "2008-03-13", "2008-03-16", "2008-07-02", "2009-02-15"
    assert ", 3 inferred," in done.last and tuple(births(desk).values()) == days
    _, _, *of_days = titles.split(";")[1:]
    parts = ", ".join(f"'{title}'" for title in of_days)
    text = f"1.{month if month.isdecimal() else 3}.2005"
    done.shows(f"to look at: the birth days of 5 rows are read from the columns {parts}, as '{text}' in line 2")
    assert "not read" not in done.out and " 0 new, 0 changed" in desk.take(sheet).last


def test_three_columns_of_something_else(desk: Desk) -> None:
    """Where two columns have such a title, or their cells are no such numbers, nothing is joined."""
    sheet = "id;sex;Day;Month;Year;sire;dam;Month\n1;F;1;3;2005;;;4\n2;M;2;3;2006;;;5\n"
    assert "are read from the columns" not in desk.take(sheet).told
    sheet = "id;sex;Day;Month;Year;sire;dam\n1;F;Mon;3;2005;;\n2;M;Tue;3;2006;;\n"
    assert "are read from the columns" not in desk.take(sheet, "--book", "two").told


@pytest.mark.parametrize("titles", ["Tag;Month;Year", "Tag;Month of birth;Year of birth", "Tag;Monat;Jahr", "N°;Mois;Année"])
def test_months_and_years_without_days(desk: Desk, titles: str) -> None:
    """`Tag` is no day where it has the ids; months and years are one birth without a column of days."""
    id, month, year = titles.split(";")
    sheet = f"{id};Name;Sex;{month};{year};Sire;Dam;Owner\n"
    sheet += "1;Ann;F;3;2005;;;Hart\n2;Ben;M;4;2005;;;Hart\n3;Cal;M;5;2008;2;1;Hart\n4;Dan;M;;2009;2;1;Hart\n"
    done = desk.take(sheet)
    told = f"to look at: the birth days of 3 rows are read from the columns '{month}', '{year}', as '3.2005' in line 2"
    done.shows(told)
    assert f"id from '{id}'" in done.out and f"birth from '{year}'" in done.out and "not read" not in done.out
    born = [json.loads(desk.good("show", id, "--json").out)["animal"]["born"] for id in "1234"]
    assert born == ["2005-03-16", "2005-04-16", "2008-05-16", "2009-07-02"] and desk.parents()["3"] == ("2", "1")
    again = desk.take(sheet)
    again.shows(told)
    assert " 0 new, 0 changed" in again.last


def test_tags_beside_months_and_years(desk: Desk) -> None:
    """In English `Tag` is no day beside other ids either, and in German it is one, which is no id where days are there
    twice."""
    rows = "101;7;F;3;2005;;\n102;8;M;4;2005;;\n103;7;M;5;2008;102;101\n"
    done = desk.take("ID;Tag;Sex;Month;Year;Sire;Dam\n" + rows)
    assert "read from the columns 'Month', 'Year', as '3.2005' in line 2" in done.out and "not read: 'Tag'" in done.out
    done = desk.take("Ohrmarke;Tag;Geschlecht;Monat;Jahr;Vater;Mutter\n" + rows, "--book", "two")
    assert "read from the columns 'Tag', 'Monat', 'Jahr', as '7.3.2005' in line 2" in done.out
    done = desk.take("Nummern;Tag;Geschlecht;Monat;Jahr;Vater;Mutter\n" + rows, "--book", "three")
    assert "id from 'Nummern'" in done.out and "'7.3.2005'" in done.told
