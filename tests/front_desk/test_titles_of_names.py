"""Which column has the animals' names: that with a usual title; one that only looks so isn't read, and is told."""
from __future__ import annotations

import pytest

from front_desk.desk import Desk

COWS = (
    "Tag No.;{title};Sex;DOB;Sire;Dam;{beside}\n"
    "K1;Kilmorna Duke;bull;12/3/2015;;;Daly\nK2;Kilmorna Rose;cow;14/4/2015;;;Daly\n"
    "K3;Kilmorna Peg;cow;3/3/2016;;;Daly\nK4;Gort Nora;heifer;5/2/2019;K1;K2;Foley\n"
)
LOOKS_SO = "to look at: nothing is read as name, though the column '{}' looks like that, with 4 cells: Kilmorna Duke"


def names(desk: Desk) -> set[str]:
    return {one["name"] for one in desk.listed("list", "--columns", "id,name")}


@pytest.mark.parametrize(
    "title",
    [
        "Pedigree Name", "Registered Name", "Animal Name", "Full Name", "Nom d'élevage", "Zuchtname", "Vollname",
        "Herdbook name",
    ],
)  # fmt: skip
def test_titles_of_names(desk: Desk, title: str) -> None:
    done = desk.take(COWS.format(title=title, beside="Owner"))
    assert "Kilmorna Rose" in names(desk) and f"name from '{title}'" in done.told


def test_likelier_title(desk: Desk) -> None:
    """A column `Name` is the likelier one."""
    desk.take(COWS.format(title="Pedigree Name", beside="Name"))
    assert names(desk) == {"Daly", "Foley"}


@pytest.mark.parametrize("title", ["Name (as in the pedigree)", "Nom de la bête", "Kerryname"])
def test_column_that_looks_so(desk: Desk, title: str) -> None:
    """It is told with the option by which it is read, or by which nobody asks again."""
    done = desk.take(COWS.format(title=title, beside="Owner"))
    assert LOOKS_SO.format(title) in done.told and names(desk) == {""}
    [command] = [one for one in done.commands() if "name=" in one]
    desk.typed(command)
    assert "Kilmorna Rose" in names(desk)


@pytest.mark.parametrize(
    "title, beside",
    [
        ("Breeder's name", "Owner"), ("Name of dam's sire", "Owner"), ("Zwingername", "Owner"), ("Colour", "Name of line"),
        ("Name des Züchters", "Owner"), ("Züchtersname", "Owner"), ("Name und Adresse", "Owner"),
    ],
)  # fmt: skip
def test_names_of_others(desk: Desk, title: str, beside: str) -> None:
    """Names of people and of other animals aren't told, nor those that stand in several rows."""
    assert "nothing is read as name" not in desk.take(COWS.format(title=title, beside=beside)).told


def test_names_of_farms(desk: Desk) -> None:
    """A title that farms have too is none of the animals' where few names stand there."""
    assert "'Nom d'élevage'" in desk.take(COWS.format(title="Colour", beside="Nom d'élevage")).told
    assert names(desk) == {""}
