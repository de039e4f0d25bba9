"""Columns of parents and sexes with letters for titles: they are read where their cells prove what they have."""
from __future__ import annotations

import pytest

from front_desk.desk import Desk

TITLES = "Nr.;Name;{sex};geb.;{sire};{dam}\n"
FOUNDERS = "101;Max;Rammler;3.4.2015;;\n102;Lena;Häsin;5.4.2015;;\n103;Mona;Häsin;5.5.2016;;\n"
YOUNG = "104;Ida;Häsin;3.2.2018;101;102\n105;Kai;Rammler;3.2.2019;101;103\n106;Lia;Häsin;3.2.2020;101;102\n"


@pytest.mark.parametrize("sex, sire, dam", [("G", "V", "M"), ("S", "P", "M"), ("Sex", "S", "D"), ("G.", "V.", "M.")])
def test_letters(desk: Desk, sex: str, sire: str, dam: str) -> None:
    """They are read, which is told with how to say otherwise, and once."""
    sheet = TITLES.format(sex=sex, sire=sire, dam=dam) + FOUNDERS + YOUNG
    done = desk.take(sheet)
    assert desk.parents()["104"] == ("101", "102")
    assert {one["sex"] for one in desk.listed("list", "--columns", "id,sex")} == {"M", "F"}
    said = "is read from '{}', since 3 of its 3 cells are ids of this list, of animals of that sex"
    done.tells(f"to look at: sire {said.format(sire)}", f"to look at: dam {said.format(dam)}")
    words = f"to look at: sex is read from '{sex}', since its cells are words for sexes: Rammler, Häsin"
    assert (words in done.told) == (sex != "Sex")
    assert "is read from" not in desk.take(sheet).told and desk.parents()["104"] == ("101", "102")


def test_other_letters(desk: Desk) -> None:
    """Columns with such titles that aren't proved, as where the parents have the other sex, are named in the advice."""
    young = YOUNG.replace("101;10", "102;10")
    sheet = desk.write("sheet.csv", TITLES.format(sex="G", sire="V", dam="M") + FOUNDERS + young)
    done = desk.run("import", sheet)
    assert done.status == 1 and "no column for sire or dam is found" in done.err
    assert done.commands()[0].endswith("--columns sire=V,dam=M"), done


def test_advice_beside_ids_that_stand_twice(desk: Desk) -> None:
    """It names the columns in a list with a few faults too."""
    more = "".join(f"{at};;Häsin;3.2.2021;101;102\n" for at in range(200, 240)) + "239;;Häsin;3.2.2022;101;102\n"
    sheet = desk.write("sheet.csv", TITLES.format(sex="G", sire="Hr.", dam="Fr.") + FOUNDERS + YOUNG + more)
    assert desk.run("import", sheet).commands()[0].endswith("--columns sire=Hr.,dam=Fr.")


def test_advice_with_the_dams_first(desk: Desk) -> None:
    """Which parent a column has is seen in the sexes of these."""
    young = "104;Ida;Häsin;3.2.2018;102;101\n105;Kai;Rammler;3.2.2019;103;101\n"
    sheet = desk.write("sheet.csv", TITLES.format(sex="Geschl.", sire="A", dam="B") + FOUNDERS + young)
    assert desk.run("import", sheet).commands()[0].endswith("--columns sire=B,dam=A")


@pytest.mark.parametrize("sex", ["Note", "Gewicht"])
def test_columns_of_something_else(desk: Desk, sex: str) -> None:
    """A column with another title isn't read so, nor one with such a title whose cells are something else."""
    sheet = TITLES.format(sex=sex, sire="Vater", dam="Mutter") + FOUNDERS + YOUNG
    assert "since its cells are words" not in desk.take(sheet).told
    done = desk.take(sheet.replace(sex, "G").replace("Häsin", "12").replace("Rammler", "13"), "--book", "other")
    assert "sex from" not in done.told
