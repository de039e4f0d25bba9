"""Months and parts of years that a cell has in place of a day: they are what the cell leaves open, and no more."""
from __future__ import annotations

import json

import pytest

from front_desk.desk import Desk
from gudokeyi.ingest.day_forms import DayForms

FORMS = DayForms(["2019-01-01"], [], False)
APRIL, MAY_JUNE = ("2019-04-01", "2019-04-30"), ("2020-05-01", "2020-06-30")
PERIODS = {
    "mid-April 2019": APRIL, "mi-avril 2019": APRIL, "Mitte-April 19": APRIL, "??.04.2019": APRIL, "xx.4.19": APRIL,
    "?/4/2019": APRIL, "--.04.2019": APRIL, "2019-04-??": APRIL, "?? avril 2019": APRIL, "XX-Apr-2019": APRIL,
    "Mai/Juni 2020": MAY_JUNE, "May or June 2020": MAY_JUNE, "mai-juin 2020": MAY_JUNE, "Mai oder Juni 20": MAY_JUNE,
    "Mai-Juni 2020 (?)": MAY_JUNE, "zw. Mai und Juni 2020": MAY_JUNE, "Apr.-Mai 2020": ("2020-04-01", "2020-05-31"),
    "Dez./Jan. 2020": ("2019-12-01", "2020-01-31"), "Mai 2020/Juni 2020": MAY_JUNE, "Mai 2020 oder Juni 2020": MAY_JUNE,
    "Ende Mai 2020/Anfang Juni 2020": MAY_JUNE, "Dez. 2019 / Jan. 2020": ("2019-12-01", "2020-01-31"),
    "1. Hälfte 2021": ("2021-01-01", "2021-06-30"), "1er semestre 2019": ("2019-01-01", "2019-06-30"),
    "2e semestre de 2019": ("2019-07-01", "2019-12-31"), "first half of 2019": ("2019-01-01", "2019-06-30"),
    "zweites Halbjahr 2019": ("2019-07-01", "2019-12-31"), "Q3 2019": ("2019-07-01", "2019-09-30"),
    "2. Quartal 2019": ("2019-04-01", "2019-06-30"), "last quarter of 2019": ("2019-10-01", "2019-12-31"),
}  # fmt: skip
# of these something else is meant, or nobody knows what
OTHERS = ("vor Mai/Juni 2020", "nach ??.04.2019", "??.13.2019", "3. Halbjahr 2019", "??.??.2019", "vor Q3 2019")


@pytest.mark.parametrize("text", PERIODS)
def test_periods(text: str) -> None:
    found = FORMS.read(text)
    assert found and (str(found[0].first), str(found[0].last)) == PERIODS[text] and not found[0].is_day


@pytest.mark.parametrize("text", OTHERS)
def test_other_texts(text: str) -> None:
    assert FORMS.read(text) is None


def test_births_within_periods(desk: Desk) -> None:
    """The day that is inferred is within what the cell says, and that is told; an exit is on its last day."""
    cells = "mi-avril 2019", "??.04.2019", "Mai/Juni 2020", "1er semestre 2019"
    rows = "".join(f"{at};F;{cell};2;1;\n" for at, cell in enumerate(cells, 3))
    sheet = "id;sex;birth;sire;dam;exit\n1;F;2010-01-01;;;??.04.2019\n2;M;2010-01-01;;;2. Hälfte 2021\n" + rows
    done = desk.take(sheet)
    done.tells("to look at: a text with a month, a week or a season in 2 cells of the column 'birth': 'Mai/Juni 2020' in "
               "line 6 is read as 2020-05-01 to 2020-06-30, and the others alike")  # fmt: skip
    done.tells("to look at: one of several days in 1 cell of the column 'birth': '??.04.2019' in line 5 is read as "
               "2019-04-01 to 2019-04-30")  # fmt: skip
    assert "'??.04.2019' tells of an exit that isn't certain" not in done.told
    born = desk.born()
    for id, cell in zip("3456", cells):
        first, last = PERIODS[cell]
        assert first <= born[id] <= last and f"'{cell}'" in done.told
    left = [json.loads(desk.good("show", id, "--json").out)["animal"]["left"] for id in "12"]
    assert left == ["2019-04-30", "2021-12-31"]
    assert " 0 new, 0 changed" in desk.take(sheet).last
