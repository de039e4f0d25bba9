"""Paths of parents that are too long: what is told to do makes them fit."""
from __future__ import annotations

import itertools
import random
import re

import pytest

from front_desk.desk import Desk
from front_desk.test_triples import Rows, text_of
from gudokeyi.ingest.animals import SheetAnimal
from gudokeyi.reconcile.impossible_parents import Paths


def test_long_paths(desk: Desk) -> None:
    """A path that is too long is told with its length, and what is told to do makes it fit."""
    rows = [[f"a{at}", f"a{at - 1}" if at else "0", "0"] for at in range(77)]
    done = desk.wrong(
        "line 62: a61: a path of parents would be longer than 60 steps",
        "import",
        "--pedigree",
        desk.write("line.txt", text_of(rows)),
    )
    assert (
        "the longest path has 76 steps, 16 more than 60, from a76 (line 77) up to a0 (line 1); its oldest 16 "
        "animals are a0 (line 1), a1 (line 2), " in done.err
    )
    assert "set the parents of this animal to unknown, and no path is too long: a16 (line 17)." in done.err


def deep_rows(seed: int, years: int) -> Rows:
    """Four animals a year, most of whose parents are of the year before."""
    chance = random.Random(seed)
    rows = []
    for year, at in itertools.product(range(years), range(4)):
        rows.append([f"g{year}-{at}", *(deep_parent(chance, year, sex) for sex in range(2))])
    return rows


def deep_parent(chance: random.Random, year: int, sex: int) -> str:
    if chance.random() < 0.1 or not year:
        return "0"
    before = max(0, year - 1 - (chance.random() < 0.01))
    return f"g{before}-{sex + 2 * chance.randrange(2)}"


@pytest.mark.parametrize(("seed", "years"), [(0, 150), (1, 63), (2, 76)])
def test_cuts_of_long_paths(desk: Desk, seed: int, years: int) -> None:
    """With the parents cut that are told no path is too long, and few are."""
    rows = deep_rows(seed, years)
    deep = desk.write("deep.txt", text_of(rows))
    done = desk.wrong("set the parents of these animals to unknown", "import", "--pedigree", deep)
    told = re.findall(r"(g\d+-\d) \(line", done.err.split("no path is too long: ")[1])
    animals = {id: SheetAnimal(id, sire=sire.strip("0") and sire, dam=dam.strip("0") and dam) for id, sire, dam in rows}
    for parent in {parent for animal in animals.values() for _, parent in animal.parents()} - animals.keys():
        animals[parent] = SheetAnimal(parent)
    cut = list(dict.fromkeys(Paths(animals).to_cut()))
    assert 0 < len(cut) < len(rows) // 20
    assert told == cut[:12]
    short = desk.write("cut.txt", text_of([[row[0], "0", "0"] if row[0] in cut else row for row in rows]))
    assert f": {len(rows)} animals, " in desk.good("import", "--pedigree", short).last


def test_long_path_in_a_sheet(desk: Desk) -> None:
    sheet = "id,sex,born,sire,dam\n" + "".join(
        f"a{at},M,{1900 + at},{f'a{at - 1}' if at else ''},\n" for at in range(62)
    )
    done = desk.wrong("its oldest animal is a0 (line 2)", "import", desk.write("deep.csv", sheet))
    assert "to unknown, and no path is too long: a1 (line 3)." in done.err
    # a parent that is refused for another reason is on no path
    done = desk.good("import", desk.write("deep.csv", sheet.replace("a30,M,", "a30,F,")))
    assert " 1 left out (1 parent)" in done.last
