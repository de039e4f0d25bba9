"""A pedigree cut down to some animals and their ancestors before the limits are asked."""
from __future__ import annotations

import functools
import random
from fractions import Fraction

from front_desk.desk import Desk


def test_keep(desk: Desk) -> None:
    """Of 200,000 lines some animals with their ancestors are taken, and have the coefficients of the whole."""
    rows = drawn_rows(1, 1_000, 200)
    kept = [f"i{family * 200 + 150}" for family in range(10, 20)]
    pedigree = desk.write("many.txt", "".join(" ".join(row) + "\n" for row in rows))
    done = desk.wrong("the pedigree and the book have 200,000 animals together", "import", "--pedigree", pedigree)
    assert "by --keep FILE: their coefficients stay as they are" in done.err
    done = desk.good("import", "--pedigree", pedigree, "--keep", desk.write("kept.txt", "\n".join(kept)))
    wanted = ancestry(rows, kept)
    done.tells(f"kept: 10 animals of kept.txt with their ancestors, {len(wanted):,} of 200,000 lines")
    found = {row["id"]: Fraction(row["coefficient"]) for row in desk.listed("list")}
    assert found.keys() == wanted
    parents = {id: (sire, dam) for id, sire, dam in rows}
    order = {id: at for at, (id, *_) in enumerate(rows)}

    @functools.cache
    def kinship(one: str, other: str) -> Fraction:
        if "0" in (one, other):
            return Fraction(0)
        if one == other:
            return (1 + kinship(*parents[one])) / 2
        older, younger = sorted((one, other), key=order.__getitem__)
        return (kinship(older, parents[younger][0]) + kinship(older, parents[younger][1])) / 2

    coefficients = [kinship(*parents[id]) for id in kept]
    assert [found[id] for id in kept] == coefficients and max(coefficients) > 0


def test_keep_names_an_animal_that_is_not_there(desk: Desk) -> None:
    pedigree = desk.write("few.txt", "a 0 0\nb a 0\n")
    kept = desk.write("kept.txt", "b\nx\n")
    told = "kept.txt names animals that have no line in the pedigree: x"
    desk.wrong(told, "import", "--pedigree", pedigree, "--keep", kept)
    desk.wrong("--keep and --leave-out are for a pedigree", "import", pedigree, "--keep", kept)


def test_long_path_cut_by_keep(desk: Desk) -> None:
    pedigree = desk.write("deep.txt", "".join(f"a{at} {f'a{at - 1}' if at else 0} 0\n" for at in range(70)))
    told = "That changes coefficients: an unknown parent counts as unrelated."
    done = desk.wrong(told, "import", "--pedigree", pedigree)
    assert "--keep FILE takes those that the file names" in done.err
    assert " 31 animals, " in desk.good(
        "import", "--pedigree", pedigree, "--keep", desk.write("kept.txt", "a30\n")
    ).last


def drawn_rows(seed: int, families: int, size: int) -> list[tuple[str, str, str]]:
    """Families of animals of alternate sexes, whose parents are of their family."""
    draw = random.Random(seed)

    def parent(family: int, at: int, sex: int) -> str:
        able = range(max(sex, (at - 40) // 2 * 2 + sex), at, 2)
        return f"i{family * size + draw.choice(able)}" if able and draw.random() < 0.95 else "0"

    return [
        (f"i{family * size + at}", parent(family, at, 0), parent(family, at, 1))
        for family in range(families)
        for at in range(size)
    ]


def ancestry(rows: list[tuple[str, str, str]], kept: list[str]) -> set[str]:
    parents = {id: [one for one in pair if one != "0"] for id, *pair in rows}
    found, reached = set(kept), list(kept)
    for id in reached:
        new = set(parents[id]) - found
        found |= new
        reached += new
    return found
