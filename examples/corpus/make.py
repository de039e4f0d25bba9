#!/usr/bin/env python3
"""Makes the corpus: small pedigrees with what other programs may be tested with.

    make.py [FOLDER]

For each pedigree NAME.csv (`id,sire,dam`, 0 for an unknown parent) there is in FOLDER, else beside this script:

    NAME.inbreeding.csv  id,coefficient
    NAME.A.csv           id,with,relationship: the numerator relationship matrix, its lower triangle, without zeros
    NAME.inverse.csv     id,with,value: the inverse of it, in the same way

All numbers are fractions in lowest terms, as `herdbook pedigree` writes them; the elements of the inverse are added up
from what it says that each animal adds. Ids are texts: read them as such.
"""
from __future__ import annotations

import csv
import pathlib
import random
import sys
from collections.abc import Iterator, Sequence

HERE = pathlib.Path(__file__).resolve().parent
sys.path.insert(0, str(HERE.parents[1] / "src"))

import gudokeyi  # noqa: E402
from gudokeyi.services.pedigree_tables import inverse_elements  # noqa: E402

# id, sire and dam
Line = tuple[str, str, str]
Lines = list[Line]


def lines_of(text: str) -> Lines:
    """Animals between semicolons, each with its parents."""
    rows = [line.split() for line in text.split(";")]
    return [(row[0], *(row[1:] + ["0", "0"])[:2]) for row in rows]  # type: ignore[misc]


def line_of(generations: int, has_one_parent: bool = False) -> Lines:
    """A path of so many steps: by sires alone, or by full sibs."""
    if has_one_parent:
        return [(str(at), str(at - 1), "0") for at in range(1, generations + 2)]
    pairs = [("m0", "0", "0"), ("f0", "0", "0")]
    for at in range(1, generations + 1):
        pairs += [(f"{sex}{at}", f"m{at - 1}", f"f{at - 1}") for sex in "mf"]
    return pairs


def selfed(generations: int) -> Lines:
    return [(f"s{at}", *((f"s{at - 1}",) * 2 if at else ("0", "0"))) for at in range(generations + 1)]  # type: ignore[misc]


def backcrossed(generations: int) -> Lines:
    """To one recurrent parent."""
    found = lines_of("R; D; B1 R D")
    return found + [(f"B{at}", "R", f"B{at - 1}") for at in range(2, generations + 1)]


def half_sibs(sires: int, dams: int) -> Lines:
    """Each sire with each dam, and offspring of the first with the last of these."""
    founders: Lines = [
        (name, "0", "0") for name in (*(f"S{at}" for at in range(sires)), *(f"D{at}" for at in range(dams)))
    ]
    young: Lines = [(f"Y{one}.{other}", f"S{one}", f"D{other}") for one in range(sires) for other in range(dams)]
    pairs = zip(young, reversed(young))
    return founders + young + [(f"x{at}", one[0], other[0]) for at, (one, other) in enumerate(pairs)]


def diallel(count: int) -> Lines:
    """Each of some plants with each, itself too, and reciprocally."""
    plants: Lines = [(f"P{at}", "0", "0") for at in range(count)]
    return plants + [(f"P{one}xP{other}", f"P{one}", f"P{other}") for one in range(count) for other in range(count)]


def drawn(seed: int, animals: int, unknown: float, may_self: bool, names: str = "{}") -> Lines:
    """Animals of few ancestors, each of which may be sire and dam; parents after their offspring too."""
    draw = random.Random(seed)
    found: Lines = []
    for at in range(animals):
        def parent() -> str:
            known = at > 2 and draw.random() >= unknown
            return names.format(draw.randrange(max(0, at - 8), at) + 1) if known else "0"

        sire = parent()
        dam = sire if may_self and draw.random() < 0.2 else parent()
        found.append((names.format(at + 1), sire, "0" if dam == sire and not may_self else dam))
    draw.shuffle(found)
    return found


def circular(sires: int, generations: int) -> Lines:
    """Circular mating: each with its neighbour in the ring, in each generation."""
    found: Lines = [(f"0-{at}", "0", "0") for at in range(sires)]
    for step in range(1, generations + 1):
        found += [(f"{step}-{at}", f"{step - 1}-{at}", f"{step - 1}-{(at + 1) % sires}") for at in range(sires)]
    return found


def renamed(lines: Lines, names: Sequence[str]) -> Lines:
    """The same animals by other ids, in the order of their lines."""
    new = dict(zip((id for id, _, _ in lines), names)) | {"0": "0"}
    return [(new[id], new[sire], new[dam]) for id, sire, dam in lines]


MRODE = lines_of("1; 2; 3 1 2; 4 1; 5 4 3; 6 5 2")
# the shorthorn bull of Wright (1922), whose coefficient is 14.1%, by Champion of England and Lord Raglan
ROAN_GAUNTLET = lines_of(
    "Champion_of_England; Lord_Raglan; Mistletoe; Duchess_of_Gloster_9th Lord_Raglan; Carmine Lord_Raglan;"
    "Grand_Duke_of_Gloster Champion_of_England Duchess_of_Gloster_9th; Mimulus Champion_of_England Mistletoe;"
    "Royal_Duke_of_Gloster Grand_Duke_of_Gloster Mimulus; Princess_Royal Champion_of_England Carmine;"
    "Roan_Gauntlet Royal_Duke_of_Gloster Princess_Royal"
)
COUSINS = "a; b; c; d; e a b; f a b; g e c; h f d; x g h"
PEDIGREES: dict[str, Lines] = {
    "one_animal": lines_of("1"),
    "founders": lines_of("1; 2; 3; 4; 5"),
    "mrode": MRODE,
    "mrode_backwards": MRODE[::-1],
    "roan_gauntlet": ROAN_GAUNTLET,
    "parent_offspring": lines_of("a; b; c a b; x a c; y c b"),
    "full_sibs": lines_of("a; b; c a b; d a b; x c d"),
    "half_sibs": lines_of("a; b; c; d a b; e a c; x d e"),
    "first_cousins": lines_of(COUSINS),
    "double_first_cousins": lines_of("a; b; c; d; e a b; f a b; g c d; h c d; i e g; j f h; x i j"),
    "second_cousins": lines_of("a; b; c a b; d a b; e; f; g c e; h d f; i; j; k g i; l h j; x k l"),
    "uncle_niece": lines_of("a; b; c a b; d a b; e; f d e; x c f"),
    "grandsire": lines_of("a; b; c; d a b; e d c; x a e"),
    "only_sires_known": line_of(8, has_one_parent=True),
    "only_dams_known": [(id, "0", sire) for id, sire, _ in line_of(8, has_one_parent=True)],
    "half_known_inbred": lines_of("a; b; c a; d a b; e c d; f e; g e f; h g"),
    "selfed_once": lines_of("a; b a a"),
    "selfed_of_a_cross": lines_of("a; b; c a b; d c c; e d d; f d e"),
    "selfed_8": selfed(8),
    "selfed_60": selfed(60),
    "both_roles": lines_of("a; b; c a b; d b c; e c d; f d c; g e f; h f e"),
    "reciprocal_crosses": lines_of("a; b; c a b; d b a; e c d; f d c; g e f"),
    "diallel_with_selfs": diallel(4),
    "backcross_1": backcrossed(1),
    "backcross_6": backcrossed(6),
    "backcross_20": backcrossed(20),
    "sib_mating_10": line_of(10),
    "sib_mating_60": line_of(60)[: 2 * 61],
    "line_of_60_by_sires": line_of(60, has_one_parent=True),
    "circular_5": circular(5, 5),
    "factorial_3_by_4": half_sibs(3, 4),
    "growth": lines_of("1; 2; 3; 4 1; 5 3 2; 6 1 2; 7 4 5; 8 3 6"),
    "drawn_closed": drawn(1, 40, 0.0, may_self=False),
    "drawn_open": drawn(2, 40, 0.3, may_self=False),
    "drawn_plants": drawn(3, 40, 0.1, may_self=True),
    "drawn_half_known": drawn(4, 40, 0.5, may_self=True),
    "odd_ids_zeros": renamed(MRODE, ["001", "01", "1", "0001", "10", "100"]),
    "odd_ids_numbers": renamed(MRODE, ["1e5", "100000", "9007199254740993", "9007199254740992", "-17", "1.50"]),
    "odd_ids_letters": renamed(MRODE, ["Löwe", "löwe", "NA12", "TRUE", "a b", 'x "y", z']),
    "parents_behind_offspring": drawn(5, 30, 0.1, may_self=False, names="DE{}")[::-1],
}


def pedigree_of(lines: Lines) -> gudokeyi.Pedigree:
    return gudokeyi.Pedigree(*zip(*lines), leave_out=True, anyway=True)


def tables(lines: Lines) -> Iterator[tuple[str, list[tuple[str, ...]]]]:
    """Each file's ending, and its rows with their titles."""
    pedigree = pedigree_of(lines)
    ids = pedigree.ids
    yield ".csv", [("id", "sire", "dam"), *lines]
    coefficients = zip(ids, map(str, pedigree.inbreeding(exact=True)))
    yield ".inbreeding.csv", [("id", "coefficient"), *coefficients]
    table = pedigree.relationships(exact=True)
    entries = [
        (id, ids[at], str(row[at]))
        for place, (id, row) in enumerate(zip(ids, table))
        for at in range(place + 1)
        if row[at]
    ]
    yield ".A.csv", [("id", "with", "relationship"), *entries]
    elements = [
        (ids[row], ids[column], str(value))
        for (row, column), value in sorted(inverse_elements(pedigree).items())
        if value
    ]
    yield ".inverse.csv", [("id", "with", "value"), *elements]


def write(folder: pathlib.Path) -> None:
    for name, lines in PEDIGREES.items():
        for ending, rows in tables(lines):
            with open(folder / f"{name}{ending}", "w", encoding="utf-8", newline="") as file:
                csv.writer(file, lineterminator="\n").writerows(rows)


if __name__ == "__main__":
    write(pathlib.Path(sys.argv[1]) if sys.argv[1:] else HERE)
