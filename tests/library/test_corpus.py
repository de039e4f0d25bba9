"""The corpus of pedigrees for other programs, beside the tabular method written down anew: nothing of it is a number
that somebody typed."""
from __future__ import annotations

import csv
import pathlib
import runpy
from fractions import Fraction

import pytest

HERE = pathlib.Path(__file__).resolve().parents[2] / "examples/corpus"
NAMES = sorted({path.name.partition(".")[0] for path in HERE.glob("*.csv")})


def rows(name: str) -> list[list[str]]:
    with open(HERE / name, encoding="utf-8", newline="") as file:
        return [*csv.reader(file)]


def tabular(parents: dict[str, tuple[str, str]]) -> tuple[list[str], list[list[Fraction]]]:
    """The animals, parents before their offspring, and A by these."""
    order = [id for id in parents if parents[id] == ("0", "0")]
    while len(order) < len(parents):
        order += [id for id in parents if id not in order and {*parents[id]} <= {"0", *order}]
    table: list[list[Fraction]] = []
    for at, id in enumerate(order):
        known = [order.index(parent) for parent in parents[id] if parent != "0"]
        row = [sum((table[it][other] for it in known), Fraction(0)) / 2 for other in range(at)]
        of_parents = table[known[0]][known[1]] if len(known) == 2 else Fraction(0)
        for other in range(at):
            table[other].append(row[other])
        table.append([*row, 1 + of_parents / 2])
    return order, table


def test_size() -> None:
    assert len(NAMES) == 40


@pytest.mark.parametrize("name", NAMES)
def test_pedigree(name: str) -> None:
    titles, *lines = rows(f"{name}.csv")
    assert titles == ["id", "sire", "dam"]
    order, table = tabular({id: (sire, dam) for id, sire, dam in lines})
    entry = {(one, other): value for one, row in zip(order, table) for other, value in zip(order, row)}
    coefficients = rows(f"{name}.inbreeding.csv")
    assert coefficients == [["id", "coefficient"], *([id, str(entry[id, id] - 1)] for id, _, _ in lines)]
    told = {(one, other): value for one, other, value in rows(f"{name}.A.csv")[1:]}
    ids = [id for id, _, _ in lines]
    below = [(one, other) for at, one in enumerate(ids) for other in ids[: at + 1] if entry[one, other]]
    assert told == {pair: str(entry[pair]) for pair in below}
    assert is_inverse(order, entry, rows(f"{name}.inverse.csv")[1:])


def of_paths(parents: dict[str, tuple[str, str]], id: str) -> Fraction:
    """Wright's coefficient by his paths, through ancestors that aren't inbred: half of a half for each animal of a path
    from one parent to a common ancestor and down to the other, in which none stands twice."""
    def up(one: str) -> list[tuple[str, ...]]:
        longer = [path for parent in parents[one] if parent != "0" for path in up(parent)]
        return [(one,), *((one, *path) for path in longer)]

    pairs = [(one, other) for one in up(parents[id][0]) for other in up(parents[id][1]) if one[-1] == other[-1]]
    return sum(
        (Fraction(1, 2 ** (len(one) + len(other) - 1)) for one, other in pairs if {*one} & {*other} == {one[-1]}),
        Fraction(0),
    )


def test_roan_gauntlet() -> None:
    """Wright (1922) has 14.1% for him, by his paths through Champion of England and Lord Raglan."""
    parents = {id: (sire, dam) for id, sire, dam in rows("roan_gauntlet.csv")[1:]}
    told = dict(rows("roan_gauntlet.inbreeding.csv")[1:])
    assert told["Champion_of_England"] == told["Lord_Raglan"] == "0"
    assert Fraction(told["Roan_Gauntlet"]) == of_paths(parents, "Roan_Gauntlet") == Fraction(9, 64)
    assert f"{float(Fraction(told['Roan_Gauntlet'])):.1%}" == "14.1%"


def is_inverse(order: list[str], entry: dict[tuple[str, str], Fraction], elements: list[list[str]]) -> bool:
    """Is A, times the elements of the lower triangle mirrored, the unit matrix?"""
    inverse: dict[str, dict[str, Fraction]] = {id: {} for id in order}
    for one, other, value in elements:
        assert other not in inverse[one]
        inverse[one][other] = inverse[other][one] = Fraction(value)
    return all(
        sum((value * entry[it, column] for it, value in inverse[row].items()), Fraction(0)) == (row == column)
        for row in order
        for column in order
    )


def test_made_by_the_program(program: str, tmp_path: pathlib.Path, monkeypatch: pytest.MonkeyPatch) -> None:
    """What lies there is what the script makes of what `herdbook` answers."""
    monkeypatch.setenv("HERDBOOK", program)
    runpy.run_path(str(HERE / "make.py"))["write"](tmp_path)
    made = {path.name: path.read_bytes() for path in tmp_path.iterdir()}
    assert made == {path.name: path.read_bytes() for path in HERE.glob("*.csv")}
