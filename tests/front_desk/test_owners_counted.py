"""Owners whose numbers count up from row to row, as a spreadsheet makes them where a cell is pulled down."""
from __future__ import annotations

from collections.abc import Sequence

import pytest

from front_desk.desk import Desk

TITLES = "Ohrmarke;geb;Vater;Mutter;Besitzer\n"
TOLD = "the owners' numbers count up in "


def sheet(owners: Sequence[str]) -> str:
    return TITLES + "".join(f"CH{at:03};2010-01-{at % 28 + 1:02};;;{owner}\n" for at, owner in enumerate(owners, 1))


# owners as a society has them, in no order
OTHERS = [f"Hof {at * 7 % 10 + 1}" for at in range(40)]


@pytest.mark.parametrize("name", ["Hof", "Mme Queloz, ferme", "Farm no."])
def test_cell_that_was_pulled_down(desk: Desk, name: str) -> None:
    """It is told once, and the values stay as they are; owners that the book has aren't told."""
    owners = [*OTHERS, f"{name} 17", *(f"{name} {at}" for at in range(17, 24)), "Meier"]
    done = desk.take(sheet(owners))
    done.tells(
        f"to look at: below '{name} 17' in line 43 {TOLD}6 rows, from '{name} 18' in line 44 to '{name} 23' in line 49, as "
        f"those of a spreadsheet do where a cell is pulled down: each becomes an owner of its own; if all are '{name} 17', "
        "write that into these rows"
    )
    assert done.out.count(TOLD) == 1
    assert sorted(row["owner"] for row in desk.listed("list", "--columns", "owner")) == sorted(owners)
    assert TOLD not in desk.take(sheet(owners)).told


def test_pulled_over_owners_of_others(desk: Desk) -> None:
    """Numbers go on from where the cell was pulled, also over those that others have."""
    done = desk.take(sheet([*OTHERS, *(f"Hof {at}" for at in range(7, 18)), *OTHERS]))
    assert f"below 'Hof 7' in line 42 {TOLD}10 rows, from 'Hof 8' in line 43 to 'Hof 17' in line 52" in done.told


@pytest.mark.parametrize(
    "owners",
    [
        [*OTHERS, "Hof 17", "Hof 18", "Hof 19", "Hof 20"], [f"Hof {at}" for at in range(1, 40)],
        [f"Hof {at}" for at in (1, 1, 2, 3, 3, 4, 5, 6, 7, 8, 9)], [*OTHERS, *map(str, range(100, 120))],
        [*OTHERS, *(f"Hof {at}" for at in range(20, 40, 2))],
    ],
    ids=["few", "all numbered", "sorted", "numbers alone", "gaps"],
)  # fmt: skip
def test_owners_with_numbers(desk: Desk, owners: list[str]) -> None:
    assert TOLD not in desk.take(sheet(owners)).told
