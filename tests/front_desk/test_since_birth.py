"""Cells that say since when an owner has an animal, and mean since its birth."""
from __future__ import annotations

import pytest

from front_desk.desk import Desk

WORDS = (
    "since birth", "homebred", "Home-bred", "naissance", "depuis la naissance", "dès la naissance", "eigene Zucht",
    "Eigenzucht", "seit Geburt", "Geburt", "Wurf", "né à l'élevage",
)  # fmt: skip


def sheet(*since: str, owner: str = "Meier") -> str:
    rows = [f"a{at};F;2001-03-01;;;{owner};{text}" for at, text in enumerate(since)]
    return "\n".join(["id;sex;birth;sire;dam;owner;owner since", *rows, "b;F;2001-03-01;;;Meier;2003-01-01", ""])


def test_words_for_the_birth(desk: Desk) -> None:
    """The owner has the animal since its birth, and nothing is told."""
    done = desk.take(sheet(*WORDS))
    assert "left out" not in done.told.replace("0 left out", "") and "to look at" not in done.told
    assert desk.transfer_days() == ["2003-01-01"]


@pytest.mark.parametrize("text", ["Zucht Huber", "Geburtstag", "homeless"])
def test_other_words(desk: Desk, text: str) -> None:
    assert f"can't be read, the first in line 2: '{text}'" in desk.take(sheet(text)).told


def test_words_for_the_birth_beside_a_new_owner(desk: Desk) -> None:
    """They aren't since when he has it, which no cell says then."""
    desk.take(sheet("homebred"))
    assert "line 2: a0: inferred: owner Huber since" in desk.take(sheet("homebred", owner="Huber")).told


def test_such_words_alone(desk: Desk) -> None:
    done = desk.take("id;sex;birth;sire;dam;owner;owner since\na;F;2001-03-01;;;Meier;homebred\n")
    assert "to look at" not in done.told and desk.transfer_days() == []
