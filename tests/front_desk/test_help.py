"""Help of the front desk."""
from __future__ import annotations

import subprocess

import pytest

import gudokeyi
from front_desk.desk import CALLED, Desk
from gudokeyi.cli.words import FAMILIES, words_for

WORDS = [word for words in FAMILIES.values() for word in words]


def test_families() -> None:
    """A call has the words of one family alone, which are those that its module adds."""
    for words in FAMILIES.values():
        assert tuple(words_for([words[-1], "--help"]).words.choices) == words
    assert list(words_for(["--help"]).words.choices) == WORDS


@pytest.mark.parametrize("word", WORDS)
def test_help(desk: Desk, word: str) -> None:
    shown = desk.good(word, "--help").out
    assert word in desk.good("--help").out
    assert ("--book FOLDER" in shown) == (word not in (*FAMILIES["pedigrees"], "check"))
    assert f"usage: {CALLED} {word}" in shown
    assert "status: 0 done; 1 it couldn't be done" in shown and "4 the book is busy" in shown


def test_version(desk: Desk) -> None:
    """It is the program's."""
    done = desk.good("--version")
    assert done.out == f"gudokeyi {gudokeyi.__version__}\n" and not done.err
    assert f"herdbook {gudokeyi.__version__}" == subprocess.run(
        [desk.program, "--version"], capture_output=True, text=True, check=True
    ).stdout.strip()
