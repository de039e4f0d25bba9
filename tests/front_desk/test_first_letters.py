"""With what the numbers of a new book begin: a person is asked once, and nobody's book begins with letters unasked."""
from __future__ import annotations

import os
import pty
import subprocess

import pytest

from front_desk.desk import SECONDS, TOP, Desk

FLOCK = "id,sex,born,sire,dam\na,m,2001-01-01,,\nb,f,2001-02-01,,\n"
UNSAID = "each animal gets a number that begins with its breed and country, which nobody said yet: say them once by --breed"


@pytest.fixture
def unsaid(monkeypatch: pytest.MonkeyPatch, desk: Desk) -> Desk:
    """A desk for which nobody says the letters of all books."""
    monkeypatch.delenv("GUDOKEYI_NUMBERS")
    return desk


def test_refused_without_a_terminal(unsaid: Desk) -> None:
    """A sheet or a pedigree isn't taken until both are said; a preview says so too. Then no sheet need say them."""
    sheet, triples = unsaid.write("sheet.csv", FLOCK), str(TOP / "examples/mrode.txt")
    for words in (sheet,), (sheet, "--breed", "SKU"), ("--pedigree", triples):
        unsaid.wrong(UNSAID, "import", *words)
    assert UNSAID in unsaid.good("import", sheet, "--preview").out
    unsaid.good("import", sheet, "--breed", "SKU", "--country", "DEU")
    unsaid.take(FLOCK + "c,m,2003-01-01,a,b\n")
    assert [number[:6] for number in unsaid.numbers().values()] == ["SKUDEU"] * 3
    # an empty book goes on as it was
    unsaid.good("undo", "--to", "0")
    unsaid.take(FLOCK.replace("a,m", "d,m"))
    assert {number[:6] for number in unsaid.numbers().values()} == {"SKUDEU"}


def test_asked_at_a_terminal(unsaid: Desk) -> None:
    """Whoever sits there is asked, and again where it isn't three letters."""
    sheet = unsaid.write("sheet.csv", FLOCK)
    ours, theirs = pty.openpty()
    known = {name: os.environ[name] for name in ("PATH", "XDG_CACHE_HOME")} | {"HERDBOOK": unsaid.program, "LANG": "C"}
    with subprocess.Popen(
        [str(TOP / "gudokeyi"), "import", sheet], cwd=unsaid.room, env=known, stdin=theirs, stdout=theirs, stderr=theirs
    ) as process:
        os.write(ours, b"goats\nsku\nDEU\n")
        assert process.wait(SECONDS) == 0
    os.close(theirs)
    told = os.read(ours, 100_000).decode()
    assert "Breed, as SKU: " in told and "'GOATS' isn't three" in told and "Country, as DEU: " in told, told
    assert {number[:6] for number in unsaid.numbers().values()} == {"SKUDEU"}
