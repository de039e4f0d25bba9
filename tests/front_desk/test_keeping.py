"""Notes, own columns and owners in a terminal: shown, changed, and refused with what to do; and that going back to an
earlier state says before what goes."""
from __future__ import annotations

import csv
import io
import os
import pty
import subprocess

import pytest

from building.crates import TOP
from front_desk.desk import Desk

SHEET = """\
id,name,sex,birth,sire,dam,owner,CAE,Weight=kg
S,Max,m,2001-01-01,,,Meier,,
D,Berta,f,2001-02-01,,,Huber,negative,60
X,Anna,f,2003-03-01,S,D,Meier,,41.5
"""
ANNA = "X (HOLGBRF000000000003)"


@pytest.fixture
def goats(desk: Desk) -> Desk:
    (desk.room / "sheet.csv").write_text(SHEET, encoding="utf-8")
    done = desk.good("import", "sheet.csv", "--own", "CAE=choice", "--own", "Weight=kg=number")
    assert "; kept: 'CAE', 'Weight=kg'\n" in done.out
    return desk


def test_notes(goats: Desk) -> None:
    assert goats.good("note", "X").out == "X  Anna: no notes\n"
    assert goats.good("note", "Anna", "CAE test\nordered", "--day", "2024-03-02").last == f"{ANNA}: the note is kept: change 2"
    assert goats.good("note", "X").out.splitlines()[1:] == ["  1  2024-03-02  root", "     CAE test", "     ordered"]
    # the day stays
    goats.good("note", "X", "negative", "--number", "1")
    assert "note 1, 2024-03-02, root: negative\n" in goats.good("show", "X").out
    goats.wrong("it so already", "note", "X", "negative", "--number", "1")
    goats.wrong("X has no note 7: `note X` shows its notes", "note", "X", "other", "--number", "7")
    goats.wrong("note needs the text", "note", "X", "--number", "1")
    goats.wrong("needs the --number of a note", "note", "X", "--remove")
    goats.wrong("the note is empty", "note", "X", "")
    goats.wrong("is after today", "note", "X", "later", "--day", "2999-01-01")
    assert "the note is removed" in goats.good("note", "X", "--number", "1", "--remove").last
    goats.good("undo")
    assert "negative" in goats.good("note", "X").out


def test_own_columns(goats: Desk) -> None:
    assert goats.good("own").out.splitlines() == ["CAE: choice (negative)", "Weight=kg: number"]
    assert goats.good("own", "D").out.splitlines() == ["D  Berta", "  CAE: negative", "  Weight=kg: 60"]
    # a title may have the sign itself, and may be written in other capitals
    assert goats.good("own", "X", "weight=kg=42,5", "CAE=negative").last == f"{ANNA}: kept: change 2"
    assert goats.good("own", "X").out.splitlines() == ["X  Anna", "  CAE: negative", "  Weight=kg: 42.5"]
    assert "  CAE           negative\n" in goats.good("show", "X").out
    goats.good("own", "X", "CAE=")
    assert "  CAE: -\n" in goats.good("own", "X").out
    told = "'Colour=red' doesn't begin with the title of an own column and =: there are CAE, Weight=kg"
    goats.wrong(told, "own", "X", "Colour=red")
    goats.wrong("CAE: 'perhaps' isn't one of 'negative'", "own", "X", "CAE=perhaps")


def test_owners(goats: Desk) -> None:
    said = "--number", "17", "--address", "Am Hang 1\nTal", "--mail", "m@example.org", "--telephone", "0123"
    assert goats.good("owner", "meier", *said).last == "meier is kept: change 2"
    shown = goats.good("owner", "Meier").out.splitlines()
    assert shown[0] == "Meier" and "  address       Am Hang 1, Tal" in shown and "  animals       2, 2 living" in shown
    [meier] = [one for one in csv.DictReader(io.StringIO(goats.good("owner").out)) if one["owner"] == "Meier"]
    assert (meier["member_number"], meier["animals"]) == ("17", "2")
    goats.good("owner", "Meier", "--name", "Meyer")
    assert "  breeder       Huber\n" in goats.good("show", "X").out and "Meyer" in goats.good("show", "X").out
    goats.wrong("the book has no owner 'Meier'", "owner", "Meier")
    goats.wrong("this is the same owner", "owner", "Huber", "--into", "Huber")
    goats.good("owner", "Meyer", "--into", "Huber")
    assert "  animals       3, 3 living" in goats.good("owner", "Huber").out
    goats.wrong("say one of what is kept", "owner", "Huber", "--into", "Meyer", "--mail", "x@example.org")
    goats.wrong("owner needs the owner's name", "owner", "--mail", "x@example.org")
    goats.wrong("would be gone for good", "owner", "Huber", "--erase")
    goats.good("owner", "Huber", "--erase", "--anyway")
    assert "Huber" not in goats.good("owner").out and b"Huber" not in (goats.room / "book/book.sqlite").read_bytes()
    goats.good("verify")


def test_newborn(goats: Desk) -> None:
    """What is kept of a newborn stands on its birth."""
    goats.good("birth", "Y", "--sex", "f", "--day", "2024-01-01", "--dam", "X")
    goats.good("note", "Y", "weak")
    goats.good("own", "X", "CAE=negative")
    goats.wrong("3", "undo", "--change", "2")
    goats.good("undo", "--change", "2", "--with-later")
    goats.wrong("the book has no animal 'Y'", "note", "Y")
    assert "  CAE: negative\n" in goats.good("own", "X").out
    goats.good("verify")


def test_going_back(goats: Desk) -> None:
    """What goes is said before, and whoever sits at a terminal is asked."""
    goats.good("note", "X", "first")
    goats.good("own", "X", "CAE=negative")
    before, first, second, after = goats.good("undo", "--to", "1").out.splitlines()
    assert before == "this takes back 2 changes, which `undo --to 3` would bring back:"
    assert first.startswith("  3 ") and first.endswith("wrote own columns") and second.endswith("wrote a note")
    assert after.endswith("brought back the state after change 1")
    assert goats.good("note", "X").out == "X  Anna: no notes\n"
    assert "nothing is changed" in asked(goats, "no\n", "undo", "--to", "3")
    assert "brought back the state after change 3" in asked(goats, "y\n", "undo", "--to", "3")
    assert "first" in goats.good("note", "X").out


def asked(desk: Desk, answer: str, *words: str) -> str:
    """What a word tells at a terminal where that is answered."""
    terminal, inside = pty.openpty()
    os.write(terminal, answer.encode())
    env = {"PATH": os.environ["PATH"], "HERDBOOK": desk.program, "LANG": "C"}
    command = [str(TOP / "gudokeyi"), *words]
    done = subprocess.run(
        command, cwd=desk.room, env=env, stdin=inside, stdout=subprocess.PIPE, stderr=subprocess.STDOUT, text=True
    )
    os.close(terminal)
    os.close(inside)
    assert "Bring it back? [y/N]" in done.stdout
    return done.stdout


@pytest.mark.parametrize("title", ["Breeder", "Züchter", "Éleveur", "Name of breeder"])
def test_column_of_breeders(desk: Desk, title: str) -> None:
    """Whom the society's own column names bred an animal; where it names nobody nobody is invented."""
    rows = f"id,name,sex,birth,sire,dam,owner,{title}\nD,Berta,f,2001-02-01,,,Huber,\n"
    rows += "X,Anna,f,2003-03-01,,D,Meier,Garside\nY,Eva,f,2004-03-01,,D,Meier,\n"
    (desk.room / "sheet.csv").write_text(rows, encoding="utf-8")
    done = desk.good("import", "sheet.csv")
    assert "  breeder       Huber\n" in desk.good("show", "X").out
    told = (
        f"to look at: the column '{title}' isn't kept, with 'Garside' in line 3: certificates name the owner of the "
        f"dam at the birth as the breeder"
    )
    done.shows(told, "  to have the breeders of the list:")
    assert told not in desk.good("import", "sheet.csv", "--preview", "--own", f"{title}=none").out
    [command] = [one for one in done.commands() if f"{title}=text" in one]
    assert told not in desk.typed(command).out
    shown = [line.split() for line in desk.good("show", "X").out.splitlines()]
    assert [*title.split(), "Garside"] in shown and all("Huber" not in line for line in shown if line[:1] == ["breeder"])
    said = {"Garside": "X", "not known": "Y"}
    for breeder, id in said.items():
        desk.good("certificate", id, "--out", f"{id}.html")
        page = (desk.room / f"{id}.html").read_text(encoding="utf-8")
        assert f'<dt>Breeder</dt><dd><div class="lines">{breeder}</div></dd>' in page
        assert "who owned the dam" not in page


def test_breeders_that_the_book_finds(desk: Desk) -> None:
    """Breeders who are the owners of the dams, and of founders their own, aren't told; others are, as many as there
    are."""
    rows = "id,name,sex,birth,sire,dam,owner,Breeder\nD,Berta,f,2001-02-01,,,Huber,huber\n"
    rows += "X,Anna,f,2003-03-01,,D,Meier,Huber\nY,Eva,f,2004-03-01,,X,Huber,MEIER\nZ,Ida,f,2004-03-02,,D,Lang,?\n"
    for _ in range(2):
        assert "Breeder' isn't kept" not in desk.take(rows).told
    told = "to look at: the column 'Breeder' isn't kept, with "
    assert told + "'Garside' in line 2:" in desk.take(rows.replace(",huber", ",Garside")).out
    assert told + "'Meier' in line 3:" in desk.take(rows.replace("Meier,Huber", "Meier,Meier")).out
    others = rows.replace("MEIER", "Lang").replace("?", "Lange")
    assert told + "2 other breeders, the first 'Lang' in line 4:" in desk.take(others).out
