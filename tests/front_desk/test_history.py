"""The history of a book: single commands, what stays by hand, and undo."""
from __future__ import annotations

import hashlib
import os
import pwd
import random
import re

import pytest

from front_desk.desk import Desk
from front_desk.whole import FLOCK, GROWN, changes_of

CALF = ["birth", "calf", "--sex", "f", "--day", "2012-03-04", "--sire", "a8", "--dam", "a9", "--owner", "Neuer Hof"]


def test_single_commands(flock_desk: Desk) -> None:
    """Each is filed with its reply; the answer is the reply in words."""
    number = "HOLGBRF000000000017"
    assert flock_desk.good(*CALF).out == f"calf ({number}): the birth on 2012-03-04 is accepted: change 2\n"
    assert (
        flock_desk.good("parents", "calf", "--dam", "0").out == f"calf ({number}): the parents are accepted: change 3\n"
    )
    flock_desk.good("transfer", "calf", "--to", "farm 1", "--day", "2013-01-01")
    flock_desk.good("exit", "calf", "--day", "2014-01-01")
    assert flock_desk.commands()[-4:] == [
        f"birth,{number},2012-03-04,{flock_desk.numbers()['a8']},{flock_desk.numbers()['a9']},,4,",
        f"parents,{number},,{flock_desk.numbers()['a8']},0,,,",
        f"transfer,{number},2013-01-01,,,4,2,",
        f"exit,{number},2014-01-01,,,,,",
    ]
    assert "calf: owner farm 1, before Neuer Hof" in flock_desk.good("history", "4").out
    # a number is given to no other animal, and one that was in the book once has its digits again
    assert "taken back" not in flock_desk.good("history", "4").out
    flock_desk.good("undo", "--to", "1")
    assert flock_desk.good("history", "4").out.splitlines()[1] == "it was taken back by change 6"
    assert not [number for number in "16" if "taken back by" in flock_desk.good("history", number).out]
    flock_desk.good("exit", "a0", "--day", "2012-01-01")
    assert "(HOLGBRF000000000018)" in flock_desk.good("birth", "other", "--sex", "f", "--day", "2012-03-04").out
    again = ["birth", "calf", "--sex", "m", "--day", "2012-03-04"]
    assert "(HOLGBRM000000000017)" in flock_desk.good(*again).out
    flock_desk.good("undo")
    assert "(SUGGBRM000000000017)" in flock_desk.good(*again, "--breed", "SUG").out
    assert "is whole" in flock_desk.good("verify").out


@pytest.mark.parametrize(("words", "refusal"), [
    (["birth", "a0", "--sex", "f", "--day", "2012-03-04"], "the number is in the book already (refusal 1)"),
    (["birth", "c", "--sex", "f", "--day", "2012-03-04", "--sire", "a9"], "its sire isn't male (refusal 5)"),
    (["parents", "a0", "--dam", "a9"], "its dam isn't at least a day older (refusal 8)"),
    (["transfer", "a0", "--to", "farm 0", "--day", "2012-03-04"], "giver and taker are the same owner (refusal 15)"),
    (["transfer", "a0", "--to", "x", "--from", "farm 1", "--day", "2012-03-04"], "isn't its owner (refusal 13)"),
    (["exit", "a0", "--day", "1999-01-01"], "the day is before its birth, or before its owner got it (refusal 14)"),
])  # fmt: skip
def test_refused_commands(flock_desk: Desk, words: list[str], refusal: str) -> None:
    """The animals stay, and the history tells of the command with its reply."""
    listed, owners = flock_desk.good("list").out, flock_desk.owners()
    done = flock_desk.run(*words)
    assert done.status == 3 and refusal in done.err and "change 2 of the history" in done.err and not done.out
    assert flock_desk.good("list").out == listed and flock_desk.owners() == owners
    shown = flock_desk.good("history", "2").out
    assert refusal in shown and "animals changed: 0" in shown
    assert len(flock_desk.commands()) == 17 and "is whole" in flock_desk.good("verify").out
    # a taking goes on behind it
    assert " 16 animals, 0 new, 0 changed," in flock_desk.take(FLOCK).last


def test_by_hand_between_sheets(flock_desk: Desk) -> None:
    """A cell that is as in the last sheet doesn't override a later command; one that was changed does."""
    flock_desk.good(*CALF)
    flock_desk.good("transfer", "a0", "--to", "y", "--day", "2012-01-01")
    flock_desk.good("exit", "a1", "--day", "2012-01-01")
    flock_desk.good("parents", "a9", "--sire", "0")
    parents = flock_desk.parents()
    done = flock_desk.take(FLOCK)
    assert " 17 animals, 0 new, 0 changed, 3 inferred, 0 left out, 0 added, 0 gone" in done.last
    done.tells(
        "line 2: a0: inferred: owner y, as filed by hand, since its cell is as in the last sheet",
        "line 3: a1: inferred: exit 2012-01-01, as filed by hand, since its cell is as in the last sheet",
        "line 11: a9: inferred: sire none, as filed by hand, since its cell is as in the last sheet",
    )
    assert flock_desk.parents() == parents
    changed = FLOCK.replace("a0,M,2000-01-01,,,farm 0,", "a0,M,2000-01-01,,,farm 2,")
    assert " 1 changed, 3 inferred," in flock_desk.take(changed).last
    assert "calf" in flock_desk.numbers()
    # with a row it is one of the sheet's, and gone when that is missing again
    flock_desk.take(FLOCK + "calf,F,2012-03-04,a8,a9,Neuer Hof,\n")
    assert " 1 gone: " in flock_desk.take(FLOCK).last


def test_cells_that_say_the_same(desk: Desk) -> None:
    """A parent by its id or its name, an unknown one and a day may be written otherwise, also by a pedigree: what was
    filed by hand since the first sheet stays."""
    rows = "id,name,sex,birth,sire,dam,owner,since,exit\n" + "".join((
        "b,Bob,m,2000-02-01,{0},,,,\n", "e,Eva,f,2000-03-01,,,,,{1}\n", "a,Anna,f,2003-01-01,{0},,{2}\n",
        "d,Dora,f,2005-01-01,{3},\n",
    ))  # fmt: skip
    desk.take(rows.format("", "", "Nord,01.05.2004,", "Bob,Eva,,"))
    # this exit is left out, since the book has a later calf: the day by hand is another one
    sheet = rows.format("", "01.03.2001", "Nord,01.05.2004,", "Bob,Eva,,")
    desk.take(sheet)
    desk.good("exit", "e", "--day", "2015-01-01")
    desk.good("transfer", "a", "--to", "Süd", "--day", "2010-01-01")
    desk.good("parents", "a", "--sire", "b", "--dam", "e")
    desk.good("parents", "d", "--sire", "0")
    desk.good("birth", "c", "--sex", "f", "--day", "2012-01-01", "--sire", "b", "--dam", "e")
    filed = desk.good("list", "--columns", "id,sire,dam,owner,exit").out
    pedigree = "id sire dam sex birth\nb 0 0 m 2000-02-01\ne 0 0 f 2000-03-01\na 0 0 f 2003-01-01\nd b e f 2005-01-01\n"
    desk.good("import", "--pedigree", desk.write("pedigree.txt", pedigree))
    again = rows.format("?", "2001-03-01", "Süd,2004-05-01,", "b,e,,") + "c,,f,2012-01-01,nn,?,,,\n"
    for text in sheet, again, sheet.replace("Nord", "Süd"):
        assert " 0 changed" in desk.take(text).last
        assert desk.good("list", "--columns", "id,sire,dam,owner,exit").out == filed
    assert desk.transfer_days() == ["2004-05-01", "2010-01-01"]


def test_undo(flock_desk: Desk) -> None:
    """The first state again: the same numbers, and the same bytes of the list."""
    first = flock_desk.good("list").out
    done = flock_desk.take(GROWN)
    grown, numbers = flock_desk.good("list").out, flock_desk.numbers()
    assert grown != first and "is written anew" in done.out
    assert "brought back the state after change 1" in flock_desk.good("undo").out
    assert flock_desk.good("list").out == first
    flock_desk.take(GROWN)
    assert flock_desk.good("list").out == grown and flock_desk.numbers() == numbers
    flock_desk.good("undo", "--to", "0")
    assert flock_desk.good("list").out.count("\n") == 1
    # no other animal gets a number that one had
    flock_desk.take("id,sex,born,sire,dam\nother,F,2001-01-01,,\n")
    assert flock_desk.numbers() == {"other": "HOLGBRF000000000018"}
    # an animal that the third change took away is away in its state, though it came back and went again since
    flock_desk.good("undo", "--to", "3")
    assert flock_desk.good("list").out == first
    flock_desk.good("undo", "--to", "4")
    assert flock_desk.good("list").out == grown
    assert changes_of(flock_desk.room / "book") == 8 and "is whole" in flock_desk.good("verify").out
    flock_desk.wrong("--to takes 0 to 7", "undo", "--to", "8")
    flock_desk.wrong("the book has no change 9: its changes are 1 to 8", "history", "9")
    assert [line.split("  ")[0] for line in flock_desk.good("history").out.splitlines()] == list("12345678")


def test_undo_passes_over_what_changed_nothing(flock_desk: Desk) -> None:
    """A sheet that says what the book has, a restoring, and a state that is brought back and was there already."""
    first = flock_desk.good("list").out
    flock_desk.good("exit", "a15", "--day", "2012-01-01")
    assert "is refused" in flock_desk.run("exit", "a15", "--day", "2012-01-01").err
    assert " 0 changed" in flock_desk.take(FLOCK).last
    flock_desk.good("backup", "copy")
    flock_desk.good("restore", "copy", "--anyway")
    flock_desk.good("undo", "--to", "2")
    assert "brought back the state after change 1" in flock_desk.good("undo").out
    assert flock_desk.good("list").out == first and "is whole" in flock_desk.good("verify").out


def test_what_is_kept_of_a_change(flock_desk: Desk) -> None:
    """Who made it, of which file, with which options, and what it did."""
    login, digest = pwd.getpwuid(os.getuid()).pw_name, hashlib.sha256(GROWN.encode()).hexdigest()
    flock_desk.take(GROWN, "--sexes", "x=m", "--strict")
    shown = flock_desk.good("history", "2").out.splitlines()
    told = f"{login}: took the sheet sheet.csv (17 animals, 1 changed, 1 inferred, 1 new)"
    assert re.fullmatch(r"2  \S+ \S+", shown[0].removesuffix(f"  {told}"))
    assert shown[1:3] == [f"file: {flock_desk.room / 'sheet.csv'}, SHA-256 {digest}", "options: --sexes x=m --strict"]


def test_undo_of_what_is_remembered(flock_desk: Desk) -> None:
    """An option that the book remembers goes with the taking that gave it, and so do the last cells."""
    other = FLOCK.replace("born", "day of tag")
    flock_desk.take(other, "--columns", "birth=day of tag")
    assert "=day of tag' (the book remembers these)" in flock_desk.take(other).out
    flock_desk.good("undo", "--to", "1")
    flock_desk.wrong("no column for birth is found", "import", "sheet.csv")
    # a cell that a sheet wrote which was undone isn't the one of the last sheet
    flock_desk.take(FLOCK.replace("a5,F,2001-01-06,,,farm 2", "a5,F,2001-01-06,,,Hof"))
    flock_desk.good("undo")
    flock_desk.good("transfer", "a5", "--to", "by hand", "--day", "2012-01-01")
    kept = "owner by hand, as filed by hand, since its cell is as in the last sheet"
    assert flock_desk.take(FLOCK).report == (f"line 7: a5: inferred: {kept}",)


def test_line_of_a_change(desk: Desk) -> None:
    """The name of a sheet, of its folder and an option stay in their lines, though they have ends of lines."""
    folder = desk.room / "in\nfolder"
    folder.mkdir()
    sheet = desk.write("in\nfolder/a\nb.csv", FLOCK.replace(",sire,", ',"the\nsire",', 1))
    desk.good("import", sheet, "--columns", "sire=the\nsire")
    assert "took the sheet a\\x0ab.csv (" in desk.good("history").out.splitlines()[0]
    lines = desk.good("history", "1").out.splitlines()
    assert lines[1].startswith("file: ") and "in\\x0afolder/a\\x0ab.csv, SHA-256 " in lines[1]
    assert lines[2] == "options: --columns sire=the\\x0asire"


def test_owner_as_it_is_written_now(desk: Desk) -> None:
    """History names an owner as it is written now, whichever name it came by."""
    rows = "id;sex;birth;sire;dam;owner\ns;M;2001-03-01;;;{}\nd;F;2001-03-02;;;{}\n"
    desk.take(rows.format("Meier", "Groß"))
    desk.take(rows.format("Meyer", "Groß"), "--owner", "Meier=Meyer")
    assert "owner Meyer" in desk.good("history", "1").out and "Meier" not in desk.good("history", "1").out
    desk.good("transfer", "d", "--to", "Meyer", "--day", "2010-01-01")
    assert "owner Meyer, before Groß" in desk.good("history", "3").out
    shown = desk.good("show", "d").out
    assert "owner Meyer, before Groß" in shown and "Meier" not in shown


def test_flock_over_three_takings(desk: Desk) -> None:
    """400 rows, taken three times with commands by hand between: what was filed stays, and each number too."""
    draw = random.Random(7)
    rows = [["id", "sex", "born", "sire", "dam", "owner", "exit"]]
    for at in range(400):
        old = at >= 80
        sire, dam = (2 * draw.randrange((at - 40) // 2), 2 * draw.randrange((at - 40) // 2) + 1) if old else (0, 0)
        parents = [f"n{sire}", f"n{dam}"] if old else ["", ""]
        day = f"{1990 + at // 20}-{at % 12 + 1:02}-{at % 28 + 1:02}"
        rows.append([f"n{at}", "MF"[at % 2], day, *parents, f"farm {at % 9}", ""])

    def text() -> str:
        return "".join(",".join(row) + "\n" for row in rows)

    desk.take(text())
    numbers = desk.numbers()
    sold = draw.sample(range(300, 400), 6)
    for at in sold[:3]:
        desk.good("exit", f"n{at}", "--day", "2015-01-01")
    for at in sold[3:]:
        desk.good("transfer", f"n{at}", "--to", "a new farm", "--day", "2015-01-01")
    desk.good("birth", "by hand", "--sex", "m", "--day", "2015-02-01", "--sire", "n390", "--dam", "n391")
    desk.good("parents", "n399", "--sire", "0")
    rows[1][5] = "farm of the sheet"
    assert ", 0 new, 1 changed, 8 inferred, " in desk.take(text()).last
    assert desk.parents()["n399"][0] == "" and desk.parents()["by hand"] == ("n390", "n391")
    assert desk.run("exit", "n399", "--day", "1980-01-01").status == 3
    rows[2][2] = "1990-02-01"
    done = desk.take(text())
    assert ", 0 new, 1 changed, 7 inferred, " in done.last and "is written anew" in done.out
    assert desk.numbers().items() >= numbers.items() and len(desk.numbers()) == 401
    exits = [line.split(",")[1] for line in desk.commands() if line.startswith("exit")]
    assert sorted(exits) == sorted(numbers[f"n{at}"] for at in sold[:3])
    assert sum(",2015-01-01," in line and line.startswith("transfer") for line in desk.commands()) == 3
    assert "is whole" in desk.good("verify").out
    shown = desk.good("history", "12").out
    assert re.search(r"journal: \d+ commands of edition 2, which keeps \d+ commands? of edition 1", shown)
    assert "n1: birth day 1990-02-01, before 1990-02-02" in shown
