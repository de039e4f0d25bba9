"""Mistakes and limits: a sentence, status 1, and no file is changed."""
from __future__ import annotations

import os
import subprocess

import pytest

from front_desk.desk import CALLED, SECONDS, TOP, Desk


GOOD = "id,sex,born,sire,dam,exit\na,F,2001-01-01,,,\n"
# sheets of which nothing is taken, and what is told of them
SHEETS: list[tuple[str | bytes, str]] = [
    ("", "is empty: its first row has to have the titles"),
    (
        "id,born\na,2001\n",
        (
            "line 1: no column for sire or dam is found. The titles are 'id', 'born'. Say which it is by --columns, "
            "with the field, = and its title"
        ),
    ),
    ("ab,cd\n1,2\n", "line 1: no column for id or birth or sire or dam is found"),
    ("id,born,dog\na,2001,Rex\n", "line 1: no column for sire or dam is found"),
    ("ab,cd\n1,dog\n", "line 1: no column for id or birth or sire or dam is found. The titles are 'ab', 'cd'"),
    ("id,born,sire,dam\n", "has no row that can be taken"),
    ("id,born,sire,dam\n,2001,,\n", "line 2: the row is left out: it has no id"),
    ('id,born,sire,dam\na,2001,,\n"b,2002,,\n', 'line 3: a cell begins with a quotation mark (")'),
    (b"id,born,sire,dam\n\x81\x8d,2001,,\n", "is no text in UTF-8 or Windows-1252"),
    (b"\xd0\xcf\x11\xe0abc", "is an old Excel file (.xls): save the sheet as CSV or .xlsx"),
    ("id,born,sire,dam\na,03/25/2001,,\n", "line 2: a: birth day: '03/25/2001' has the month first"),
    (
        "id,born,sire,dam\na,x,,\nb,y,,\nc,z,,\nd,2001,,\n",
        (
            "3 of 4 cells that say something in the column 'born' can't be read, the first in line 2: 'x', "
            "'y', 'z': write days as 2001-03-01"
        ),
    ),
    (
        'id,born,sire,dam\na,2001,,\nb,2003,"2,76E+14",\n',
        (
            "line 3: '2,76E+14' is a long number that the spreadsheet has cut: give the columns of ids the "
            "format text"
        ),
    ),
    (
        "id,sex,born,sire,dam,exit\na,F,2001,,,Hof\nb,F,2001,,,Hof\nc,F,2001,,,Hof\n",
        (
            "3 of 3 cells that tell of an exit in the column 'exit' can't be read, the first in line 2: "
            "'Hof' (3 times): such an animal counts as gone; write days as 2001-03-01 or 01.03.2001, a word such as "
            "sold, verkauft or vendu where the day isn't known, and nothing or alive, lebt or vivant where the animal "
            "hasn't left; or name another column"
        ),
    ),
]


@pytest.mark.parametrize(("text", "told"), SHEETS)
def test_mistaken_sheets(desk: Desk, text: str | bytes, told: str) -> None:
    """Each is told in a sentence, with status 1, and nothing is written."""
    desk.wrong(told, "import", desk.write("sheet.csv", text))


# words that ask for what can't be done, before there is a book, and what is told of them
WORDS: list[tuple[list[str], str]] = [
    (["import", "absent.csv"], "absent.csv can't be read: No such file or directory. Is the name right?"),
    (["import", "."], "is a folder: name the sheet's file"),
    (["import"], "import reads one file: name a sheet, or a pedigree with --pedigree"),
    (["import", "good.csv", "--columns", "id=Tag"],
     "line 1: there is no column 'Tag', which --columns names for id"),
    (["import", "good.csv", "--columns", "tag=id"],
     "--columns tag=id: write FIELD=TITLE, where FIELD is one of id, name, sex"),
    (["import", "good.csv", "--breed", "hol"], "'hol' isn't three letters A to Z"),
    (["import", "good.csv", "--book", "file"], "the folder file can't be written"),
    (["import", "good.csv", "--day", "1/2/2003"], "--day: '1/2/2003' isn't a day written as 2001-03-01 or 01.03.2001"),
    (["import", "good.csv", "--day", "2199-12-31"],
     "--day: the day 2199-12-31 is after today: write one that has come"),
    (["list"],
     "there is no book in the folder book: take a sheet first, or go to the folder in which you took one\n"
     f"gudokeyi:   if good.csv is the sheet:\n    {CALLED} import good.csv\n"),
    (["list", "--book", "/no where"],
     "there is no book in the folder /no where: take a sheet first\n"
     f"gudokeyi:   if good.csv is the sheet:\n    {CALLED} import good.csv --book '/no where'\n"),
    (["yodel"], f"there is no word 'yodel': `{CALLED} --help` shows"),
    (["Lst"], "there is no word 'Lst': is list meant? `"),
    ([], "a word is lacking that says what to do, as import, list or show"),
]  # fmt: skip


@pytest.fixture
def good_desk(desk: Desk) -> Desk:
    """A desk with a sheet that can be taken, and a file that is no folder."""
    desk.write("good.csv", GOOD)
    desk.write("file", "no folder")
    return desk


@pytest.mark.parametrize(("words", "told"), WORDS)
def test_mistaken_words(good_desk: Desk, words: list[str], told: str) -> None:
    good_desk.wrong(told, *words)


# words that ask for what can't be done with a book of one female, and what is told of them
WORDS_WITH_A_BOOK: list[tuple[list[str], str]] = [
    (["certificate", "b"], "the book has no animal 'b': `find` looks for a part"),
    (["mating", "--dam", "a", "HOLGBRM000000000009"],
     "the book has no animal 'HOLGBRM000000000009': `find` looks for a part"),
    (["show", "good.csv"], "the book has no animal 'good.csv', which is a file"),
    (["kinship", "--among", "a"], "there is no file a: write the ids into one"),
    (["mating", "--dam", "a"], "the book has no living male that may be a sire: name one"),
    (["mating", "--dam", "a", "--left"], "the book has no living male that may be a sire: name one\n"),
    (["mating", "--dam", "a", "a", "--all"], "not both"),
    (["mating", "--dam", "a", "a", "--left"], "or all of them, not both: leave out --all and --left"),
    (["mating", "--dam", "a", "--matrix"], "--matrix is for many dams: name a file by --dams"),
    (["mating", "--dam", "a", "--dams", "good.csv"], "that are named, or those of a file, not both"),
    (["mating", "--dams", "good.csv", "--sires", "good.csv", "a"], "that are named, or those of a file, not both"),
    (["mating", "--dams", "good.csv", "--all"], "--all and --left are for one dam"),
    (["mating", "--dams", "good.csv", "--left"], "--all and --left are for one dam"),
    (["pedigree", "DE", "01", "2345"],
     "there is no room for '01 2345' here: put an id or a name with blanks between quotation marks"),
    (["list", "--language", "de"], f"there is no option --language here: `{CALLED} list --help` shows"),
    (["list", "--out", "book"], "'book' is a folder: name a file"),
    (["inverse", "--matrix-market", "."], "'.' is a folder: name a file"),
    (["pedigree", "a", "--generations", "11"], "'11' isn't 1 to 10"),
    (["inverse"], "name a pedigree and --out, or of a book --matrix-market"),
    (["list", "--sex"], "nothing stands behind --sex"),
    (["list", "--sex", "x"], "--sex: 'x' is no word for a sex: write m or f"),
    (["breed", "--living", "--owner", "x"], "--owner and --living don't go together"),
    (["birth", "n. n.", "--sex", "f", "--day", "2024-03-01"],
     "'n. n.' is a word for an unknown parent: give the animal another id"),
    (["birth", "b", "--sex", "f", "--day", "2199-12-31"], "the day 2199-12-31 is after today: write one that has come"),
    (["transfer", "a", "--to", "x", "--day", "2199-12-31"], "the day 2199-12-31 is after today"),
    (["transfer", "a", "--to", "", "--day", "2024-03-01"], "the new owner is missing: write a name"),
    (["transfer", "a", "--to", "?", "--day", "2024-03-01"], "the new owner is missing: write a name"),
    (["exit", "a", "--day", "31.12.2199"], "the day 2199-12-31 is after today"),
    (["certificate", "a", "--out", "file/x.html"], "file/x.html can't be written: there is no folder file"),
]  # fmt: skip


@pytest.fixture
def book_desk(good_desk: Desk) -> Desk:
    """A desk with a book of one female, too."""
    good_desk.good("import", "good.csv")
    return good_desk


@pytest.mark.parametrize(("words", "told"), WORDS_WITH_A_BOOK)
def test_mistaken_words_with_a_book(book_desk: Desk, words: list[str], told: str) -> None:
    book_desk.wrong(told, *words)


SAY = "say where it is, as export HERDBOOK=/home/me/herdbook"


@pytest.mark.parametrize(("path", "told"), [
    ("/nowhere/herdbook", f"/nowhere/herdbook, the program of the herd book, isn't there: {SAY}"),
    ("/usr/bin", f"/usr/bin is a folder, not the program of the herd book: {SAY}"),
])  # fmt: skip
def test_no_program(book_desk: Desk, path: str, told: str) -> None:
    done = book_desk.run("verify", program=path)
    assert done.status == 1
    assert done.err == f"gudokeyi: {told}\n"


def test_program_that_cannot_be_run(book_desk: Desk) -> None:
    copied = book_desk.room / book_desk.write("copied here", "not to be run")
    done = book_desk.run("verify", program=str(copied))
    assert done.status == 1
    assert done.err == f"gudokeyi: {copied} can't be run (Permission denied): allow it, as chmod u+x '{copied}'\n"


def test_another_program(book_desk: Desk) -> None:
    done = book_desk.run("verify", program="/bin/true")
    assert done.status == 1
    assert "the program answered 0 of 1 command:" in done.err
    done = book_desk.run("import", "good.csv", program="/bin/false")
    assert done.status == 1
    assert "the program `herdbook file` can't do it: it ended with status 1" in done.err


def test_closed_pipe(book_desk: Desk) -> None:
    """A reader who has enough."""
    pipe = f"'{TOP}/./gudokeyi' list | true"
    known = os.environ | {"HERDBOOK": book_desk.program}
    done = subprocess.run(["sh", "-c", pipe], cwd=book_desk.room, env=known, capture_output=True, timeout=SECONDS)
    assert not done.stderr


def test_bull_as_a_dam(desk: Desk) -> None:
    desk.good("import", desk.write("bull.csv", "id,sex,born,sire,dam\nbull,M,2001,,\nson,M,2005,bull,\n"))
    desk.wrong("bull: the dam isn't female (fault 4): name a female as the dam", "mating", "--dam", "bull")


def test_limits(desk: Desk) -> None:
    """A path of 61 steps and an animal too many are told before anything is written."""

    def line(count: int) -> str:
        rows = (f"a{at},M,{1900 + at},{f'a{at - 1}' if at else ''},\n" for at in range(count))
        return "id,sex,born,sire,dam\n" + "".join(rows)

    desk.take(line(61), "--book", "deep")
    done = desk.wrong(
        "line 63: a61: a path of parents would be longer than 60 steps, which is the limit (refusal 10)",
        "import",
        desk.write("deep.csv", line(62)),
    )
    assert "the longest path has 61 steps, 1 more than 60, from a61 (line 63) up to a0 (line 2)" in done.err
    many = "id,sex,born,sire,dam\n" + "".join(f"{at + 1},M,2001-01-01,,\n" for at in range(60_001))
    desk.wrong(
        "the sheet and the book have 60,001 animals together, and a book holds at most 60,000",
        "import",
        desk.write("many.csv", many),
    )
    desk.write("deep.txt", "".join(f"{at + 1} {at} 0\n" for at in range(62)))
    desk.wrong("longer than 60 steps", "import", "--pedigree", "deep.txt")
