"""Anything of an animal is corrected by a word: the register takes all of it, or nothing is changed, and what was
before stays in the history."""
from __future__ import annotations

import contextlib
import pathlib
import re
import shutil
import sqlite3

import pytest

from front_desk.desk import Desk

TITLES = "id,name,sex,born,sire,dam,owner,since,exit\n"
ROWS = {
    "S1": "S1,Sultan,M,2015-03-01,,,Mill,,\n", "D1": "D1,Dora,F,2015-04-01,,,Mill,,\n",
    "D2": "D2,Dina,F,2016-04-01,,,Oak,,\n", "A1": "A1,Anna,F,2018-03-01,S1,D1,Mill,,\n",
    "A2": "A2,Alf,M,2019-03-05,S1,D1,Oak,2020-01-05,2021\n", "B1": "B1,Bella,F,2021-04-01,A2,A1,Oak,,\n",
}  # fmt: skip
SHEET = TITLES + "".join(ROWS.values())
COLUMNS = "id,name,number,sex,birth,sire,dam,owner,exit"


@pytest.fixture
def goats(desk: Desk) -> Desk:
    desk.take(SHEET)
    return desk


def rows(desk: Desk) -> dict[str, dict[str, str]]:
    return {row["id"]: row for row in desk.listed("list", "--columns", COLUMNS)}


def told_in_history(desk: Desk, change: int) -> str:
    return desk.good("history", str(change)).out


def test_all_at_once(goats: Desk) -> None:
    """One change has all of it, the register is told it anew, and the history has each value before and after. The
    others stay as they are."""
    before = rows(goats)
    done = goats.good(
        "correct", "A1", "--id", "A 01", "--name", "Annabell", "--born", "2018-03-02", "--dam", "D2", "--embryo", "yes",
        "--owner", "Mill", "--owner", "Oak=2019-05-01", "--exit", "2022-02-03", "--reason", "slaughtered",
    )  # fmt: skip
    assert done.out.startswith("A 01 (HOLGBRF000000000004): corrected: change 2\n")
    after = rows(goats)
    assert after.pop("A 01") == before.pop("A1") | {
        "id": "A 01", "name": "Annabell", "birth": "2018-03-02", "dam": "D2", "owner": "Oak", "exit": "2022-02-03",
    }  # fmt: skip
    # its offspring has it as its dam by its id of now
    assert after.pop("B1") == before.pop("B1") | {"dam": "A 01"} and after == before
    told = told_in_history(goats, 2)
    for text in (
        "id A 01, before A1", "name Annabell, before Anna", "birth day 2018-03-02, before 2018-03-01", "dam D2, before D1",
        "owner Oak, before Mill", "exit 2022-02-03, before none", "exit reason slaughtered, before none",
        "stored embryo yes, before none", "animals changed: 1\n",
        "owners: Mill, Oak since 2019-05-01; before: Mill\n", "of edition 2, which keeps 3 commands of edition 1",
    ):  # fmt: skip
        assert text in told, text
    shown = goats.good("show", "A 01").out
    assert "took the sheet" in shown and "name Annabell, before Anna" in shown
    goats.good("verify")


def test_sex_and_number(goats: Desk) -> None:
    """An animal without offspring gets a number with the letter of its sex, whose digits stay."""
    goats.good("correct", "D2", "--sex", "m", "--castrated", "yes")
    assert rows(goats)["D2"]["number"] == "HOLGBRM000000000003" and rows(goats)["D2"]["sex"] == "M"
    assert "castrated yes, before none" in told_in_history(goats, 2)
    goats.good("verify")


REFUSED = [
    (["S1", "--born", "2019-01-01"], ["A1 Anna, born 2018-03-01, with S1 Sultan, born 2019-01-01: its sire isn't at least a day older (refusal 7)"]),
    (["S1", "--sire", "A2"], ["S1 Sultan, born 2015-03-01, with A2 Alf, born 2019-03-05: its sire isn't at least a day older (refusal 7)"]),
    (["A2", "--sex", "f"], ["B1 Bella, born 2021-04-01, with A2 Alf, born 2019-03-05: its sire isn't male (refusal 5)"]),
    (["A1", "--owner", "Mill", "--owner", "Oak=2017-05-01"],
     ["A1 Anna: the owner Oak since 2017-05-01: the day is before its birth, or before its owner got it (refusal 14)"]),
    (["D1", "--born", "2020-01-01", "--exit", "2018-05-01", "--name", "Dorle"],
     ["A2 Alf, born 2019-03-05, with D1 Dorle, born 2020-01-01: its dam isn't at least a day older (refusal 8)",
      "D1 Dorle: the exit on 2018-05-01: the day is before its birth, or before its owner got it (refusal 14)"]),
    (["D1", "--exit", "2018-05-01"],
     ["D1 Dora: the exit on 2018-05-01: it has offspring born after the day (refusal 16): A2 Alf, born 2019-03-05"]),
]  # fmt: skip


@pytest.mark.parametrize("words, told", REFUSED, ids=[" ".join(words) for words, _ in REFUSED])
def test_refused(goats: Desk, words: list[str], told: list[str]) -> None:
    """What the register refuses is said with ids, names and days, each for itself, and nothing is changed."""
    done = goats.wrong("nothing is changed: correct what stands against it first", "correct", *words)
    said = [line.removeprefix("gudokeyi: ") for line in done.err.splitlines()]
    assert [line for line in told if line not in said] == []


WRONG = [
    (["A1", "--id", "S1"], "the book has another animal with the id S1 Sultan"),
    (["A1", "--id", " "], "an animal needs an id"),
    (["A1", "--id", "NN"], "'NN' is a word for an unknown parent"),
    (["A1", "--id", "x" * 61], "an id has 60 letters at most"),
    (["A1", "--name", "Anna"], "the book has all of it already"),
    (["A1"], "correct needs what is to be otherwise"),
    (["A1", "--castrated", "yes"], "a female can't be castrated"),
    (["A1", "--reason", "died"], "a reason is written, and no exit"),
    (["A1", "--born", "2199-01-01"], "the day 2199-01-01 is after today"),
    (["A1", "--born", "soon"], "'soon' is no day"),
    (["A1", "--born", "2019-02-30"], "'2019-02-30' is no day"),
    (["A2", "--exit", "99.99.2021"], "'99.99.2021' is no day"),
    (["A1", "--name", "Ann\x1ba"], "'Anna' has an invisible character in it"),
    (["A1", "--owner", "\u202eMill"], "'Mill' has an invisible character in it"),
    (["A1", "--owner", "Mill", "--owner", "Oak"], "the day is missing since which Oak has it"),
    (["A1", "--owner", "Mill", "--owner", "Mill=2020-01-01"], "Mill stands twice"),
    (["A1", "--sire", "nobody"], "the book has no animal 'nobody'"),
]  # fmt: skip


@pytest.mark.parametrize("words, told", WRONG, ids=[" ".join(words)[:30] for words, _ in WRONG])
def test_mistakes(goats: Desk, words: list[str], told: str) -> None:
    goats.wrong(told, "correct", *words)


def test_exits(goats: Desk) -> None:
    """An exit is taken back, has no day, that of a month or year, and a reason; it may come before owners' days, if
    these are corrected with it."""
    for words, told in (
        (["--exit", "none"], "exit none, before 2021-12-31 (inferred)"),
        (["--exit", "unknown", "--reason", "sold"], "exit day unknown (inferred), before none; exit reason sold, before none"),
        (["--exit", "03.2022", "--reason", "lost"], "exit 2022-03-31 (inferred), before day unknown (inferred); exit reason lost, before sold"),
        (["--exit", "2019-09-01", "--owner", "Oak", "--reason", "none", "--anyway"], "exit 2019-09-01, before 2022-03-31 (inferred); exit reason none, before lost"),
    ):  # fmt: skip
        change = re.search(r"change (\d+)", goats.good("correct", "A2", *words).out)
        assert change and told in told_in_history(goats, int(change[1])), told
        goats.good("verify")
    assert "owner since 2019-03-05, before 2020-01-05" in told_in_history(goats, 5)


def test_birth_of_a_month(goats: Desk) -> None:
    """Of a month, a year or nothing the day is inferred between its parents and its offspring."""
    for said, day in (
        ("05.2018", "2018-05-16"),
        ("2018", "2018-07-02"),
        ("unknown", "2019-04-02"),
        ("2021", "2021-03-31"),
    ):
        goats.good("correct", "A1", "--born", said)
        assert rows(goats)["A1"]["birth"] == f"{day} (inferred)", said
        goats.good("verify")


def test_sheet_again(goats: Desk) -> None:
    """Cells that say what they said before change nothing back, though the sheet has the id of before; others are
    news."""
    goats.good(
        "correct", "A1", "--id", "A 01", "--name", "Annabell", "--born", "2020-04-02", "--dam", "D2", "--sire", "0"
    )  # fmt: skip
    goats.good("correct", "B1", "--sex", "m", "--owner", "Elm")
    before = rows(goats)
    done = goats.take(SHEET)
    assert rows(goats) == before and "0 new, 0 changed" in done.last
    done.tells(
        "line 5: A 01: inferred: its row has A1, which was its id before that was corrected",
        "line 5: A 01: inferred: birth 2020-04-02, as filed by hand, since its cell is as in the last sheet",
        "line 7: B1: inferred: sex M, as filed by hand, since its cell is as in the last sheet",
    )
    # the society corrected its sheet in part
    news = SHEET.replace("A1,Anna,F,2018-03-01", "A 01,Anni,F,2020-03-09").replace("B1,Bella,F", "B1,Bella,female")
    goats.take(news.replace("A2,A1,Oak", "A2,A 01,Oak"))
    assert rows(goats) == before | {"A 01": before["A 01"] | {"name": "Anni", "birth": "2020-03-09"}}
    goats.good("verify")


def test_former_id(goats: Desk) -> None:
    """It is found, until another animal has it, which gets a number of its own; undone it is the id again."""
    goats.good("correct", "A1", "--id", "A 01")
    assert goats.good("show", "a1").out.startswith("A 01  Anna\n")
    goats.good("birth", "A1", "--sex", "f", "--day", "2022-01-01", "--dam", "D2", "--anyway")
    assert goats.good("show", "A1").out.startswith("A1\n  number        HOLGBRF000000000007\n")
    assert "A1" not in goats.good("show", "A 01").out.partition("history")[0]
    goats.good("undo")
    goats.good("undo", "--to", "1")
    assert goats.good("show", "A1").out.startswith("A1  Anna\n")
    goats.wrong("the book has no animal 'A 01'", "show", "A 01")
    goats.good("birth", "A 01", "--sex", "f", "--day", "2022-01-01", "--anyway")
    assert goats.numbers()["A 01"] == "HOLGBRF000000000008"
    goats.good("verify")


def test_back_and_forth(goats: Desk) -> None:
    """An id that an animal had and has again is no former one; the other is."""
    goats.good("correct", "A1", "--id", "X")
    goats.good("correct", "X", "--id", "A1")
    with contextlib.closing(sqlite3.connect(goats.room / "book/book.sqlite")) as connection:
        assert connection.execute("SELECT id FROM former_id WHERE until IS NULL").fetchall() == [("X",)]
    assert goats.good("show", "X").out.startswith("A1  Anna\n")


def test_journal_of_others(goats: Desk) -> None:
    """Where births of before can't stay where they are all stand by their days; what was refused is forgotten behind
    the place that is written anew, and other animals keep their owners and exits."""
    goats.good("transfer", "D2", "--to", "Elm", "--day", "2020-01-01")
    goats.run("exit", "D1", "--day", "2017-01-01")
    goats.good("birth", "D3", "--sex", "f", "--day", "2016-09-01", "--owner", "Elm")
    before = rows(goats)
    goats.good("correct", "A1", "--dam", "D3", "--born", "2018-03-04")
    assert rows(goats) == before | {"A1": before["A1"] | {"dam": "D3", "birth": "2018-03-04"}}
    assert "refused" not in goats.good("history", "5").out and len(goats.commands()) == 10
    goats.good("verify")


def test_book_of_before(desk: Desk) -> None:
    """A book of an earlier version is corrected too."""
    (desk.room / "book").mkdir()
    shutil.copy(pathlib.Path(__file__).resolve().parent / "books/0.12/book.sqlite", desk.room / "book")
    before = desk.good("list").out
    desk.good("correct", "d", "--name", "Otto", "--id", "d-1")
    desk.good("verify")
    desk.good("undo")
    assert desk.good("list").out == before
