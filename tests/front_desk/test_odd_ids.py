"""Ids that are written unlike nearly all others of a sheet."""
from __future__ import annotations

from collections.abc import Callable

import pytest

from front_desk.desk import Desk, Done

TITLES = "id;sex;birth;sire;dam\n"
IDS = [f"{410001 + 37 * at:08}" for at in range(30)]
ROWS = "".join(f"{id};f;2001-01-{1 + at:02};;\n" for at, id in enumerate(IDS))
OTHERS = "nearly all others, such as 00410001"


def told(done: Done) -> list[str]:
    """What is told of ids."""
    return [sentence for sentence in done.report if "nearly all others" in sentence]


def test_ids_unlike_others(desk: Desk) -> None:
    """Two ids in a cell, one with a remark, a signature, a number without its zeros, and letters of another alphabet:
    each is told once, and not any more where the book has it."""
    odd = ["00420001/02", "00420003 (alt: 00410001)", "gez. Huber", "420004"]
    rows = TITLES + ROWS + "".join(f"{id};f;2002-01-{at:02};;\n" for at, id in enumerate(odd, 1))
    done = desk.take(rows)
    unlike = f"is this row one animal? Its id is written unlike {OTHERS}. It is taken as one; if it is none, say "
    unlike += "--no-animal"
    done.tells(
        "line 33: 00420003 (alt: 00410001): to look at: is this row one animal? Its id has 00420003 and 00410001 in "
        "it. It is taken as one: give each animal a row of its own, and write only one id in its cell"
    )
    assert told(done) == [
        f"line 32: 00420001/02: to look at: {unlike} 00420001/02",
        f"line 34: gez. Huber: to look at: {unlike} 'gez. Huber'",
        f"line 35: 420004: to look at: its id has fewer digits than {OTHERS}: did a spreadsheet drop its zeros?",
    ]
    again = desk.take(rows)
    assert not told(again) and "Its id has" not in again.told
    done = desk.take(rows, "--no-animal", "gez. Huber")
    assert "1 left out (1 row)" in done.last and "gez. Huber" in done.out


def test_letters_of_other_alphabets(desk: Desk) -> None:
    rows = "".join(f"KA{at:03}{'abc'[at % 3]};f;2001-01-{at:02};;\n" for at in range(1, 29))
    done = desk.take(TITLES + rows + "К" + "A031a;m;2001-01-30;;\n")
    assert told(done) == [
        "line 30: КA031a: to look at: its id has a letter of another alphabet that looks like one of nearly all "
        "others, such as KA001b: type it again"
    ]


def test_ids_of_many_forms(desk: Desk) -> None:
    """Numbers that grow, ids of another country, few animals, and ids that only blanks part are none of these."""
    growing = "".join(f"{at};f;2001-01-01;;\n" for at in range(7, 130))
    assert not told(desk.take(TITLES + growing, "--book", "growing"))
    foreign = "".join(f"AT {at} F;f;2001-01-01;;\n" for at in range(11, 15))
    assert not told(desk.take(TITLES + ROWS + foreign, "--book", "foreign"))
    assert not told(desk.take(TITLES + ROWS[: ROWS.index(IDS[8])] + "Rex;m;2001-01-01;;\n", "--book", "few"))
    assert not told(desk.take(TITLES + ROWS + f"{int(IDS[0])};f;2001-01-01;;\n", "--book", "alike"))


def test_many_odd_ids_of_one_kind(desk: Desk) -> None:
    """They are told once, with the first of them and the remedy."""
    rows = "".join(f"{410001 + 37 * at:08};f;2001-01-01;;\n" for at in range(230))
    fewer = "".join(f"{42000 + at};f;2002-01-{at:02};;\n" for at in range(1, 8))
    done = desk.take(TITLES + rows + fewer, "--preview")
    assert "7 ids have fewer digits than nearly all others, such as 00410001: 42001, 42002, 42003, 42004, 42005 and 2 more" in done.out
    assert "the first in line 232: did a spreadsheet take their zeros? Give the column the format text" in done.out
    assert "its id has fewer digits" not in done.out


def test_many_ids_unlike_others(desk: Desk) -> None:
    rows = "".join(f"{410001 + 37 * at:08};f;2001-01-01;;\n" for at in range(230))
    done = desk.take(TITLES + rows + "".join(f"{42000001 + at};f;2002-01-01;;\n".replace(";f", "*;f", 1) for at in range(4)), "--preview")
    assert "4 ids are written unlike nearly all others, such as 00410001: 42000001*, 42000002*, 42000003*" in done.out
    assert done.commands()[0].count("--no-animal") == 4 and "Its id is written unlike" not in done.out


def with_parents(write: Callable[[str], str], count: int = 10) -> str:
    """A list of which the ids of the first animals, which others have as dams, are written in a way of their own."""
    ids = [f"CH{at:04}" for at in range(1, 41)]
    rows = [f"{write(id) if at < count else id};f;200{at // 20}-01-01;;\n" for at, id in enumerate(ids)]
    young = [f"CH{at + 100:04};f;2010-01-{at:02};;CH{at:04}\n" for at in range(1, 11)]
    return TITLES + "".join(rows + young)


@pytest.mark.parametrize("write", [lambda id: f"{id[:2]} {id[2:]}", lambda id: f"{id}*", lambda id: f"{id}A", lambda id: f"{id}."])
def test_ids_that_parents_have_otherwise(desk: Desk, write: Callable[[str], str]) -> None:
    """Many ids with a blank, a sign or a letter too many are told in one line."""
    done = desk.take(with_parents(write), "--preview")
    said = ", ".join(write(f"CH{at:04}") for at in range(1, 6))
    told = f"10 ids have a letter, a sign or a blank more than the others: {said} and 5 more, the first in line 2; parents' cells"
    assert f"{told} have such ids without, as CH0001: write them alike in both" in done.out


def test_ids_whose_zeros_parents_have(desk: Desk) -> None:
    done = desk.take(with_parents(lambda id: f"CH{int(id[2:])}"), "--preview")
    assert "10 ids have fewer digits than nearly all others, such as CH0011: CH1, CH2, CH3, CH4, CH5 and 5 more" in done.out


def test_ids_that_are_others(desk: Desk) -> None:
    """A tag that was used again, with a letter, isn't that of the parent, which was born before."""
    again = "".join(f"CH{at:04}A;f;2015-01-01;;\n" for at in range(1, 11))
    sheet = "".join(row for row in with_parents(str).splitlines(True) if not row.startswith(tuple(f"CH{at:04};" for at in range(1, 11))))
    assert "more than the others" not in desk.take(sheet + again, "--preview").out


def test_one_id_of_many_animals(desk: Desk) -> None:
    """Numbers that a spreadsheet cut are told once."""
    cut = "".join(f"276012345600;f;20{at:02}-01-01;;\n" for at in range(5, 12))
    done = desk.take(TITLES + ROWS + cut, "--preview")
    told = "6 rows are left out (lines 33, 34, 35, 36, 37, 38): they have the id 276012345600, which line 32 has for another animal"
    assert done.out.startswith(told) and "if the tag was used again" not in done.out and "6 left out (6 rows)" in done.out
