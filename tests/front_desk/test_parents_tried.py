"""Parents that animals without a row lost to a mistake of a sheet come back once that is mended."""
from __future__ import annotations

import dataclasses
from datetime import date
from types import SimpleNamespace
from typing import Any, cast

from front_desk.desk import Desk, Done
from gudokeyi.domain.kinds import Role
from gudokeyi.ingest.animals import SheetAnimal
from gudokeyi.ingest.days import year_of
from gudokeyi.reconcile.next_book import NextBook
from gudokeyi.reconcile.parents import Tried, take_back

ALL = """\
id,name,sex,birth,sire,dam
A1,Ada,f,2001-03-01,,
A2,Max,m,2001-04-01,,
A3,Cid,f,2004-12-01,A2,A1
A4,Dan,m,2006-12-01,A2,A1
"""
HALF = ALL.replace("A4,Dan,m,2006-12-01,A2,A1\n", "")
FEMALE, MALE = "A1,Ada,f,", "A1,Ada,m,"
# a dam that is born with her calf
LATE = HALF.replace("2001-03-01", "2006-12-01")
LEFT_OUT = [
    "A4: its dam A1 (line 2, born 2006-12-01) is left out: it isn't at least a day older (refusal 8); A4 was born "
    "2006-12-01",
    "A4: changed: dam: none, before A1",
]
BACK = "A4: changed: dam: A1, before none"
BOTH, SIRE_ALONE, DAM_ALONE, NONE = ("A2", "A1"), ("A2", ""), ("", "A1"), ("", "")


def told_of(done: Done, id: str) -> list[str]:
    """What the report tells of an animal without a row, but that it is gone."""
    return [one for one in done.report if one.startswith(f"{id}: ") and ": gone: " not in one]


def test_mended_sex(desk: Desk) -> None:
    """The parent of an animal without a row comes back as that of one with a row, and it is told so; nothing is told
    of it while the mistake stands there, nor afterwards."""
    desk.take(ALL)
    desk.take(HALF)
    assert told_of(desk.take(LATE, "--anyway"), "A4") == LEFT_OUT
    for sheet, parents, told in ((LATE, SIRE_ALONE, []), (HALF, BOTH, [BACK]), (HALF, BOTH, [])):
        done = desk.take(sheet, "--anyway")
        assert (desk.parents()["A4"], told_of(done, "A4")) == (parents, told)
    assert " 0 changed, 0 inferred, 0 left out" in done.last
    shown = desk.good("history", "5").out.splitlines()
    assert f"  {BACK}" in shown and "  A4: dam A1, before none; dam in the sheet none, before A1" in shown
    # a sheet may be refused where anything would be left out: nothing is for an animal without a row
    desk.good("undo", "--to", "4")
    assert desk.parents()["A4"] == SIRE_ALONE
    desk.take(LATE.replace("A2,A1", "A2,"), "--strict", "--anyway")
    desk.take(HALF)
    assert desk.parents()["A4"] == BOTH


def test_several_mistakes_one_after_the_other(desk: Desk) -> None:
    """Of both parents, in any order; each comes back alone."""
    desk.take(ALL)
    sire = "2001-04-01", "2009-04-01"
    for sheet, parents in (
        (LATE, SIRE_ALONE), (LATE.replace(*sire), NONE), (HALF.replace(*sire), DAM_ALONE),
        (LATE.replace(*sire), NONE), (LATE, SIRE_ALONE), (HALF, BOTH),
    ):  # fmt: skip
        desk.take(sheet, "--anyway")
        assert desk.parents()["A4"] == parents


def test_parents_that_were_taken_away_otherwise(desk: Desk) -> None:
    """By hand, by a row without them or by a pedigree: those don't come back."""
    typo = HALF.replace(FEMALE, MALE)
    desk.take(ALL)
    desk.take(typo)
    pedigree = desk.write("pedigree.txt", "id sire dam\nA4 A2 0\n")
    ways: list[list[list[str]]] = [
        [["parents", "A4", "--dam", "0"]],
        [
            ["import", desk.write("row.csv", typo + "A4,Dan,m,2006-12-01,A2,\n")],
            ["import", desk.write("typo.csv", typo)],
        ],
        [["import", "--pedigree", pedigree, "--anyway"]],
    ]
    for words in ways:
        for one in words:
            desk.good(*one)
        done = desk.take(HALF)
        assert desk.parents()["A4"] == SIRE_ALONE and not told_of(done, "A4"), words
        desk.good("undo", "--to", "2")
    # the sire by hand leaves open what became of the dam
    desk.good("parents", "A4", "--sire", "0")
    desk.take(HALF)
    assert desk.parents()["A4"] == DAM_ALONE


def test_parents_without_a_row(desk: Desk) -> None:
    """A parent whose own row goes with the mistake comes back with its next row; one by its name too."""
    desk.take(ALL)
    without = HALF.replace("A1,Ada,f,2001-03-01,,\n", "")
    for sheet, parents in (
        (LATE, SIRE_ALONE), (without, SIRE_ALONE), (HALF, BOTH), (without, BOTH)
    ):  # fmt: skip
        desk.take(sheet, "--anyway")
        assert desk.parents()["A4"] == parents == desk.parents()["A3"]
    titles, early = "id,name,sex,birth,sire,dam,exit\n", "A1,Ada,f,2001-03-01,,,2005-01-01\nA2,Max,m,2001-04-01,,,\n"
    last = "A4,Dan,m,2006-12-01,Max,ada,\n"
    desk.take(titles + early + last, "--book", "named")
    for sheet, dam in ((early, "unknown (in the sheet: ada)"), (early.replace("2005", "2008"), "A1 Ada")):
        desk.take(titles + sheet, "--book", "named")
        assert f" dam {dam} " in " ".join(desk.good("show", "A4", "--book", "named").out.split())


def test_parents_that_are_not_tried() -> None:
    """Those that can't be it, by sexes, days, exits or as its offspring; and of a pedigree those for whom sexes are
    invented."""
    sire, dam = SheetAnimal("s", sex="M", birth=year_of(2001)), SheetAnimal("d", birth=year_of(2001))
    calf = SheetAnimal("c", sire="s")
    calf.birth, all_animals = year_of(2004), {"s": sire, "d": dam, "c": calf}

    def is_possible(is_pedigree: bool = False) -> bool:
        next_book = cast(NextBook, SimpleNamespace(is_pedigree=is_pedigree))
        return Tried(next_book, all_animals).is_possible(all_animals["d"], Role.DAM, calf)

    assert is_possible() and not is_possible(is_pedigree=True)
    dam.sex = "F"
    assert is_possible(is_pedigree=True)
    sire.sex = ""
    assert is_possible() and not is_possible(is_pedigree=True)
    changes: list[dict[str, Any]] = [
        {}, {"birth": year_of(2004)}, {"sex": "M"}, {"birth": year_of(2005)}, {"left": date(2003, 12, 31)},
        {"dam": "c"}, {"dam": "e"},
    ]  # fmt: skip
    for at, changed in enumerate(changes):
        all_animals |= {"d": dataclasses.replace(dam, **changed), "e": SheetAnimal("e", sire="c")}
        assert is_possible() is (at < 2), changed
    all_animals |= {"d": dataclasses.replace(dam, sex=""), "e": SheetAnimal("e", sire="d")}
    assert not is_possible()
    all_animals |= {"d": dataclasses.replace(dam, left=date(2003, 12, 31)), "e": SheetAnimal("e")}
    calf.embryo = True
    assert is_possible()


def test_parents_that_make_a_path_too_long() -> None:
    """All that are tried again are taken back, but for those of animals that are dropped."""
    calf = SheetAnimal("c", sire="s", dam="d")
    next_book = cast(NextBook, SimpleNamespace(animals={"c": calf}, tried={("c", Role.DAM), ("gone", Role.SIRE)}))
    assert take_back(next_book) and (calf.sire, calf.dam) == ("s", "") and not take_back(next_book)
