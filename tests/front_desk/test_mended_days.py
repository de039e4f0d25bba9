"""Days of owners that a sheet's mistake made impossible: they are tried again at each taking, and come back when it is
mended."""
from __future__ import annotations

from front_desk.desk import Desk

SHEET = "id,name,sex,birth,sire,dam,owner,exit\nA2,Max,m,2001-04-01,,,Mill,\nA3,Cid,f,2014-12-01,A2,,Mill,\n"
TYPO, OTHER = (SHEET.replace("2014-12-01", day) for day in ("2015-12-01", "2016-12-01"))
GIVEN = ["2015-01-01", "2015-06-01"]


def moved(owner: str, now: str, before: str) -> str:
    return (
        f"line 3: A3: to look at: it has been of '{owner}' since {now}, and not since {before}, which can't be with "
        "its birth, its exit or its owner before"
    )


def back(owner: str, now: str, before: str) -> str:
    return f"line 3: A3: changed: its first day with '{owner}' is {now} again, as was given, and not {before}"


def file_owners(desk: Desk) -> None:
    desk.take(SHEET)
    desk.good("transfer", "A3", "--to", "Zoo", "--day", GIVEN[0])
    desk.good("transfer", "A3", "--to", "Hill", "--day", GIVEN[1], "--anyway")


def owner_shown(desk: Desk) -> str:
    lines = desk.good("show", "A3").out.splitlines()
    return next(line.split(maxsplit=1)[1] for line in lines if line.startswith("  owner"))


def test_days_of_owners_by_hand(desk: Desk) -> None:
    """The days that were given count through one typo after the other, also where an owner is written otherwise
    meanwhile; the same sheet again tells nothing of them."""
    file_owners(desk)
    desk.take(TYPO).tells(*(moved(one, "2015-12-01", day) for one, day in zip(("Zoo", "Hill"), GIVEN)))
    assert desk.transfer_days() == ["2015-12-01"] * 2 and owner_shown(desk) == "Hill, since 2015-12-01 (inferred)"
    again = desk.take(TYPO)
    assert " 0 new, 0 changed" in again.last and "first day" not in again.told and "has been" not in again.told
    desk.take(OTHER, "--owner", "Zoo=Tierpark").tells(
        *(moved(one, "2016-12-01", day) for one, day in zip(("Tierpark", "Hill"), GIVEN))
    )
    between = desk.take(SHEET.replace("2014-12-01", "2015-03-01"))
    last = "line 3: A3: changed: owner since: 2015-06-01, before 2016-12-01"
    between.tells(moved("Tierpark", "2015-03-01", GIVEN[0]), last)
    assert desk.transfer_days() == ["2015-03-01", GIVEN[1]] and owner_shown(desk) == "Hill, since 2015-06-01"
    desk.take(SHEET).tells(back("Tierpark", GIVEN[0], "2015-03-01"))
    assert desk.transfer_days() == GIVEN
    told = "its first day with 'Tierpark' is 2015-01-01 again, as was given, and not 2015-03-01"
    assert told in desk.good("history", "8").out and told in desk.good("show", "A3").out
    again = desk.take(SHEET)
    assert " 0 new, 0 changed" in again.last and "first day" not in again.told


def test_days_of_owners_that_a_sheet_gave(desk: Desk) -> None:
    """They come back too, also where the sheet doesn't say them any more, and where an exit was too early."""
    def sheet(owner: str, since: str, exit: str = "") -> str:
        return SHEET.replace("owner,", "owner,since,").replace("Mill,\nA3", "Mill,,\nA3").replace(
            "A2,,Mill,", f"A2,,{owner},{since},{exit}"
        )  # fmt: skip

    desk.take(SHEET)
    desk.take(sheet("Zoo", GIVEN[0]))
    desk.take(sheet("Hill", GIVEN[1]))
    last = sheet("Hill", GIVEN[1])
    desk.take(last.replace("2014-12-01", "2015-12-01"))
    assert desk.transfer_days() == ["2015-12-01"] * 2
    done = desk.take(last)
    done.tells(back("Zoo", GIVEN[0], "2015-12-01"), "line 3: A3: changed: owner since: 2015-06-01, before 2015-12-01")
    assert desk.transfer_days() == GIVEN and "to look at" not in done.told
    desk.take(sheet("Hill", GIVEN[1], "2014-12-24"))
    assert desk.transfer_days() == ["2014-12-24"] * 2
    desk.take(SHEET.replace("A2,,Mill", "A2,,Hill"))
    assert desk.transfer_days() == GIVEN and owner_shown(desk) == "Hill, since 2015-06-01"


def test_days_that_the_society_changed_meanwhile(desk: Desk) -> None:
    """What a sheet says now holds, or another owner by hand; what was undone counts as little as what it told."""
    file_owners(desk)
    desk.take(TYPO)
    said = TYPO.replace("owner,", "owner,since,").replace("Mill,\nA3", "Mill,,\nA3")
    desk.take(said.replace("Mill,\n", "Hill,2015-12-01,\n"))
    assert owner_shown(desk) == "Hill, since 2015-12-01"
    desk.take(SHEET.replace("A2,,Mill", "A2,,Hill"))
    assert desk.transfer_days() == [GIVEN[0], "2015-12-01"]
    desk.good("undo", "--to", "4")
    desk.good("transfer", "A3", "--to", "Lake", "--day", "2016-01-01")
    desk.take(SHEET)
    assert desk.transfer_days() == [*GIVEN, "2016-01-01"] and owner_shown(desk) == "Lake, since 2016-01-01"
    desk.good("undo", "--to", "2")
    desk.good("transfer", "A3", "--to", "Hill", "--day", "2015-12-01")
    desk.take(SHEET.replace("Cid", "Eva").replace("2014-12-01", "2014-12-02"))
    assert desk.transfer_days() == [GIVEN[0], "2015-12-01"]
