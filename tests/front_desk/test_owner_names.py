"""Owners whose names change: each keeps its own, and transfers by hand stay."""
from __future__ import annotations

import datetime

from front_desk.desk import Desk

TITLES = "id;sex;birth;sire;dam;owner;exit\n"
OWNERS = ("Meier", "Huber", "Kunz")


def owners_sheet(*owners: str) -> str:
    """A sheet of as many animals as owners."""
    return TITLES + "".join(f"a{at};F;2001-03-0{at};;;{owner};\n" for at, owner in enumerate(owners, 1))


def owners_listed(desk: Desk) -> list[str]:
    return [line.split(",")[1] for line in desk.good("list", "--columns", "id,owner").out.splitlines()[1:]]


def test_names_that_go_from_owner_to_owner(desk: Desk) -> None:
    """Each has its own, though another one had it before, or both change theirs."""
    desk.take(owners_sheet(*OWNERS))
    now = list(OWNERS)
    for before, after in [
        ("Meier", "Bauer"), ("Huber", "Meier"), ("Meier", "Kern"), ("Kunz", "Huber"), ("Bauer", "x"), ("Kern", "Bauer"),
        ("x", "Kern"), ("Bauer", "x"), ("Kern", "Bauer"), ("x", "Kern"),
    ]:  # fmt: skip
        now[now.index(before)] = after
        done = desk.take(owners_sheet(*now), "--owner", f"{before}={after}")
        assert " 1 changed" in done.last
        done.tells(f"changed: the owner '{before}' of 1 animal is written '{after}' from now on")
        assert owners_listed(desk) == now
    assert desk.transfer_days() == []
    shown = desk.good("history", "3").out.splitlines()
    assert "animals changed: 1" in shown and "  a2: owner Meier, before Huber" in shown
    desk.good("undo", "--to", "1")
    assert owners_listed(desk) == list(OWNERS)


def test_names_for_a_while(desk: Desk) -> None:
    """None is one by which another owner came, though that one is written otherwise now."""
    desk.take(owners_sheet("A", "B", "A (herd 1)"))
    desk.take(owners_sheet("A", "B", "C"), "--owner", "A (herd 1)=C")
    desk.take(owners_sheet("B", "A", "C"), "--owner", "A=x", "--owner", "B=A", "--owner", "x=B").tells(
        "changed: the owner 'A' of 1 animal is written 'B' from now on",
        "changed: the owner 'B' of 1 animal is written 'A' from now on",
    )
    assert owners_listed(desk) == ["B", "A", "C"] and desk.transfer_days() == []


def test_new_owner_of_a_name_of_before(desk: Desk) -> None:
    """The name of an owner who is written otherwise now, also for a while, may be another's."""
    desk.take(owners_sheet(*OWNERS))
    desk.take(owners_sheet("Bauer", "Huber", "Kunz"), "--owner", "Meier=Bauer")
    desk.take(owners_sheet("Kern", "Huber", "Kunz"), "--owner", "Bauer=Kern")
    desk.good("transfer", "a2", "--to", "Meier", "--day", "2010-01-01")
    assert owners_listed(desk) == ["Kern", "Meier", "Kunz"]
    desk.good("birth", "a4", "--sex", "f", "--day", "2011-01-01", "--owner", "Bauer")
    assert owners_listed(desk) == ["Kern", "Meier", "Kunz", "Bauer"]
    desk.take(owners_sheet("Kern", "Meier", "Meier (herd 4)", "Bauer"), "--day", "2012-01-01", "--anyway")
    assert owners_listed(desk) == ["Kern", "Meier", "Meier (herd 4)", "Bauer"]
    assert "is whole" in desk.good("verify").out
    herds = [line.split(",")[-2] for line in desk.commands() if line.startswith("transfer")]
    assert len(herds) == len(set(herds)) == 2


def test_transfer_by_hand_stays(desk: Desk) -> None:
    """Its day too, where the cells are as in the last sheet, or the owner is only written otherwise."""
    titles = TITLES.replace("owner", "since;owner")

    def sheet(day: str, owner: str) -> str:
        return titles + f"s;M;2001-03-01;;;{day};{owner};\nd;F;2001-03-02;;;{day};{owner};\n"

    desk.take(sheet("2003-01-01", "Meier"))
    desk.good("transfer", "d", "--to", "Groß", "--day", "2010-01-01")
    for day, owner, renamed in [
        ("2003-01-01", "Meier", ""), ("2003-01-01", "Meyer", "Meier=Meyer"), ("2004-01-01", "Meyer", "")
    ]:  # fmt: skip
        desk.take(sheet(day, owner), *["--owner", renamed][: 2 * bool(renamed)])
        assert owners_listed(desk) == [owner, "Groß"]
        assert desk.transfer_days() == [day, "2003-01-01", "2010-01-01"]
        assert "is whole" in desk.good("verify").out
    # a row that a sheet lacks
    desk.take(titles + "s;M;2001-03-01;;;2004-01-01;Kern;\n", "--owner", "Meyer=Kern", "--anyway")
    desk.take(sheet("2004-01-01", "Kern"))
    assert owners_listed(desk) == ["Kern", "Groß"] and desk.transfer_days()[-1] == "2010-01-01"
    # another owner of the sheet is followed
    desk.take(sheet("2012-01-01", "Lang"))
    assert owners_listed(desk) == ["Lang", "Lang"] and desk.transfer_days()[-1] == "2012-01-01"


def test_day_by_hand_stays(desk: Desk, today: datetime.date) -> None:
    """Beside a day that is as in the last sheet, whether that has the owner by hand now, still, or another one."""
    rows = "id;sex;birth;sire;dam;owner;since\ns;M;2001-03-01;;;Meier;\nd;F;2001-03-02;;;{};2003-01-01\n"
    desk.take(rows.format("Meier"))
    desk.good("transfer", "d", "--to", "Groß", "--day", "2010-01-01")
    for _ in range(2):
        assert " 0 changed" in desk.take(rows.format("Groß")).last
        assert desk.transfer_days() == ["2003-01-01", "2010-01-01"]
    desk.take(rows.format("Lang"))
    assert owners_listed(desk) == ["Meier", "Lang"]
    assert desk.transfer_days() == ["2003-01-01", "2010-01-01", str(today)]


def test_day_of_a_sale_that_no_cell_says(desk: Desk, today: datetime.date) -> None:
    """That of the import is taken, and that is told, but where it is named."""
    desk.take(owners_sheet(*OWNERS))
    told = f"line 2: a1: inferred: owner Huber since {today}, which is taken since no cell says the day"
    desk.take(owners_sheet("Huber", "Huber", "Kunz")).tells(told)
    assert desk.transfer_days() == [str(today)]
    assert "no cell says" not in desk.take(owners_sheet("Huber", "Huber", "Kunz")).told
    assert "no cell says" not in desk.take(owners_sheet("Huber", "Kunz", "Kunz"), "--day", str(today)).told


def test_owner_of_the_book_alike(desk: Desk) -> None:
    """An owner of animals without a row, whose name differs from one of the sheet in capitals alone, is told with what
    makes one of them, until they are one; a new one is only written otherwise."""
    first = owners_sheet("bert Mai", "Huber", "Huber", "Huber")
    desk.take(first)
    later = first.replace("a1;", "a5;").replace("bert", "Bert")
    told = "to look at: the owner 'bert Mai' of 1 animal of the book differs from 'Bert Mai' only in case, accents, umlauts"
    done = desk.take(later, "--preview")
    assert told in done.out
    [command] = [one for one in done.commands() if "--owner" in one]
    renamed = desk.typed(command)
    assert told not in renamed.out and "'bert Mai' of 1 animal is written 'Bert Mai' from now on" in renamed.out
    # once the book has both, they are joined
    for _ in range(2):
        assert told in desk.take(later).told
    [joined] = [line for line in desk.take(later, "--preview").out.splitlines() if line.startswith(told)]
    desk.typed(joined.partition("are they one? ")[2].removesuffix(" makes one of them"))
    assert {*owners_listed(desk)} == {"Bert Mai", "Huber"} and "are they one?" not in desk.take(later).told


def test_owner_of_the_book_without_animals(desk: Desk) -> None:
    """One who has no animal any more isn't told, nor is one of whom is told that all his animals are another's."""
    desk.take(owners_sheet("bert Mai", "Huber"))
    later = owners_sheet("Bert Mai", "Huber")
    for _ in range(2):
        assert "of the book differs" not in desk.take(later, "--day", "2010-01-01").told


def test_owners_in_other_capitals(desk: Desk) -> None:
    """Two of whom the book has both are told with what makes one of them, though the sheet has both too."""
    sheet = owners_sheet("Bert Mai", "bert mai", "Bert Mai", "Bert Maï")
    told = "to look at: the owner 'bert mai' of 1 animal of the book differs from 'Bert Mai' only in case, accents, umlauts"
    assert "differs from" not in desk.take(sheet).told
    [joined] = [line for line in desk.take(sheet).out.splitlines() if line.startswith(told)]
    desk.typed(joined.partition("are they one? ")[2].removesuffix(" makes one of them"))
    assert owners_listed(desk) == ["Bert Mai", "Bert Mai", "Bert Mai", "Bert Maï"]
    assert "differs from" not in desk.take(sheet).told and desk.transfer_days() == []
