"""Lists as societies keep them, taken a first, a second and a third time: each animal is in the book as it is, or what
is otherwise is told of it."""
from __future__ import annotations

import pytest

from front_desk.desk import Desk, Done
from front_desk.society_lists import DOGS, GOATS, HORSES, SocietyList, Style, next_year, with_planted

STYLES = pytest.mark.parametrize("style", [GOATS, HORSES, DOGS], ids=["goats", "horses", "dogs"])
# what is told once for several rows
ONCE = {
    "two digits of the year", "a spreadsheet's number", "a day and who says it", "about a month", "a ditto mark",
    "a word of ditto", "a cross", "dead without a day", "slaughtered in a season", "sold to a stranger",
}  # fmt: skip
# what a book says of an animal: its owner, its birth day, its parents and its exit
Said = tuple[str, str, tuple[str, str], str]


def in_book(desk: Desk) -> dict[str, Said]:
    """What the book says of each animal."""
    owners = {str(herd): name for herd, name in desk.owners()}
    born, parents, left = desk.born(), desk.parents(), dict[str, str]()
    numbers = {number: id for id, number in desk.numbers().items()}
    owner = dict[str, str]()
    for line in desk.commands():
        kind, number, day, *_, to, _ = line.split(",")
        if kind in ("birth", "transfer"):
            owner[numbers[number]] = owners.get(to, "")
        elif kind == "exit":
            left[numbers[number]] = day
    unknown = {row["id"]: row["exit"] for row in desk.table("book/ids.csv")}
    exits = {id: left.get(id, unknown.get(id, "")) for id in owner}
    return {id: (owner[id], born[id], parents[id], exits[id]) for id in owner}


def is_told(id: str, done: Done) -> bool:
    """Does anything tell of an animal but that it is new?"""
    return any(id in line and "new: a new animal" not in line for line in done.told.splitlines())


def silent(listed: SocietyList, desk: Desk, done: Done) -> list[str]:
    """The animals that the book has otherwise than they are, though nothing is told of them."""
    said, found = in_book(desk), list[str]()
    for tag, truth in listed.truth.items():
        meant = (truth.owner, truth.born.isoformat(), (truth.sire or "", truth.dam or ""))
        left = truth.left.isoformat() if truth.left else ""
        is_right = tag in said and said[tag] == (*meant, left)
        what = listed.planted.get(tag, "")
        if not is_right and what not in ONCE and not is_told(tag, done):
            found.append(f"{what or 'nothing planted'}: {tag} is {said.get(tag)} and not {meant}, left {truth.left}")
    added = [id for id in said if id not in listed.truth and not is_told(id, done)]
    return found + [f"{id} is no animal" for id in added]


@STYLES
def test_nothing_is_wrong_in_silence(desk: Desk, style: Style) -> None:
    """A list as it is, the same list again, and that of the next year."""
    listed = with_planted(style)
    first = desk.take(listed.text(), "--anyway")
    assert not silent(listed, desk, first)
    before = in_book(desk)
    again = desk.take(listed.text(), "--anyway")
    assert " 0 new, 0 changed" in again.last and in_book(desk) == before
    later = next_year(listed)
    third = desk.take(later.text(), "--anyway")
    assert not [id for id, what in in_book(desk).items() if before.get(id) != what and not is_told(id, third)]
    for tag, what in later.planted.items():
        assert f"{tag}: " in third.told, what
