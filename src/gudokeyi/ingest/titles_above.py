"""Titles in two lines, of which the upper one stands above several columns, as `Halter` above `Name` and `Ort`: where
both together are a title of another field than the lower one alone, the column has both."""
from __future__ import annotations

from collections.abc import Mapping, Sequence

from gudokeyi.domain.kinds import Field
from gudokeyi.ingest.findings.columns import TitlesJoined
from gudokeyi.ingest.texts import plain
from gudokeyi.ingest.titles import KNOWN_TITLES

# the fields of which an upper title may tell, and those of the animal itself that a lower one may tell of
FIELDS = Field.SIRE, Field.DAM, Field.OWNER
KNOWN = {field: {*KNOWN_TITLES[field]} for field in (*FIELDS, Field.ID, Field.NAME)}


def titles_joined(titles: Sequence[str], above: Sequence[str]) -> dict[int, str]:
    """The titles of both lines, by the places of their columns; another column has the animals' ids or names."""
    uppers = {at: upper for at, upper in spans(titles, above).items() if tells_more(upper, titles[at])}
    own = {plain(title) for at, title in enumerate(titles) if at not in uppers}
    return {at: f"{upper} {titles[at]}" for at, upper in uppers.items() if is_of_animals_too(titles[at], own)}


def spans(titles: Sequence[str], above: Sequence[str]) -> Mapping[int, str]:
    """The upper title of each column: one stands also above those behind that have none, each with a title of its
    own."""
    found, upper, below = dict[int, str](), "", set[str]()
    for at, title in enumerate(titles if any(above) else ()):
        if at < len(above) and above[at]:
            upper, below = above[at], set()
        upper = "" if title in below else upper
        below.add(title)
        found[at] = upper
    return found


def tells_more(upper: str, lower: str) -> bool:
    """Are both the title of a field of which the upper one alone is one, and the lower one of none of these?"""
    both = {plain(upper + lower), plain(lower + upper)}
    of_upper = [field for field in FIELDS if plain(upper) in KNOWN[field]]
    return any(not both.isdisjoint(KNOWN[field]) for field in of_upper) and not tells_one(lower)


def tells_one(lower: str) -> bool:
    return not plain(lower) or any(plain(lower) in KNOWN[field] for field in FIELDS)


def is_of_animals_too(lower: str, others: set[str]) -> bool:
    """Have others the field that the lower title tells of alone?"""
    fields = [field for field in (Field.ID, Field.NAME) if plain(lower) in KNOWN[field]]
    return all(not others.isdisjoint(KNOWN[field]) for field in fields)


def tell_joined(titles: Sequence[str], joined: Mapping[int, str]) -> list[TitlesJoined]:
    return [TitlesJoined(tuple(titles[at] for at in joined), tuple(joined.values()))] if joined else []
