"""What the cell of an exit says beside its day, as `Wolf` in `1.5.2024 (Wolf)`: it is kept as why the animal left."""
from __future__ import annotations

import functools
import re

from gudokeyi.ingest.day_forms import MARKED, MONTH, MONTH_OF_EXIT, MONTH_WITHIN, TWO, UNSURE
from gudokeyi.ingest.days import is_span, places_within
from gudokeyi.ingest.seasons import SEASON, SHORT_SEASON, WEEK, WINTER, not_that
from gudokeyi.ingest.exit_words import DEAD
from gudokeyi.ingest.words import KNOWN_YES, LETTER

# what stands between a word and its day
SIGNS = " ,;:/=–—-"
LINKS = frozenset("am im in den dem vom on the le en au du courant Datum date".casefold().split())
EMPTY_BRACKETS = re.compile(r"\(\s*\)|\[\s*\]")
IN_BRACKETS = re.compile(r"\(([^()]*)\)|\[([^\[\]]*)\]")


@functools.lru_cache(10_000)
def words_beside(text: str) -> str:
    """Such words; the whole text where the time that it says isn't a day, month or year alone, as in `verkauft vor
    2020`; and nothing where it says no more than the time, or marks it as inferred."""
    if is_span(text) or MARKED.match(text) or MONTH.fullmatch(text):
        return ""
    season = next(filter(None, (form.search(text) for form in (WINTER, SEASON, WEEK, SHORT_SEASON))), None)
    place = season or place_of_day(text)
    if place is None:
        return text if says_why(text) else ""
    before, behind = without_links(text[: place.start()]), text[place.end() :].lstrip(f"{SIGNS}.")
    is_another_time = says_another_time(before)
    rest = joined(before.rpartition(" ")[0] if is_another_time else before, behind)
    if not says_why(rest):
        return ""
    return text if season or is_another_time else rest


def place_of_day(text: str) -> re.Match[str] | None:
    """Where its only day, month or year stands."""
    two_digits = (TWO, MONTH_WITHIN, MONTH_OF_EXIT)
    places = places_within(text) or next(filter(None, ([*form.finditer(text)] for form in two_digits)), [])
    return places[0] if len(places) == 1 else None


def without_links(before: str) -> str:
    """What stands before a day, without the words that lead to it."""
    words = before.rstrip(SIGNS).split()
    while words and words[-1].strip(f"{SIGNS}.").casefold() in LINKS:
        words.pop()
    return " ".join(words).rstrip(SIGNS)


def says_another_time(before: str) -> bool:
    """Does the word before a day say that another time is meant, or one that isn't sure?"""
    last = before.rpartition(" ")[2]
    return not_that(before) or bool(UNSURE.search(last)) and not LETTER.search(UNSURE.sub("", last))


def joined(before: str, behind: str) -> str:
    """The words around a day, without the brackets that stood around it or around them."""
    both = EMPTY_BRACKETS.sub(" ", f"{before} {behind}")
    words = " ".join(both.split()).strip(SIGNS)
    return (found[1] or found[2] or "").strip() if (found := IN_BRACKETS.fullmatch(words)) else words


def says_why(rest: str) -> bool:
    """Is it more than a yes, or a word that something isn't sure?"""
    said = UNSURE.sub(" ", rest).strip(" .,()")
    return said.casefold() not in KNOWN_YES and bool(LETTER.search(said) or DEAD.search(rest))
