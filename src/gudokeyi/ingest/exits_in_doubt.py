"""Exits that aren't sure, or that are to come, by what a text says beside the word for one."""
from __future__ import annotations

import re

from gudokeyi.ingest.texts import listed, plain
from gudokeyi.ingest.exit_words import DEAD, KNOWN_DEATHS, TELLING_EXITS
from gudokeyi.ingest.words import KNOWN_RETURNS, has_word

# words by which the animal is there all the same
THERE_YET = (
    "noch da, noch hier, noch bei uns, noch bei mir, noch im Stall, noch nicht abgeholt, still here, still there, still with "
    "us, still on farm, not yet collected, toujours chez nous, encore chez nous, toujours là, toujours ici, encore là, "
    "encore ici, pas encore parti, pas encore partie, bleibt bis, bleibt noch, stays until, reste jusqu"
)
KNOWN_THERE = KNOWN_RETURNS | {plain(word) for word in listed(THERE_YET)}
PLANNED = re.compile(
    r"\b(?:prévue?s?|planned|scheduled|geplante?[rs]?|vorgesehen|voraussichtlich\w*|will (?:be|go)|going to|goes to|"
    r"to be (?:sold|culled|slaughtered|exported|rehomed)|wird|werden|geht|gehen|soll|sollen|va|vont|sera|ira|"
    r"à (?:abattre|réformer))\b",
    re.IGNORECASE,
)


def is_in_doubt(text: str) -> bool:
    """Is an exit uncertain, as `verkauft? 2020`, or is the animal there yet, or did it come back?"""
    return "?" in text or (has_word(text, KNOWN_THERE) and has_word(text, TELLING_EXITS))


def is_planned(text: str) -> bool:
    """Was the exit of which it tells to come when that was written, as `sortie prévue 3/4/27`?"""
    return PLANNED.search(text) is not None


def tells_death(text: str) -> bool:
    """Does it tell of a death that isn't to come?"""
    return (DEAD.search(text) is not None or has_word(text, KNOWN_DEATHS)) and not is_planned(text)
