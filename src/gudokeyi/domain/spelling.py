"""Which names may be meant by a text that is none of them: those that are nearly written so, by `difflib`."""
from __future__ import annotations

import re
from collections.abc import Sequence

# so many names are compared with a text; of more those that begin as it does
MOST_COMPARED = 20_000
# letters that are written for digits
DIGITS = str.maketrans("oil", "011")
DIGITS_WITHIN = re.compile(r"\d+")


# the sign that is written for the letter between the names of two parents
TIMES = str.maketrans("×", "x")


def folded(text: str) -> str:
    """The letters and digits of a text, whatever their size; beside digits, letters that look like some are these."""
    found = "".join(one for one in text.casefold().translate(TIMES) if one.isalnum())
    return found.translate(DIGITS) if any(map(str.isdigit, found)) else found


def as_digits(key: str) -> str:
    """A folded text in which letters that look like digits are these, also where it has none."""
    return key.translate(DIGITS)


def closest(text: str, names: Sequence[str], most: int = 3, least: float = 0.75) -> list[str]:
    """The names that are nearest to a text, the nearest first."""
    length = 0
    while len(names) > MOST_COMPARED and length < len(text):
        length += 1
        names = [name for name in names if name.startswith(text[:length])]
    # whoever asks the book would wait for it
    import difflib

    return difflib.get_close_matches(text, names[:MOST_COMPARED], most, least)


# how alike two names are of which one may be mistyped: with one first letter, and with two; a part has so many letters
ALIKE, ALIKE_BEHIND, LEAST_PART = 0.66, 0.85, 3


def are_other_names(one: str, other: str) -> bool:
    """Are two names so unlike that neither is mistyped, or a part of the other? Numbers in them are compared whole."""
    words, others = [*map(folded, one.split())], [*map(folded, other.split())]
    here, there = ("".join(word for word in its if word not in those) for its, those in ((words, others), (others, words)))
    shorter, longer = sorted((here, there), key=len)
    if not shorter or len(shorter) >= LEAST_PART and shorter in longer:
        return False
    if DIGITS_WITHIN.findall(here) != DIGITS_WITHIN.findall(there):
        return True
    import difflib

    return difflib.SequenceMatcher(None, here, there).ratio() < (ALIKE if here[0] == there[0] else ALIKE_BEHIND)


# stands in no name that is compared
BETWEEN = "\0"
NO_LETTERS, HAS_DIGIT = re.compile(r"[^\w\0]+|_+"), re.compile(r"\d")


def folded_all(texts: Sequence[str]) -> list[str]:
    """The same of many, which are looked at as one text."""
    together = BETWEEN.join(texts)
    if together.count(BETWEEN) != len(texts) - 1:
        return [*map(folded, texts)]
    found = NO_LETTERS.sub("", together.casefold().translate(TIMES)).split(BETWEEN)
    return [one.translate(DIGITS) if HAS_DIGIT.search(one) else one for one in found]
