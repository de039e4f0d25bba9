"""How texts and ids are compared that are written otherwise, and how a text is kept."""
from __future__ import annotations

import collections
import functools
import re
import unicodedata
from collections.abc import Container, Sequence

# How texts are compared, and kept.

# signs that no one sees, which text copied from a page may have
INVISIBLE = dict.fromkeys(map(ord, "\u00ad\u200b\u200c\u200d\u200e\u200f\u2060\ufeff"))


def clean(text: str) -> str:
    """The text with composed letters, with one blank for several or for a line's end, and without any at its ends."""
    return " ".join(composed(text).split())


def composed(text: str) -> str:
    """The text with composed letters, and without signs that no one sees."""
    return text if text.isascii() else unicodedata.normalize("NFC", text.translate(INVISIBLE))


def as_known(text: str, known: Container[str]) -> str:
    """The text as it is written; cleaned where it isn't known so."""
    written = " ".join(text.split())
    return written if written in known else clean(text)


@functools.lru_cache(100_000)
def plain(text: str) -> str:
    """The text in small letters, without accents, blanks and signs but `°`, `♂` and `♀`."""
    apart = unicodedata.normalize("NFKD", text.casefold().replace("°", "o"))
    return "".join(one for one in apart if one.isalnum() or one in "♂♀")


# letters that two others stand for where they lack, and an apostrophe
LIGATURES = str.maketrans({"œ": "oe", "Œ": "Oe", "æ": "ae", "Æ": "Ae", "’": "'"})


def without_accents(text: str) -> str:
    if text.isascii():
        return text
    text = text.translate(LIGATURES)
    return "".join(one for one in unicodedata.normalize("NFKD", text) if not unicodedata.combining(one))


def listed(text: str) -> list[str]:
    return [one.strip() for one in composed(text).split(",")]


# How ids are compared that are meant alike.

ZEROS = re.compile(r"(?<!\d)0+(?=\d)")
# stands in no id, and isn't a blank
BETWEEN = "\0"


@functools.lru_cache(200_000)
def nearly(id: str) -> str:
    """An id in small letters, without blanks and without zeros before a number: two that differ in these alone are
    meant alike."""
    return ZEROS.sub("", "".join(id.casefold().split()))


LETTERS, NUMBERS = re.compile(r"[^\W\d_]+"), re.compile(r"\d+")


def shape(id: str) -> str:
    """What ids that are written alike have in common: `CH 120.1` is `A 9.9`."""
    return NUMBERS.sub("9", LETTERS.sub("A", id))


def shapes_of(ids: Sequence[str]) -> collections.Counter[str]:
    """How many ids have each shape; all are looked at as one text."""
    shapes = shape(BETWEEN.join(ids)).split(BETWEEN)
    return collections.Counter(shapes if len(shapes) == len(ids) else map(shape, ids))


def nearly_all(ids: Sequence[str]) -> list[str]:
    """The same of many, which are looked at as one text."""
    together = BETWEEN.join(ids)
    if together.count(BETWEEN) != len(ids) - 1:
        return [*map(nearly, ids)]
    return ZEROS.sub("", "".join(together.casefold().split())).split(BETWEEN)
