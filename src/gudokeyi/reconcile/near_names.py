"""The parts of a name with which a parent's cell may have it, as without a title or a kennel's prefix; and which cells
are written like no id."""
from __future__ import annotations

import itertools
import re
from collections.abc import Collection, Iterator

from gudokeyi.domain.spelling import folded
from gudokeyi.ingest.texts import plain
from gudokeyi.ingest.words import KNOWN_NO_PARENTS, KNOWN_SEXES, has_word

# so many words of a text are looked at, and so many letters a part has that may be a name
MOST_WORDS, LEAST_LETTERS = 8, 3
# a word of few letters, as `KB`, or one behind an abbreviation, as `Ch. Fern 16`
LIKE_WORD = re.compile(r"[^\W\d_]{1,4}|(?:[^\W\d_]{1,6}\.\s*)+.*")
# how a day is written
DAY = re.compile(r"(?:19|20)\d\d-\d\d?-\d\d?|\d\d?([./-])\d\d?\1(?:(?:19|20)\d\d|\d\d)")
# one in so many ids may have no digit where ids have some
TENTH, LEAST_IDS = 10, 3
DIGITS = re.compile(r"\d+")
# a word for an animal, and behind it whose it is; short words for sexes are parts of many others
OF_SOMEBODY = re.compile(
    r"(?P<animal>[^\W\d_]+)\s+(?:(?:d[eu]|des|chez|à|vo[nm]|bei|of|from)\s|d['’]|v\.)\s*(?P<owner>\S.*)", re.IGNORECASE
)
LONG_SEXES = tuple(word for word in KNOWN_SEXES if len(word) >= 4)
WORD = re.compile(r"[^\W_]+")


def parts_of(text: str) -> Iterator[str]:
    """The words with which a text begins, and those with which it ends, where they have some letters."""
    words = text.split()[:MOST_WORDS]
    for at in range(1, len(words)):
        for part in folded(" ".join(words[at:])), folded(" ".join(words[:at])):
            if sum(map(str.isalpha, part)) >= LEAST_LETTERS:
                yield part


def have_digits(ids: Collection[str]) -> bool:
    """Have nearly all of some ids a digit?"""
    without = [*itertools.filterfalse(DIGITS.search, ids)]
    return len(ids) >= LEAST_IDS and TENTH * len(without) < len(ids)


def is_like_word(text: str) -> bool:
    """Is it written like no id, or has it a word that names no parent, as `Import Peru`, and no digit?"""
    return LIKE_WORD.fullmatch(text) is not None or not DIGITS.search(text) and has_word(text, KNOWN_NO_PARENTS)


def words_of(name: str) -> frozenset[str]:
    return frozenset(map(plain, WORD.findall(name)))


def is_animal_of(text: str, owners: Collection[frozenset[str]]) -> bool:
    """Does it say whose animal it is, as `ânesse de Duval` and `Leihrammler v. Mayr`? `owners` are the words of their
    names."""
    found = OF_SOMEBODY.fullmatch(text)
    if found is None or not plain(found["animal"]).endswith(LONG_SEXES):
        return False
    words = words_of(found["owner"])
    return any(words <= owner for owner in owners)
