"""Which of very many texts may tell that an animal left, or is castrated: all are looked at as one, by one expression
that has the words for that."""
from __future__ import annotations

import bisect
import functools
import itertools
import re
from collections.abc import Collection, Sequence

from gudokeyi.ingest.days import MONTHS
from gudokeyi.ingest.remarks import (
    AROUND, CROSS_OF_DAY, KNOWN_ALONE, KNOWN_CASTRATIONS, KNOWN_IN_REMARKS, KNOWN_LOSSES, KNOWN_PLAIN,
)  # fmt: skip
from gudokeyi.ingest.texts import listed, plain
from gudokeyi.ingest.exit_words import DEAD
from gudokeyi.ingest.words import CASTRATED, FORMER, KNOWN_CASTRATED

# so many texts are looked at one by one
FEW = 2000
# words that tell wherever they stand, those beside which nothing else may stand, and what that isn't
TELLING = KNOWN_PLAIN | KNOWN_LOSSES | KNOWN_CASTRATIONS
KNOWN_TO_BE_ALONE = KNOWN_ALONE | KNOWN_IN_REMARKS | KNOWN_CASTRATED
BESIDE = {word.encode("ascii", "ignore") for word in AROUND | {*map(plain, MONTHS)}}
# of `ex Hengst` and others like it the first word is looked for
WORDS = TELLING | KNOWN_ALONE | KNOWN_IN_REMARKS | {plain(word) for word in [*listed(CASTRATED), *listed(FORMER)]}
# what may stand for a death
SIGNS = ("†", "✝", "+", "PTS", "RIP", "R.I.P")
# the letters of Western Europe as they are compared, one digit for all, and a blank for any other sign
BLANK, DIGIT = b" ", b"0"
SMALL = bytes(
    ord(found[0]) if (found := plain(chr(at))) and found[0].isascii() and found[0].isalpha()
    else ord(DIGIT if chr(at).isdigit() else BLANK) for at in range(256)
)  # fmt: skip
# words that stand apart have so many letters at least where they are one
LEAST = 2
# the letters that may follow, each with its own; none where a word may end
Node = dict[str, "Node"]
END = ""


def likely_among(texts: Collection[str]) -> Collection[str]:
    """Few texts as they are; of very many those that have such a word, or a sign of a death."""
    if len(texts) <= FEW:
        return texts
    every, together = [*texts], "\n".join(texts)
    found = with_words(every, together)
    signs = [sign for sign in SIGNS if sign in together]
    marked = (at for at, text in enumerate(every) if any(sign in text for sign in signs)) if signs else ()
    found.update(at for at in marked if DEAD.search(every[at]) or CROSS_OF_DAY.match(every[at]))
    return [every[at] for at in sorted(found)]


def with_words(texts: Sequence[str], together: str) -> set[int]:
    """The places of those that have one of the words; `together` has all of them in lines."""
    # before each word stands a blank
    small = BLANK + together.encode("latin-1", "replace").translate(SMALL)
    matches = [*expression().finditer(small)]
    ends = [*itertools.accumulate(len(text) + 1 for text in texts)] if matches else []
    found = set[int]()
    for match in matches:
        at = bisect.bisect(ends, match.start())
        is_telling = match[0].replace(BLANK, b"").decode() in TELLING
        if at not in found and (is_telling or stands_alone(small[ends[at] - len(texts[at]) : ends[at]])):
            found.add(at)
    return found


def stands_alone(line: bytes) -> bool:
    """Has a text nothing but one of these words and what may stand beside it?"""
    words = line.replace(DIGIT, BLANK).split()
    alone = b"".join(word for word in words if word not in BESIDE) or b"".join(words)
    return alone.decode() in KNOWN_TO_BE_ALONE


@functools.cache
def expression() -> re.Pattern[bytes]:
    """All of the words, also where blanks or signs stand within."""
    root: Node = {}
    for word in WORDS:
        node = root
        for letter in word:
            node = node.setdefault(letter, {})
        node[END] = {}
    return re.compile(f" {expressed(root, 0)}(?![a-z])".encode("ascii", "ignore"))


def expressed(node: Node, letters: int) -> str:
    """What may follow so many letters of words."""
    between = " *" if letters >= LEAST else ""
    ways = [f"{between}{one}{expressed(of, letters + 1)}" for one, of in sorted(node.items()) if one != END]
    return f"(?:{'|'.join(ways)})" + "?" * (END in node) if ways else ""
