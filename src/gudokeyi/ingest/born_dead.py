"""What a text tells of animals that were born dead: of its own animal, or of young."""
from __future__ import annotations

import re

from gudokeyi.ingest.texts import listed

BORN_DEAD = (
    r"\b(?:tot\W?(?:geboren\w*|geburt(?:en)?)|still\W?(?:born|births?)|born dead|morts?\W?n[ée]e?s?|mortn[ée]e?s?|"
    r"mortinat\w*)\b"
)
SAYS_BORN_DEAD = re.compile(BORN_DEAD, re.IGNORECASE)
# young that are born dead, as a remark on their dam tells it beside a word for young, or counted
COUNTED = re.compile(
    r"(?<![\d./-])\b(?:[1-9]\s?[x×]?|eine?s?|zwei|drei|an?|one|two|three|une?|deux|trois|hatte|had)\s+" + BORN_DEAD,
    re.IGNORECASE,
)
YOUNG = (
    "Lamm, Lämmer, Lämmern, Mutterlamm, Bocklamm, Kitz, Kitze, Kitzen, Zicklein, Kalb, Kälber, Kälbern, Fohlen, Welpe, "
    "Welpen, Ferkel, Cria, Crias, Jungtier, Jungtiere, lamb, lambs, kid, kids, calf, calves, foal, foals, pup, pups, "
    "puppy, puppies, piglet, piglets, kitten, kittens, agneau, agneaux, agnelle, agnelles, chevreau, chevreaux, "
    "chevrette, chevrettes, veau, veaux, poulain, poulains, pouliche, chiot, chiots, porcelet, porcelets"
)
NAMES_YOUNG = re.compile(rf"\b(?:{'|'.join(listed(YOUNG))})\b", re.IGNORECASE)


def without_young(text: str) -> str:
    """The text without what it tells of young that were born dead, as `1 Lamm totgeboren 2021` of a dam."""
    if not SAYS_BORN_DEAD.search(text):
        return text
    return SAYS_BORN_DEAD.sub(" ", text) if NAMES_YOUNG.search(text) or COUNTED.search(text) else text


def born_dead_word(text: str) -> str:
    """The word by which a text says that its own animal was born dead; empty where it doesn't."""
    found = SAYS_BORN_DEAD.search(text)
    return found[0] if found and without_young(text) == text else ""
