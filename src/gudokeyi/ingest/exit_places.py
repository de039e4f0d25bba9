"""Places to which animals go that leave, as `Factory 29/01/2023` or `knackery`, and short forms for a death or a
removal with its day: a text of a column of exits or states that begins with one tells of an exit."""
from __future__ import annotations

import re

from gudokeyi.ingest.texts import listed, plain

PLACES = (
    "factory, meat factory, meat works, meatworks, meat plant, abattoir, slaughterhouse, butcher, knackery, knacker, knackers, "
    "mart, reactor, off farm, off the farm, "
    "Schlachthof, Schlachterei, Metzger, Metzgerei, Fleischer, Abdecker, Abdeckerei, TKV, TKB, Tierkörperverwertung, "
    "Tierkörperbeseitigung, équarrissage, équarrisseur, boucherie, boucher, marché"
)
# what may stand before one, and says no more
BEFORE = (
    r"(?:TB|BVD|BSE|IBR|sent|gone|went|to|the|at|via|in|zum|zur|ins|an|auf|den|die|der|dem|à|au|aux|l|le|la|les|chez|vers|"
    r"parti|partie)"
)
# a day as people write it, and a month or a year too
WHOLE_DAY = r"\d{1,2}[ ./-]+(?:\d{1,2}|[^\W\d]{3,})[ ./-]+'?\d{2}"
DAY = rf"(?:{WHOLE_DAY}|(?:19|20)\d\d|\d[./-]\d{{2}}|[^\W\d]{{3,}}[ .-]+'?\d\d)"
PLACE = re.compile(
    rf"(?:{DAY})?[\W\d]*(?:{BEFORE}\W+)*(?P<place>{'|'.join(sorted(listed(PLACES), key=len, reverse=True))})\b(?P<rest>.*)",
    re.IGNORECASE | re.DOTALL,
)
# these tell of one with a day alone
WITH_DAY = re.compile(rf"(?P<word>d\.|moved out|moved off|left farm)\W*{DAY}", re.IGNORECASE)
# what may stand behind one, beside its name
BEHIND = {
    plain(word)
    for word in listed("sold, killed, verkauft, geschlachtet, vendu, vendue, abattu, abattue, in, at, am, on, le, de")
}
WORD = re.compile(r"[^\W\d_]+")
LETTER, SOME_DAY, ONE_DAY = re.compile(r"[^\W\d_]"), re.compile(DAY), re.compile(WHOLE_DAY)


def place_of_exit(text: str) -> str:
    """The word for such a place; beside it may stand its name where the text has a day too. Other words, as those of
    `Mart champion 2022`, may tell of something else."""
    if found := WITH_DAY.match(text):
        return found["word"]
    found = PLACE.match(text)
    if not found or any(word.islower() and plain(word) not in BEHIND for word in WORD.findall(found["rest"])):
        return ""
    return found["place"] if SOME_DAY.search(text) or not LETTER.search(found["rest"]) else ""


def has_day(text: str) -> bool:
    """Does it have a day, and not a year alone?"""
    return ONE_DAY.search(text) is not None
