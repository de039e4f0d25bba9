"""What a cell says of an exit in words: that an animal lives, that it left, or that neither is sure."""
from __future__ import annotations

import re

from gudokeyi.ingest.born_dead import born_dead_word
from gudokeyi.ingest.days import MONTHS, DayFault, compared, places_within
from gudokeyi.ingest.exit_places import place_of_exit
from gudokeyi.ingest.relatives import leaving_others, names_other
from gudokeyi.ingest.texts import listed, plain
from gudokeyi.ingest.words import (
    EXITS, BORN_DEAD, LETTER, KNOWN_YES, KNOWN_NO, KNOWN_STAYS, KNOWN_AROUND_STAYS, KNOWN_EXITS, KNOWN_SHORT_EXITS,
    KNOWN_SALES, KNOWN_AROUND_EXITS, KNOWN_OWNER_CHANGES, KNOWN_NO_EXITS, KNOWN_NOTHING, KNOWN_NEGATIONS, has_word,
)  # fmt: skip

# `x`, `ja` and the like tell of an exit only where they stand alone
TELLING_EXITS = KNOWN_EXITS - {plain(word) for word in KNOWN_YES}
# those that tell of one also within a remark, where `left` may be a side
PLAIN_EXITS = TELLING_EXITS & {
    plain(word) for word in listed(
        "verkauft, geschlachtet, gestorben, verstorben, verendet, tot, eingeschläfert, euthanasiert, exportiert, sold, "
        "slaughtered, dead, died, deceased, culled, exported, euthanised, euthanized, rehomed, vendu, vendue, abattu, "
        "abattue, mort, morte, décédé, décédée, exporté, exportée, euthanasié, euthanasiée"
    )
}  # fmt: skip
# a word that tells of an exit tells of none here
SALE_NOT_MADE = re.compile(
    r"\b(?:for\s+sale|zu\s+verk(?:aufen)?|[àa]\s+vendre|(?:mise?\s+)?en\s+vente)\b\.?", re.IGNORECASE
)
# an animal that isn't bred from is still there, though a word tells of its breeding with one that negates it, or of an
# exit
NO_BREEDING = re.compile(
    r"\b(?:non[- ]?breed(?:ing|er)|(?:not|no longer|unfit|unsuitable)\s+(?:(?:used|suitable|fit|for|a|in)\s+)*breed(?:ing|er)|"
    r"(?:nicht|kein|keine)\s+(?:(?:mehr|zur|zum|für|in|der|die)\s+)*Zucht(?:tier|tauglich|einsatz)?|"
    r"Zucht(?:untauglich|unfähig|gesperrt|sperre|verbot)|aus\s+der\s+Zucht(?:\s+genommen)?|"
    r"(?:non|pas|plus|inapte)\s+(?:(?:un|une|de|en|à|la|apte|pour)\s+)*reproduct(?:eur|rice|ion)|"
    r"(?:réformée?|retirée?|exclue?|sortie?|hors)\s+(?:de\s+)?(?:la\s+)?reproduction)\b",
    re.IGNORECASE,
)
# a word behind one that negates it
NEGATED = re.compile(
    r"\b(?:nicht|kein\w*|nie|niemals|not|no|never|pas|non|jamais)\s+(?:(?:yet|been|encore|noch|mehr|de)\s+)*(?P<word>\w+)\.?",
    re.IGNORECASE,
)
# the same behind the word, as `verkauft: noch nicht`
DENIED = re.compile(
    r"\b(?P<word>\w+)\.?\s*[,;:(–—-]\s*(?:nicht|noch nicht|nein|no|not|not yet|non|pas encore)\W*$", re.IGNORECASE
)
# of a death nobody says that it was undone
KNOWN_DEATHS = PLAIN_EXITS - KNOWN_SALES
UNDONE = re.compile(
    r"\b(?:rückgängig|storniert|storno|annulliert|widerrufen|rückabgewickelt|cancell?ed|undone|reversed|"
    r"fell through|annulée?s?)\b",
    re.IGNORECASE,
)
SEPARATORS = re.compile(r"[,;]|\.\s")
# what became of relatives and young
OF_SEVERAL = "morts, mortes, vendus, vendues, décédés, décédées, abattus, abattues"
OF_OTHERS = leaving_others(
    [*(word for word in listed(EXITS) if plain(word) in TELLING_EXITS), *listed(BORN_DEAD), *listed(OF_SEVERAL)]
)
# the signs of a death, and the letters for one, where they don't count points
DEAD = re.compile(r"†|✝|^\+(?=\s*\d)|^\(?\+\)?$|(?<![\w.])(?<!\d )(?:PTS|R\.I\.P|RIP)(?!\w)")
# the words for exits that are several
PHRASES = re.compile(rf"\b(?:{'|'.join(word for word in listed(EXITS) if ' ' in word)})\b", re.IGNORECASE)
# what stands between a word and what else a text says; a hyphen or a slash may stand within a word too
SIGN, TIGHT_SIGN = re.compile(r"[,;:(–—]|\s[-/]|\.\s"), re.compile(r"[-/]")


def lives(text: str) -> bool:
    """Does it say that the animal hasn't left, as `lebt (Stand 2024)`?"""
    if not text or text.casefold() in KNOWN_NO or plain(text) in KNOWN_NOTHING:
        return True
    return has_word(text, KNOWN_STAYS) and not has_word(text, TELLING_EXITS | KNOWN_NEGATIONS)


def says_lives(text: str) -> bool:
    """The same in words, and not by nothing or by a no; it may say more of others."""
    is_word = bool(text) and text.casefold() not in KNOWN_NO and plain(text) not in KNOWN_NOTHING
    return is_word and (lives(text) or lives_besides(text))


def lives_and_more(text: str) -> bool:
    """Does it say that the animal lives, and something else that isn't since when, as `lebt, hat gut gelammt`?"""
    if not lives(text) or not has_word(text, KNOWN_STAYS) or DEAD.search(text):
        return False
    for day in places_within(text):
        text = text.replace(day[0], " ")
    words = [word for word in re.split(r"\W+", text) if LETTER.search(word) and compared(word) not in MONTHS]
    # a capital letter alone may stand for a class
    return any(plain(word) not in KNOWN_AROUND_STAYS or (len(word) == 1 and word.isupper()) for word in words)


def is_still_there(text: str) -> bool:
    """Does it tell of something else than an exit, as `retired 2019`, `on loan` or `lebt, hat gut gelammt`, or that
    there was none, as `nicht verkauft`?"""
    if tells_of_others(text):
        return True
    if not LETTER.search(text) or DEAD.search(text):
        return False
    if lives_besides(text) or lives_and_more(text) or is_undone(text):
        return True
    sold = SALE_NOT_MADE.sub(" ", text)
    rest = NO_BREEDING.sub(" ", sold)
    for negated in (NEGATED, DENIED):
        rest = negated.sub(lambda found: " " if plain(found["word"]) in TELLING_EXITS else found[0], rest)
    if has_word(rest, TELLING_EXITS) or says_gone(rest):
        return False
    return rest != sold or has_word(text, KNOWN_NO_EXITS)


def tells_of_others(text: str) -> bool:
    """Does it tell that relatives or young of the animal left, and not that it did itself, as `Vater tot`?"""
    if not names_other(text):
        return False
    rest = OF_OTHERS.sub(" ", text)
    return rest != text and not (has_word(rest, TELLING_EXITS) or DEAD.search(rest) or says_gone(rest))


# words of headings above animals that left, and of so many words at most such a heading is
OF_EXITS = TELLING_EXITS | {
    plain(word) for word in listed(
        "Abgänge, Verkaufte, Verstorbene, Gestorbene, Geschlachtete, Tote, Gelöschte, Gestrichene, Ausgeschiedene, "
        "Abgegangene, Ehemalige, ehemalige, deleted, removed, former, departed, disposals, deaths, sales, supprimé, "
        "supprimée, supprimés, supprimées, radiés, radiées, morts, mortes, vendus, vendues, sortis, sorties, décédés, "
        "réformés, réformées, abattus, abattues"
    )
}  # fmt: skip
MOST_WORDS = 6
WORD = re.compile(r"[^\W\d_]+")


def says_exits(text: str) -> bool:
    """Is it a heading above animals that left, as `Aus dem Herdbuch gelöscht`?"""
    return len(WORD.findall(text)) <= MOST_WORDS and has_word(text, OF_EXITS) and not is_still_there(text)


def lives_besides(text: str) -> bool:
    """Does it say first that the animal lives, and then what became of others, as `lebt, verkauft 2 Lämmer`?"""
    begin, *others = SIGN.split(text, 1)
    rest = others[0] if others else ""
    return bool(rest) and says_lives(begin.strip()) and has_word(rest, TELLING_EXITS) and not tells_of_itself(rest)


def tells_of_itself(text: str) -> bool:
    """Does nothing stand beside the word for an exit that tells of others, as `2 Lämmer`?"""
    for day in places_within(text):
        text = text.replace(day[0], " ")
    words = [plain(word) for word in re.split(r"\W+", text) if word]
    at = next((at for at, word in enumerate(words) if word in TELLING_EXITS), len(words))
    return KNOWN_AROUND_EXITS.issuperset([*words[:at], *words[at + 1 : at + 2]])


def is_undone(text: str) -> bool:
    """Does it tell of an exit that was undone, as `Verkauf 2019 rückgängig`, and of no death?"""
    return UNDONE.search(text) is not None and not has_word(text, KNOWN_DEATHS)


def besides_undone(text: str) -> str:
    """What a text tells of a death besides a sale that was undone, as `gestorben 2020` of `Verkauf 2019 rückgängig,
    gestorben 2020`; else all of it."""
    if not (UNDONE.search(text) and has_word(text, KNOWN_DEATHS)):
        return text
    parts = SEPARATORS.split(text)
    undone = [at for at, part in enumerate(parts) if UNDONE.search(part)]
    others = [part for part in (*parts[undone[-1] + 1 :], *parts[: undone[0]]) if has_word(part, KNOWN_DEATHS)]
    return others[0].strip() if others else text


def is_for_sale(text: str) -> bool:
    """Does it say of the animal that somebody may buy it, as `zu verk.`, and nothing of an exit?"""
    rest = SALE_NOT_MADE.sub(" ", text)
    return rest != text and not has_word(rest, TELLING_EXITS)


def says_gone(text: str) -> bool:
    """Does it say that the animal doesn't live any more, as `lebt nicht mehr`?"""
    text = NO_BREEDING.sub(" ", text)
    return has_word(text, KNOWN_STAYS) and has_word(text, KNOWN_NEGATIONS)


def exit_word(text: str) -> str:
    """The first word by which animals leave, or a short form or a place for it, if it has one."""
    short = next((word for word in text.split() if plain(word) in KNOWN_SHORT_EXITS), "") if LETTER.search(text) else ""
    return state_exit(text) or short


def state_exit(text: str) -> str:
    """The same in a column of states, where a short form may mean another thing."""
    if DEAD.search(text):
        return "died"
    if not LETTER.search(text):
        return ""
    known = next((word for word in text.split() if plain(word) in KNOWN_EXITS), "") or first_exit(text)
    return known or (text if says_gone(text) else "") or born_dead_word(text) or place_of_exit(text)


def owner_change(text: str) -> str:
    """The words of a change of owners with which a text begins, as `Besitzerwechsel 3.4.2020`."""
    if not LETTER.search(text) or has_word(text, TELLING_EXITS):
        return ""
    words = text.split()
    return next((said for at in range(3, 0, -1) if plain(said := " ".join(words[:at])) in KNOWN_OWNER_CHANGES), "")


def first_exit(text: str) -> str:
    """An exit of several words, or one with which it begins, and behind which a sign stands, as `sold,pet only`."""
    if phrase := PHRASES.search(text):
        return phrase[0]
    begin, tight = (sign.split(text, 1)[0].strip() for sign in (SIGN, TIGHT_SIGN))
    return begin if plain(begin) in TELLING_EXITS else tight if plain(tight) in PLAIN_EXITS else ""


def word_fault(text: str) -> DayFault:
    """What a text for an exit lacks: it may have a day with two digits for the year, several days, or a price."""
    return DayFault.WORD_WITH_NUMBERS if re.search(r"\d", text) else DayFault.WORD_ALONE
