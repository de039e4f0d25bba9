"""Which texts stand for an unknown parent."""
from __future__ import annotations

import functools
import re
from collections.abc import Collection

from gudokeyi.domain.cells import FIRST_LETTER
from gudokeyi.ingest.texts import listed, plain, without_accents
from gudokeyi.ingest.exit_words import SALE_NOT_MADE
from gudokeyi.ingest.words import KNOWN_NO_OWNERS, UNKNOWN, is_error_value

# signs alone, as `?`, `*` and `---`, zeros alone, as `00` and `0.0`, and the usual numbers as pandas writes them, as
# `-9.0`
SIGNS = re.compile(r"[-–—?.*/_~+†✝×]+|[-+]?0[0.,]*|-(?:1|9{1,4})[.,]0+")
CROSS = re.compile("[†✝]")
BEGIN_OF_SIGNS = frozenset("-–—?.*/_~+†✝×0")
POINTS = re.compile(r"\.\s*")
# the words of a geneticist's pedigree
PEDIGREE = (
    "0, -, --, ?, ., n/a, #n/a, #nv, na, nan, none, null, unknown, unbekannt, unbek, unbek., k.A., keine Angabe, "
    "inconnu, inconnue"
)


def compared(text: str) -> str:
    """The text in small letters, without the points of abbreviations and the blanks behind them."""
    folded = text.casefold()
    return POINTS.sub("", folded) if "." in folded else folded


KNOWN_UNKNOWN = {compared(form) for word in listed(UNKNOWN) for form in (word, without_accents(word))}
# how texts begin, in small letters, that may stand for an unknown parent: these words, signs and error values
BEGINNINGS = BEGIN_OF_SIGNS | {word[0] for word in KNOWN_UNKNOWN} | {"#", "e"}
FIRST_LETTERS = {"", *BEGINNINGS, *(letter.upper() for letter in BEGINNINGS)}
# a text with a number before any remark in brackets, but for the error values of spreadsheets and numbers below 0, is
# none of them
NUMBERED = re.compile(r"(?![-+#Ee–—])[^1-9(]*[1-9]")
# a word before a remark has more letters
SHORTEST = 4


def is_explained(text: str) -> bool:
    """Is it one of these words with a remark in brackets, as `unbekannt (Weide)`? Few letters may be a name's."""
    word, bracket, _ = text.partition("(")
    return bool(bracket) and len(word) > SHORTEST and compared(word).strip() in KNOWN_UNKNOWN


def unknown_words(more: list[str]) -> set[str]:
    """The words for an unknown parent of a pedigree, in small letters: the usual ones, with `more`."""
    return {""} | {word.casefold() for one in [PEDIGREE, *more] for word in listed(one)}


# so many letters may be an owner's initials
INITIALS = 2


class UnknownParents:
    """The texts that stand for an unknown parent: the usual ones, those that the society names besides, and not those
    that it says are known: each some texts, or one."""

    def __init__(self, more: Collection[str] = (), known: Collection[str] = ()) -> None:
        self.more, self.known = (
            {word.casefold() for one in ([given] if isinstance(given, str) else given) for word in listed(one)}
            for given in (more, known)
        )
        # the same texts stand in many cells
        self.is_one = functools.cache(self.is_unknown)

    def __contains__(self, text: object) -> bool:
        return isinstance(text, str) and self.is_one(text)

    def among(self, texts: Collection[str]) -> set[str]:
        """Those of very many texts: few begin so that they may be some."""
        are_likely = not FIRST_LETTERS.isdisjoint({*map(FIRST_LETTER, texts)})
        likely = [one for one in texts if one[:1] in FIRST_LETTERS and not NUMBERED.match(one)] if are_likely else []
        named = {text for text in texts if text.casefold() in self.more} if self.more else set[str]()
        return named.union(filter(self.is_unknown, {*likely}))

    def words_apart(self, others: UnknownParents) -> set[str]:
        """The words, in small letters, that may mean something else for others."""
        return (self.more ^ others.more) | (self.known ^ others.known)

    def is_unknown(self, text: str) -> bool:
        folded = text.casefold()
        if not folded or folded in self.known:
            return not folded
        if folded in self.more or folded[0] not in BEGINNINGS:
            return folded in self.more
        if compared(text) in KNOWN_UNKNOWN or is_error_value(text) or is_explained(text):
            return True
        return text[0] in BEGIN_OF_SIGNS and SIGNS.fullmatch(text) is not None


USUAL = UnknownParents()


@functools.lru_cache(10_000)
def names_no_owner(text: str) -> bool:
    """Is it one of the usual texts for what isn't known, or says that there is none, or that the animal is for sale?
    Two letters may be initials of an owner, and a cross says that the animal died."""
    is_unknown = USUAL.is_one(text) and not (len(text) == INITIALS and text.isalpha()) and not CROSS.search(text)
    return is_unknown or plain(text) in KNOWN_NO_OWNERS or SALE_NOT_MADE.fullmatch(text) is not None
