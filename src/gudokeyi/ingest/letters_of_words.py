"""In which encoding the letters of a file make words: that of Windows, or that of a Mac, whose umlauts Windows reads as
signs within words, as in `MŸller`."""
from __future__ import annotations

import itertools
import re
from collections.abc import Collection

from gudokeyi.ingest.findings.files import LettersDoubtful, LettersOfMac

WINDOWS, MAC, DOS = "cp1252", "mac_roman", "cp850"
# the bytes of letters of a Mac that Windows has for signs, or for letters of few names; most files have none of them
OF_SIGNS = bytes(range(0x80, 0xA0)) + b"\xa7"
ALL_BUT_SIGNS = bytes({*range(0x100)} - {*OF_SIGNS})
# a word that may have letters outside of ASCII, with blanks for all else, and the end of a line
WORD, LINE = re.compile(rb"[A-Za-z\x80-\xff]+"), re.compile(rb"\r\n|\n|\r")
IN_WORDS = bytes(one if WORD.match(bytes([one])) else ord(" ") for one in range(0x100))
# signs that stand before and behind words, or between their parts
AROUND, BETWEEN = "“”‘’‚„«»‹›–—…·•†‡°ºª²³´`¨¡¿©®\u00a0\u00ad", re.compile("[’‘–\u00ad]")
# that of the euro, which stands before no small letter
EUROS, EURO = "€", re.compile("€[^\\W\\d_]")
# what is a letter for Python, and in no name
NO_LETTERS = frozenset("ƒﬁﬂªºµıΩπ")


def looks_like_word(word: bytes, encoding: str) -> bool:
    """Has a word letters of one kind in an encoding: small ones, at most behind a capital, or capitals alone? Signs
    alone say nothing."""
    try:
        text = word.decode(encoding).strip(AROUND)
    except UnicodeDecodeError:
        return False
    if not any(map(str.isalpha, text)):
        return True
    return not EURO.match(text) and all(is_of_one_kind(part) for part in BETWEEN.split(text.strip(EUROS)) if part)


def is_of_one_kind(part: str) -> bool:
    if not part.isalpha() or not NO_LETTERS.isdisjoint(part):
        return False
    behind = [letter for letter in part[1:] if not letter.isascii()]
    capitals = [letter for letter in behind if letter.isupper()]
    # a name may have capitals of ASCII within, as `McAdam`
    return not capitals or part.replace("ß", "").isupper()


def letters_found(data: bytes) -> LettersOfMac | LettersDoubtful | None:
    """What is told of a file that isn't UTF-8, and has words that Windows doesn't write so: that its letters are those
    of a Mac, where all words are right so and not in that of DOS, or that they are doubtful."""
    if not data.translate(None, ALL_BUT_SIGNS):
        return None
    words = {*itertools.filterfalse(bytes.isascii, {*data.translate(IN_WORDS).split()})}
    wrong = [word for word in words if not looks_like_word(word, WINDOWS)]
    right = {word for word in wrong if looks_like_word(word, MAC) or looks_like_word(word, DOS)}
    if not right:
        return None
    within = {word for word in right if not word[1:].isascii() and not word.decode(MAC).strip(AROUND).isascii()}
    is_mac = bool(within) and are_of_mac(words)
    first = next(one for one in WORD.finditer(data) if one[0] in (within if is_mac else right))
    line, as_windows = len(LINE.split(data[: first.start()])), first[0].decode(WINDOWS, errors="replace")
    return LettersOfMac(first[0].decode(MAC), line, as_windows) if is_mac else LettersDoubtful(as_windows, line)


def are_of_mac(words: Collection[bytes]) -> bool:
    """Are all right in the encoding of a Mac, and some of them in no other?"""
    return all(looks_like_word(word, MAC) for word in words) and not all(looks_like_word(word, DOS) for word in words)
