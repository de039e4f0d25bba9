"""How texts are compared where somebody searches: without case and accents, and tags without blanks and signs."""
from __future__ import annotations

import functools
import unicodedata

# the signs that tags are parted by, which one may write and another not
SIGNS = " .-/_"
# letters that Unicode doesn't take apart, each with the one that stands for it
OTHERS = {"ø": "o", "đ": "d", "ð": "d", "ł": "l", "ħ": "h", "ı": "i", "ŧ": "t"}
# where the letters with accents stand: Latin-1, Extended-A and -B, and Additional
WITH_ACCENTS = (range(0xC0, 0x250), range(0x1E00, 0x1F00))


def folded(text: str) -> str:
    """In small letters and without accents."""
    apart = unicodedata.normalize("NFKD", text.casefold())
    return "".join(OTHERS.get(one, one) for one in apart if not unicodedata.combining(one))


def tag_of(text: str) -> str:
    """The same of a tag, without the signs by which it is parted."""
    return folded(text).translate(dict.fromkeys(map(ord, SIGNS)))


@functools.cache
def letters_like() -> dict[str, str]:
    """Each letter with those that are it with an accent, in small letters."""
    found: dict[str, str] = {}
    for one in (chr(code) for codes in WITH_ACCENTS for code in codes):
        if one != one.casefold() or not (unicodedata.decomposition(one) or one in OTHERS):
            continue
        plain = folded(one)
        if len(plain) == 1 and plain != one and plain.isalpha():
            found[plain] = found.get(plain, plain) + one
    return found


def pattern_of(text: str) -> str:
    """What a text in small letters has to be that is this one but for accents, as SQLite's GLOB reads it."""
    like = letters_like()
    return "".join(f"[{like.get(one, one)}]" if one in like or one in "*?[" else one for one in text)


def always_same(text: str, otherwise: str = "") -> str:
    """The characters of such a text that no accent makes others of, with another text in place of each of the rest."""
    like = letters_like()
    return "".join(otherwise if one in like else one for one in text)
