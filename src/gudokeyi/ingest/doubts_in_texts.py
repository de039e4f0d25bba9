"""Parents' cells that say that the parent isn't sure, as `D001 ?`, `vermutl. D001` and `(D001)`."""
from __future__ import annotations

import re

# a sign behind a year asks for that, and one between two letters is a letter that was lost
SIGN = r"(?<!\b19\d\d)(?<!\b20\d\d)(?<!geb\. )(?<!born )(?:\?(?!\w)|(?<![^\W_])\?)"
DOUBT = re.compile(
    rf"{SIGN}|^wohl\b|\b(?:unsicher|ungewiss|vermutl(?:ich)?|verm(?=\.)|vmtl|mutma(?:ß|ss)lich|wahrsch(?:einl(?:ich)?)?|"
    r"wsl|evtl|eventuell|möglicherweise|mögl(?=\.)|vielleicht|angeblich|anscheinend|unbestätigt|"
    r"prob(?:abl[ey])?|poss(?:ibl[ey])?|maybe|perhaps|presum(?:abl[ey]|ed)|likely|unconfirmed|unverified|uncertain|"
    r"unsure|suspected|supposed(?:ly)?|assumed|alleged(?:ly)?|apparently|putative|believed|thought to be|"
    r"probablement|présumée?|sans doute|peut[- ]être|éventuel(?:le)?(?:ment)?|supposée?|incertaine?)\b\.?",
    re.IGNORECASE,
)
IN_BRACKETS = re.compile(r"\( ?([^()]+?) ?\)")
# a sign apart from any letter at one end of the text, or a word that begins no name
APART = re.compile(
    r"(?:\?|(?:vermutl(?:ich|\.)|verm\.|vmtl\.|wahrsch(?:einlich|einl\.|\.)|wsl\.|evtl\.|mögl\.|prob\.|poss\.)) "
    r"(?P<behind>.*\w.*)|(?P<before>.*\w.*?) ?(?: \?+|\( ?(?:\?+|unsicher|vermutlich|unsure|uncertain|incertain) ?\))",
    re.IGNORECASE,
)
ENDS = " ()[]?!.,;:-–—"


def without_doubt(text: str) -> str:
    """A text without such words and signs."""
    return DOUBT.sub(" ", text).strip(ENDS)


def asked(text: str) -> str:
    """What such a sign or word stands beside; empty where there is none that stands apart."""
    found = APART.fullmatch(text)
    return (found["behind"] or found["before"]).strip(ENDS) if found else ""
