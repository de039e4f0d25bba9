"""Numbers of a workbook as a spreadsheet shows them by the format of their cell: whole ones with zeros and the text
before them; and, for texts that are kept as they are shown, with any text of the format, and as percentages."""
from __future__ import annotations

import decimal
import functools
import re
from typing import NamedTuple

# a text, a sign behind a backslash, a condition or a colour, a gap, digits, or one sign alone
TOKENS = re.compile(r'"[^"]*"|\\.|\[[^\]]*\]|_.|\*.|[0#?]+|General|.', re.DOTALL)
# what stands for itself without quotation marks
PLAIN = frozenset(" -/()+:")
NONE_SHOWN, PERCENT = "[_*", "%"
# below it a spreadsheet keeps all digits of a number, of which it shows so many behind the point, and a format has so
# many letters
MOST, MOST_PLACES, MOST_LETTERS = 10**15, 10, 255
# that of numbers for which a part of a format is
CONDITION = re.compile(r"\[[<>=]")


class Format(NamedTuple):
    """What stands before, between and behind groups of digits, how many digits each group has, and how many there are
    at least in all; how many stand behind the point, and whether the number is a percentage."""

    texts: tuple[str, ...]
    groups: tuple[int, ...]
    least: int
    places: int = 0
    is_percentage: bool = False


def number_text(value: int, number_format: str) -> str:
    """A number with the zeros and the text of its format; digits alone where it has neither."""
    if re.fullmatch("0+", number_format):
        return f"{value:0{len(number_format)}}"
    found = with_text(number_format) if value >= 0 and number_format != "General" else None
    if found is None:
        return str(value)
    return filled(found, f"{value:0{found.least}}")


def filled(found: Format, digits: str) -> str:
    """A format with the digits of a whole number at its places."""
    before, first, *texts = found.texts
    parts = list[str]()
    for text, group in zip(reversed(texts), reversed(found.groups)):
        parts = [digits[-group:], text, *parts]
        digits = digits[:-group]
    return " ".join("".join([before, digits, first, *parts]).split())


def shown_number(value: int | float, number_format: str) -> str:
    """A number with all text of its format; empty where this has none, or doesn't show all digits."""
    found = read_format(number_format) if 0 <= value < MOST else None
    if found is None or not any(one.isalnum() or one == PERCENT for one in "".join(found.texts)):
        return ""
    exact = decimal.Decimal(repr(value)) * (100 if found.is_percentage else 1)
    shown = round(exact, found.places)
    whole, _, places = f"{shown:.{found.places}f}".partition(".")
    if shown != exact or (places and len(found.groups) > 1):
        return ""
    *texts, behind = found.texts
    point = f".{places}" * bool(places)
    return filled(found._replace(texts=(*texts, point + behind)), whole.zfill(found.least))


@functools.lru_cache(1000)
def with_text(number_format: str) -> Format | None:
    """A format that has a text with a letter or a digit before its digits, as `"DE "000`; others, as those of amounts
    and of units behind a number, have no part of an id."""
    found = read_format(number_format)
    if found is None or found.places or found.is_percentage or not any(map(str.isalnum, found.texts[0])):
        return None
    return found


@functools.lru_cache(1000)
def read_format(number_format: str) -> Format | None:
    """A format of digits and texts, where it has nothing else."""
    texts, groups, least, places, is_percentage = [""], list[int](), 0, 0, False
    # how many groups stand before the point
    whole = -1
    for token in TOKENS.findall(number_format):
        if token == ";":
            # what follows is of numbers below 0
            break
        if whole >= 0 and not places and not token.strip("0"):
            places = len(token)
        elif (token[0] in "0#?" or token == "General") and whole < 0:
            groups.append(len(token))
            least += token.count("0")
            texts.append("")
        elif token == "." and groups and whole < 0:
            whole = len(groups)
        elif token[0] == '"' and len(token) > 1:
            texts[-1] += token[1:-1]
        elif token[0] == "\\" and len(token) > 1:
            texts[-1] += token[1]
        elif token in PLAIN or token == PERCENT:
            texts[-1] += token
            is_percentage |= token == PERCENT
        elif token[0] not in NONE_SHOWN or CONDITION.match(token):
            return None
    if not groups or (whole >= 0 and not 0 < places <= MOST_PLACES):
        return None
    return Format(tuple(texts), tuple(groups), least, places, is_percentage)
