"""What a page says, in a language."""
from __future__ import annotations

import datetime
import enum
import re
from fractions import Fraction

from gudokeyi.domain.decimals import percent
from gudokeyi.render.languages import Language
from gudokeyi.render.texts.members import NAMES

# a day as sheets are read
DAY = re.compile(r"\d{4}-\d\d-\d\d")
# the blanks before and behind these don't end a line in French
SIGNS = re.compile(" (?=[:;?!»])|(?<=«) ")


class PageLanguage(Language):
    """A language as pages have it."""

    def spaced(self, text: str) -> str:
        """A text of the catalogue: in French no line begins with a sign, nor ends with a quotation mark that opens."""
        return SIGNS.sub("\u00a0", text) if self.name == "fr" else text

    def printed(self) -> Language:
        """The language of what is printed, whose texts are as the catalogue has them."""
        return Language(self.name)

    @property
    def colon(self) -> str:
        """With the blank before it that French has."""
        return "\u00a0:" if self.name == "fr" else ":"

    def sex(self, letter: str) -> str:
        return self.gettext("female" if letter == "F" else "male")

    def day(self, day: object) -> str:
        """Also none."""
        return super().day(day) if day else ""

    def written(self, text: str) -> str:
        """A text of a sheet; a day, which may be that of an .xlsx file, as the language writes it."""
        return self.day(text) if DAY.fullmatch(text) else text

    def time(self, time: datetime.datetime) -> str:
        here = time.astimezone()
        return f"{self.day(here.date())} {here:%H:%M}"

    def percent_of(self, value: Fraction) -> str:
        """Rounded, but that of nothing at all, which is 0."""
        return self.percent(percent(value) if value else "0")


def name_of(member: enum.Enum, language: PageLanguage) -> str:
    """What a member of an enum is called on a page; some names have a place for a value."""
    return language.pgettext(f"{type(member).__name__}.{member.name}", NAMES[type(member)][member])
