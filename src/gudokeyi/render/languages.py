"""How English, German and French write texts, days and numbers, and the marks behind what isn't known for certain. Ids
are the same in all of them."""
from __future__ import annotations

import enum

from gudokeyi.domain.provenance import BirthBasis, ExitBasis, OwnerDay, SexSource
from gudokeyi.domain.settings import LANGUAGES as LANGUAGES
from gudokeyi.locale import catalogue
from gudokeyi.store.coefficients import Coefficient

# The marks behind what isn't known for certain: a day, a sex or a parent.


class Mark(enum.Enum):
    """In the order in which they are explained."""

    INFERRED = "inferred"
    # the sheet names a parent that was left out
    IN_SHEET = "in sheet"
    INVENTED = "invented"


MARKS = {
    Mark.INFERRED: "inferred",
    # it stands behind a parent with what the sheet has
    Mark.IN_SHEET: "in the sheet: {}",
    Mark.INVENTED: "invented",
}


def mark_of(basis: BirthBasis | ExitBasis | OwnerDay | SexSource) -> Mark | None:
    """The mark of a birth day, an exit, an owner's first day or a sex, or none where the sheet gives it."""
    is_invented = basis.is_invented if isinstance(basis, BirthBasis) else basis is SexSource.INVENTED
    return Mark.INVENTED if is_invented else Mark.INFERRED if basis.is_inferred else None


class Language:
    """How a language writes texts, days, decimals and percentages."""

    def __init__(self, language: str) -> None:
        self.name, self.catalogue = language, catalogue(language)

    @property
    def is_english(self) -> bool:
        return self.name == "en"

    def gettext(self, text: str, *values: object) -> str:
        """The text, which stands in the code in English, with its values."""
        return self.filled(self.catalogue.gettext(text), values)

    def pgettext(self, context: str, text: str, *values: object) -> str:
        """That of a text which a language says otherwise at some place."""
        return self.filled(self.catalogue.pgettext(context, text), values)

    def ngettext(self, one: str, several: str, count: int, *values: object) -> str:
        """A text for so many, which are its first value."""
        return self.filled(self.catalogue.ngettext(one, several, count), (self.count(count), *values))

    def filled(self, text: str, values: tuple[object, ...]) -> str:
        return self.spaced(text).format(*values) if values else self.spaced(text)

    def spaced(self, text: str) -> str:
        """A text of the catalogue, as it is printed."""
        return text

    def day(self, day: object) -> str:
        """A day, which is given as `2001-03-01`."""
        year, month, day_of_month = str(day).split("-")
        days = {"en": str(day), "de": f"{day_of_month}.{month}.{year}", "fr": f"{day_of_month}/{month}/{year}"}
        return days[self.name]

    def decimal(self, number: str) -> str:
        return number if self.name == "en" else number.replace(".", ",")

    def count(self, number: int) -> str:
        """A whole number, in groups of three digits."""
        return f"{number:,}".replace(",", {"en": ",", "de": ".", "fr": "\u202f"}[self.name])

    def percent(self, number: str) -> str:
        """With a blank that ends no line before the sign, but in English."""
        return self.decimal(number) + {"en": "%", "de": "\u00a0%", "fr": "\u202f%"}[self.name]

    def coefficient(self, coefficient: Coefficient) -> str:
        return f"F\u00a0{self.percent(coefficient.percent if coefficient.is_inbred else '0')}"

    def marked(self, text: str, mark: Mark | None) -> str:
        """A text, as a day or a sex, with the mark behind it, if it has one."""
        return f"{text} ({self.gettext(MARKS[mark])})" if mark else text
