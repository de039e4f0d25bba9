"""Seals of books, and why a certificate isn't accepted under one."""
from __future__ import annotations

import datetime
import enum
import re
from typing import NamedTuple

from gudokeyi.domain.messages import Message, MessageText, Mistake

# a seal has so many hexadecimal digits, of which so many are shown at each end where there is little room
DIGITS, SHOWN_DIGITS, HEXADECIMAL = 64, 8, "0123456789abcdef"
# the titles above the lines in a file of a page, in its language: whoever reads such a file passes over them
TITLES = {
    "en": ("day", "edition", "steps", "animals", "seal"),
    "de": ("Tag", "Ausgabe", "Vorgänge", "Tiere", "Siegel"),
    "fr": ("Jour", "Édition", "Commandes", "Animaux", "Sceau"),
}
# the last part of a published line is the seal
LINE = re.compile(
    rf"(\d{{4}}-\d\d-\d\d)([,;])([1-9]\d{{0,8}}|0)\2(\d{{1,12}})\2(\d{{1,12}})\2([0-9a-f]{{{DIGITS}}})"
)


class Seal(NamedTuple):
    """The seal of a book, 64 hexadecimal digits; the number of commands in its journal, and of its animals."""

    digits: str
    steps: int
    animals: int

    def line(self) -> str:
        """As the program writes it."""
        return f"{self.digits},{self.steps},{self.animals}"

    @property
    def ends(self) -> tuple[str, str]:
        """The first and the last of its digits."""
        return self.digits[:SHOWN_DIGITS], self.digits[-SHOWN_DIGITS:]


class PublishedSeal(NamedTuple):
    """A seal that a society published on a day: that of its journal's edition up to the seal's steps."""

    day: datetime.date
    edition: int
    seal: Seal

    def line(self, separator: str = ",") -> str:
        """As it is published."""
        return separator.join(map(str, (self.day, self.edition, self.seal.steps, self.seal.animals, self.seal.digits)))


class PublishedSeals(NamedTuple):
    """All that a society published, the first one first."""

    seals: tuple[PublishedSeal, ...]


@enum.unique
class CheckFault(Message):
    """Why the program refuses a certificate. It tells the first that holds; `line` is where."""

    READ = "the file can't be read"
    TOO_MANY = "the file is longer than any that is checked"
    MEMORY = "there isn't enough memory to check it"
    HEADER = "the first line of the file isn't that of a certificate"
    ROW = "line {line} isn't the row of the animal or an ancestor, as a certificate has it"
    DIGESTS = "line {line} isn't a digest that its rows need, or one is lacking there"
    ORDER = "the row of line {line} isn't behind those before it"
    PARENT_LACKS = "a parent of the animal of line {line} isn't shown before it"
    PARENT_NUMBER = "the animal of line {line} names a parent by another number than the parent's row has"
    TOO_DEEP = "more than 60 steps lead from the animal of line {line} to an ancestor"
    NUMBER = "no row at the animal's place has its number"
    SEAL = "it isn't of the book that has this seal"
    COEFFICIENT = "the coefficient isn't the one of its rows"

    @property
    def code(self) -> str:
        """As the program names it."""
        return "".join(word.capitalize() for word in self.name.split("_"))


CHECK_FAULTS = {fault.code: fault for fault in CheckFault}


@enum.unique
class OtherKind(Message):
    """What a file is that is no certificate to check."""

    PDF = "a PDF"
    PICTURE = "a picture"
    PAGE = "a page for a browser"
    ARCHIVE = "an archive, or a document of an office program"


@enum.unique
class CheckAdvice(Message):
    """What to do about a certificate that is refused, by what its file looks like. Of the file nothing is told."""

    EMPTY = "the file is empty: it didn't arrive. Ask for it again"
    OTHER_KIND = (
        "the file is {kind}, as a printed certificate may be. The one to check is a text that begins with "
        "herdbook-certificate-1: ask for that"
    )
    OTHER_FILE = (
        "this is another file. The one to check is a text that begins with herdbook-certificate-1: ask for that"
    )
    OTHER_VERSION = "the certificate is of another version: check it by the herdbook that belongs to it"
    EDITED = (
        "an editor or a mail program wrote the file anew: its line ends, its letters, or what stands before the first "
        "line or behind the last. Take it as it came, and save it by no editor"
    )
    OTHER_SEAL = (
        "the file names another seal than the one you gave. Compare each digit with what the society published. Where "
        "it published several, take the one whose day and ends stand on the printed certificate"
    )
    CHANGED = (
        "something in the file was changed since the society made it, or a part is lacking. Believe nothing of it, and "
        "ask the society itself for it"
    )
    LATER = "nothing is known of the certificate yet: check it again later, or on another machine"


@enum.unique
class SealFault(Message):
    """What keeps a certificate from being made or accepted, or a seal from being published."""

    REFUSED = "the certificate is refused: {fault}"
    NO_SEAL = (
        "this isn't a whole seal: a seal has 64 digits from 0 to 9 and a to f, and here {count} are given. Take all of "
        "it from where the society published it"
    )
    NO_DIGIT = (
        "this isn't a seal: '{letter}' is none of its digits, which are 0 to 9 and a to f. Compare each with what the "
        "society published"
    )
    SEAL_MISSING = "the seal is missing: write the one that the society published"
    NOT_SEALED = (
        "{id} isn't in the book whose seal was published on {day}: publish the seal of now, or ask by --now for a "
        "certificate under that"
    )
    OTHER_BOOK = "another book was restored meanwhile: nothing is published. Look at it, and publish its seal"
    DIFFERS = "the published seal {line} isn't the one of the journal, {seal}: the book isn't whole. Restore a backup"
    # a file of published seals
    CANT_BE_READ = "{path} can't be read: {error}"
    NO_LINE = "{path}: line {line} isn't written as DAY,EDITION,STEPS,ANIMALS,SEAL"
    NO_EDITION = "line {line} differs: the book has no edition {edition}. Was a backup restored since?"
    EDITION_SHORT = "line {line} differs: edition {edition} has {commands} alone. Was a backup restored since?"
    LINE_DIFFERS = "line {line} differs: the journal's seal, steps and animals are {seal}"
    DAY_DIFFERS = "line {line} differs: the book keeps {day} as the day on which it was published"
    NOT_KEPT = "line {line} is of the journal, but the book doesn't keep it as published"
    OF_LINE = "line {line}: {told}"
    WRITTEN_ANEW = (
        "the journal was written anew since {day}, by change {change}: of the {commands:,} commands of edition "
        "{edition} that were sealed the book has the first {kept:,} now"
    )


class CertificateRefused(Mistake):
    """A certificate isn't what it says under the seal: why, in which line, 0 for none, and what to do about it."""

    def __init__(self, fault: CheckFault, line: int, *advice: MessageText) -> None:
        super().__init__(SealFault.REFUSED.said(fault=fault.said(line=line)), *advice)
        self.fault, self.line = fault, line
