"""Seals of a book, certificates under them, and their check: what the program says of each, as values."""
from __future__ import annotations

import datetime
import os
import unicodedata
from collections.abc import Collection
from typing import IO, NamedTuple

from gudokeyi.domain.animals import SocietyRecord
from gudokeyi.domain.messages import MessageText, Mistake
from gudokeyi.domain.mistakes import BookNotWhole, InvalidValue, ProgramFailed
from gudokeyi.domain.seals import DIGITS, HEXADECIMAL, LINE, CertificateRefused, PublishedSeal, Seal, SealFault
from gudokeyi.engine.answers import records_of, seal_of_certificate, seal_told
from gudokeyi.engine.check_program import CheckProgram, file_with
from gudokeyi.services.book_program import BookProgram
from gudokeyi.services.refused_certificates import advice_on
from gudokeyi.store.book import Book
from gudokeyi.store.coefficients import Coefficient
from gudokeyi.store.journal import Journal, command_file, registered_numbers
from gudokeyi.store.published_seals import (
    first_with as first_with, last_published as last_published, published_seals as published_seals,
)  # fmt: skip

# a file of a certificate that is longer isn't read by the program, and not received by a page
MOST_BYTES = 64 << 20
# why it makes no certificate of an animal that a journal doesn't have
NOT_REGISTERED = "not registered"


class SealedCertificate(NamedTuple):
    """A certificate that anyone can check who has the seal: the text of its file, the seal, and the day on which that
    was published; none where it is the seal of now."""

    text: str
    seal: Seal
    published: datetime.date | None


class LastSealed(NamedTuple):
    """The seal that was published last, and the numbers of the animals that were in the book then."""

    published: PublishedSeal
    numbers: Collection[str]


class CheckedRecord(NamedTuple):
    """What a sealed book has of an animal. Animals are named by their registration numbers, parents that aren't known
    by an empty text, and owners by the numbers that the society gave them."""

    registration_number: str
    born: datetime.date
    sire: str
    dam: str
    owner_code: int
    owner_since: datetime.date
    left: datetime.date | None
    is_embryo: bool


class CheckedCertificate(NamedTuple):
    """What the program says of a certificate that it accepts: `text` is its answer, and all of the file that is to be
    believed. The records are those of the animal and of all its known ancestors, from the oldest on."""

    text: str
    registration_number: str
    coefficient: Coefficient
    steps: int
    animals: int
    records: tuple[CheckedRecord, ...]


def seal_of(book: Book, program: BookProgram) -> Seal:
    """That of the book as it is now."""
    return seal_told(program.ask(["seal"], book))


def seal_at(book: Book, program: BookProgram, journal: Journal) -> Seal:
    """That of the book as an edition of its journal up to a length has it."""
    return seal_told(program.lines(["seal"], command_file(book.connection, journal)))


def sealed_certificate(
    book: Book, program: BookProgram, animal: SocietyRecord, of_now: bool = False
) -> SealedCertificate:
    """The certificate of an animal under the seal that was published last, since that is what others have; where none
    was, or with `of_now`, under the seal of the book as it is now."""
    published = None if of_now else last_published(book)
    number = animal.registration_number
    if published is None or journal_of(published) == book.journal:
        return certificate_in(program.ask(["sealed", number], book), published)
    try:
        lines = program.lines(["sealed", number], command_file(book.connection, journal_of(published)))
    except ProgramFailed as failed:
        if is_not_registered(failed):
            raise ProgramFailed(SealFault.NOT_SEALED.said(id=animal.id, day=published.day)) from None
        raise
    return certificate_in(lines, published)


def last_sealed(book: Book) -> LastSealed | None:
    """The seal that was published last; none where none was."""
    published = last_published(book)
    return LastSealed(published, registered_numbers(book.connection, journal_of(published))) if published else None


def journal_of(published: PublishedSeal) -> Journal:
    return Journal(published.edition, published.seal.steps)


def certificate_in(lines: list[str], published: PublishedSeal | None) -> SealedCertificate:
    """The certificate that the program wrote; a mistake where its seal isn't the one that was published."""
    seal = seal_of_certificate(lines)
    if published and published.seal != seal:
        raise BookNotWhole(SealFault.DIFFERS.said(line=published.line(), seal=seal.line()))
    return SealedCertificate("".join(f"{line}\n" for line in lines), seal, published.day if published else None)


def is_not_registered(failed: ProgramFailed) -> bool:
    said = failed.sentences[0]
    return isinstance(said, MessageText) and said.values.get("told") == NOT_REGISTERED


def check_certificate(certificate: str | os.PathLike[str] | bytes, seal: str) -> CheckedCertificate:
    """Asks the program whether a certificate is what it says under a seal that a society published. It is the path of a
    file, or what stands in one. No book is needed.

    Raises `CertificateRefused`, and `InvalidValue` where that is no seal."""
    if isinstance(certificate, bytes):
        with file_with(certificate) as file:
            return check_file(file, seal)
    try:
        with open(certificate, "rb") as file:
            return check_file(file, seal)
    except OSError as error:
        raise Mistake(SealFault.CANT_BE_READ.said(path=certificate, error=error)) from None


def check_file(certificate: IO[bytes], seal: str) -> CheckedCertificate:
    """The same of a file that is open at its beginning."""
    digits = digits_of(seal)
    try:
        told = CheckProgram().check(certificate, digits)
    except CertificateRefused as refused:
        raise CertificateRefused(refused.fault, refused.line, advice_on(certificate, refused.fault, digits)) from None
    records = tuple(
        CheckedRecord(
            one.registration_number, one.born, one.sire, one.dam, one.owner_code, one.since, one.left, one.embryo
        )
        for one in records_of(told.records, {}).values()
    )
    coefficient = Coefficient(told.fraction, told.percent)
    return CheckedCertificate(told.text, told.number, coefficient, told.steps, told.animals, records)


def digits_of(seal: str) -> str:
    """Those of a seal as somebody wrote it or took it from paper, in capital letters or with blanks in it, or in the
    whole line that was published; a mistake where that is none."""
    written = "".join(letter for letter in seal if not is_blank(letter)).lower()
    line = LINE.fullmatch(written)
    digits = line[line.lastindex or 0] if line else written
    if not digits:
        raise InvalidValue(SealFault.SEAL_MISSING.said())
    if len(digits) != DIGITS:
        raise InvalidValue(SealFault.NO_SEAL.said(count=len(digits)))
    other = digits.lstrip(HEXADECIMAL)[:1]
    if other:
        raise InvalidValue(SealFault.NO_DIGIT.said(letter=other))
    return digits


def is_blank(letter: str) -> bool:
    """Blanks, ends of lines, and marks that aren't seen, as where a word may be parted."""
    return letter.isspace() or unicodedata.category(letter) == "Cf"
