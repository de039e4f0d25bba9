"""The publishing of a book's seal, and whether published seals are those of the journal that the book keeps."""
from __future__ import annotations

import datetime
import pathlib
from collections.abc import Callable, Iterator
from dataclasses import dataclass

from gudokeyi.domain.messages import Count, MessageText, Mistake
from gudokeyi.domain.mistakes import BookBusy, BookNotWhole
from gudokeyi.domain.seals import LINE, TITLES, PublishedSeal, Seal, SealFault
from gudokeyi.services.book_program import BookProgram
from gudokeyi.services.cache import mark_of
from gudokeyi.services.opening import only_read
from gudokeyi.services.seals import journal_of, published_seals, seal_at, seal_of
from gudokeyi.services.verification import verify
from gudokeyi.services.written_anew import WrittenAnew, written_anew
from gudokeyi.store.book import Book
from gudokeyi.store.published_seals import keep_published, length_of
from gudokeyi.store.transactions import Overtaken

TITLE_LINES = {separator.join(titles) for titles in TITLES.values() for separator in ",;"}


def publish_seal(
    folder: pathlib.Path, program: BookProgram, see_whole: Callable[[Book], object] | None = None
) -> PublishedSeal:
    """Keeps the seal of the book as it is now as one that is published today, once it is seen that the book is whole.
    Nobody else waits for that. Where this seal was published already that line stays."""
    with only_read(folder) as book:
        if see_whole:
            see_whole(book)
        else:
            verify(book, program, quickly=True)
        made = PublishedSeal(datetime.date.today(), book.journal.edition, seal_of(book, program))
        looked = mark_of(book)
    try:
        kept = keep_published(folder, looked, made)
    except Overtaken:
        raise BookBusy(SealFault.OTHER_BOOK.said()) from None
    if kept.seal != made.seal:
        raise BookNotWhole(SealFault.DIFFERS.said(line=kept.line(), seal=made.seal.line()))
    return kept


# Published lines beside the journal.


@dataclass(frozen=True, slots=True)
class GivenLine:
    """A line of a file, with its place there."""

    place: int
    published: PublishedSeal


def verify_published(book: Book, program: BookProgram, path: pathlib.Path) -> tuple[int, list[MessageText]]:
    """Recomputes each line of a file of published seals from the journal that the book keeps. Answers how many there
    are, and what is told of those whose journal was written anew since, or that the book doesn't keep. The first that
    differs is a mistake."""
    lines, kept = list(read_lines(path)), {journal_of(one): one for one in published_seals(book)}
    for line in lines:
        refuse_other(book, program, line, kept.get(journal_of(line.published)))
    anew = written_anew(book, [line.published for line in lines])
    return len(lines), [note for line in lines for note in told_of(line, journal_of(line.published) in kept, anew)]


def read_lines(path: pathlib.Path) -> Iterator[GivenLine]:
    """The lines of a file, but for empty ones and titles above them."""
    try:
        text = path.read_text(encoding="utf-8-sig", errors="replace")
    except OSError as error:
        raise Mistake(SealFault.CANT_BE_READ.said(path=path, error=error)) from None
    for place, line in enumerate(text.splitlines(), 1):
        if line.strip() and line.strip() not in TITLE_LINES:
            yield GivenLine(place, read_line(path, place, line.strip()))


def read_line(path: pathlib.Path, place: int, line: str) -> PublishedSeal:
    found = LINE.fullmatch(line)
    try:
        if found:
            day, _, edition, steps, animals, digits = found.groups()
            return PublishedSeal(datetime.date.fromisoformat(day), int(edition), Seal(digits, int(steps), int(animals)))
    except ValueError:
        pass
    raise Mistake(SealFault.NO_LINE.said(path=path, line=place))


def refuse_other(book: Book, program: BookProgram, given: GivenLine, kept: PublishedSeal | None) -> None:
    """A mistake where a line isn't the one of the journal."""
    published, place = given.published, given.place
    there = length_of(book.connection, published.edition)
    if there is None:
        raise BookNotWhole(SealFault.NO_EDITION.said(line=place, edition=published.edition))
    if published.seal.steps > there:
        commands = Count(there, "command")
        raise BookNotWhole(SealFault.EDITION_SHORT.said(line=place, edition=published.edition, commands=commands))
    seal = seal_at(book, program, journal_of(published))
    if seal != published.seal:
        raise BookNotWhole(SealFault.LINE_DIFFERS.said(line=place, seal=seal.line()))
    if kept and kept.day != published.day:
        raise BookNotWhole(SealFault.DAY_DIFFERS.said(line=place, day=kept.day))


def told_of(given: GivenLine, is_kept: bool, anew: WrittenAnew) -> Iterator[MessageText]:
    """What is to be seen of a line that doesn't differ."""
    if not is_kept:
        yield SealFault.NOT_KEPT.said(line=given.place)
    if given.published in anew:
        yield SealFault.OF_LINE.said(line=given.place, told=anew[given.published])
