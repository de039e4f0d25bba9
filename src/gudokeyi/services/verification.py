"""Whether a book is whole: its file, the program's replies to its journal, its state, and the kept coefficients."""
from __future__ import annotations

import contextlib
import pathlib
from collections.abc import Callable, Sequence

from gudokeyi.domain.messages import CALLED, Count, MessageText, why
from gudokeyi.domain.mistakes import BookNotWhole
from gudokeyi.domain.refusals import Refusal
from gudokeyi.services.book_program import BookProgram
from gudokeyi.services.cache import SeenBefore
from gudokeyi.store.book import Book
from gudokeyi.store.coefficients import computed, kept_text, read_coefficients
from gudokeyi.store.database import damages_of
from gudokeyi.store.journal import givers_of, refusals_of
from gudokeyi.store.messages import NotWhole as NotWhole
from gudokeyi.store.state import kept_records, read_givers

# so many faults of the file are told
MOST_FAULTS = 9
# opens a book as it is now
Opened = Callable[[], contextlib.AbstractContextManager[Book]]


def verify(book: Book, program: BookProgram, path: pathlib.Path | None = None, quickly: bool = False) -> None:
    """A mistake with each fault, which names the file: that of the book, or the one of which it is a copy."""
    faults = faults_of_file(book, quickly)
    if not faults and book.journal.length:
        faults = [fault for part in PARTS for fault in part(book, program)]
    if faults:
        raise not_whole(path or book.path, faults)


def not_whole(path: pathlib.Path, faults: Sequence[MessageText]) -> BookNotWhole:
    told = (NotWhole.FAULT.said(path=path, fault=fault) for fault in faults)
    return BookNotWhole(*told, NotWhole.WHAT_TO_DO.said(called=CALLED))


def faults_by_parts(opened: Opened, program: BookProgram) -> tuple[MessageText, ...]:
    """What is told of a book that isn't whole; nothing of one that is. For each part it is opened anew, so that nothing
    is held for long: somebody may change it meanwhile."""
    found = list[MessageText]()
    for part in (lambda book, _: faults_of_file(book, quickly=True)), *PARTS:
        with opened() as book:
            if book.journal.length:
                found += (NotWhole.FAULT.said(path=book.path, fault=fault) for fault in part(book, program))
    return (*found, NotWhole.SHOWN.said(called=CALLED)) if found else ()


def faults_of_file(book: Book, quickly: bool) -> list[MessageText]:
    """Faults of tables, and but for a quick look those of indexes."""
    return [NotWhole.FILE.said(text=text) for text in damages_of(book.connection, quickly, MOST_FAULTS)]


def faults_of_replies(book: Book, program: BookProgram) -> list[MessageText]:
    text, length = book.command_file(), book.journal.length
    there = text.count(b"\n") - 1
    if there != length:
        return [NotWhole.LENGTH.said(there=Count(there, "command"), length=length)]
    stored, told = refusals_of(book.connection, book.journal), program.refusals(book)
    differing = sorted(place for place in stored.keys() | told.keys() if stored.get(place) != told.get(place))
    return [
        NotWhole.REPLY.said(place=place + 1, reply=reply(told.get(place)), stored=reply(stored.get(place)))
        for place in differing[:MOST_FAULTS]
    ]


def reply(refusal: Refusal | None) -> MessageText:
    return NotWhole.REFUSED.said(**why(refusal)) if refusal else NotWhole.ACCEPTED.said()


def faults_of_records(book: Book, program: BookProgram) -> list[MessageText]:
    """The stored records beside the program's, and who gave each animal last beside the journal."""
    from_database(book)
    begun = program.beside(["records"], book)
    kept = kept_records(book.connection)
    told = begun.value()
    gave, kept_givers = givers_of(book.connection, book.journal), read_givers(book.connection)
    if told == kept and gave == kept_givers:
        return []
    differing = {line.partition(",")[0] for line in {*told.splitlines()} ^ {*kept.splitlines()}}
    differing |= {number for number, _ in gave.items() ^ kept_givers.items()}
    return [NotWhole.STATE.said(animals=Count(len(differing), "animal"), first=min(differing))]


def check_records(book: Book, program: BookProgram) -> None:
    """A mistake where the stored records aren't the program's."""
    faults = faults_of_records(book, program)
    if faults:
        raise not_whole(book.path, faults)


def wrong_coefficients(book: Book, program: BookProgram) -> tuple[MessageText, ...]:
    """What is told where the kept coefficients aren't the program's."""
    if not book.journal.length:
        return ()
    faults = faults_of_coefficients(book, program)
    return tuple(NotWhole.FAULT.said(path=book.path, fault=fault) for fault in faults)


def told_of_coefficients(book: Book, program: BookProgram) -> tuple[MessageText, ...]:
    """The same beside what is shown of the book, with what to do."""
    faults = wrong_coefficients(book, program)
    return (*faults, NotWhole.SHOWN.said(called=CALLED)) if faults else ()


def told_once(book: Book, program: BookProgram) -> tuple[MessageText, ...]:
    """The same, where it isn't known of this file by an earlier call that nothing is to be told."""
    seen = SeenBefore(book, program.path)
    if seen.is_known():
        return ()
    told = told_of_coefficients(book, program)
    if not told:
        seen.keep()
    return told


def refuse_to_certify(book: Book, program: BookProgram, seen: SeenBefore | None = None) -> None:
    """A mistake where they aren't. With `seen` they are asked for once, as long as neither the book, its file nor the
    program is another."""
    if seen and seen.is_known():
        return
    faults = wrong_coefficients(book, program)
    if faults:
        raise BookNotWhole(*faults, NotWhole.NOT_PRINTED.said(called=CALLED))
    if seen:
        seen.keep()


def faults_of_coefficients(book: Book, program: BookProgram) -> list[MessageText]:
    from_database(book)
    begun = program.beside(["inbreeding"], book)
    stored = kept_text(book.connection)
    told = begun.value()
    if stored == told:
        return []
    found, kept = computed(told.splitlines()), read_coefficients(book.connection)
    differing = [number for number in found.keys() | kept.keys() if found.get(number) != kept.get(number)]
    if not differing:
        return [NotWhole.ORDER.said()]
    return [NotWhole.COEFFICIENTS.said(coefficients=Count(len(differing), "kept coefficient"), first=min(differing))]


def from_database(book: Book) -> None:
    """What is seen is the database: the program isn't given the export of the journal."""
    book.command_file()


# what the program says of a book, part by part
PARTS = (faults_of_replies, faults_of_records, faults_of_coefficients)
