"""The book as a page changes it: nobody else changes it meanwhile, and it is whole."""
from __future__ import annotations

import contextlib
from collections.abc import Iterator

from gudokeyi.domain.messages import Mistake
from gudokeyi.domain.requests import WebFault
from gudokeyi.domain.waiting import seconds_left
from gudokeyi.services.cache import Stamp, stamp_of
from gudokeyi.services.opening import Book, alone_to_change, busy, no_book
from gudokeyi.web.served_book import ServedBook
from gudokeyi.web.verification import begin_to_see, being_told, verified


@contextlib.contextmanager
def in_turn(served: ServedBook) -> Iterator[None]:
    """Nobody else changes the book in this process until this ends; a mistake where somebody does for long."""
    if not served.jobs.turn.acquire(timeout=seconds_left()):
        raise busy()
    try:
        yield
    finally:
        served.jobs.turn.release()


@contextlib.contextmanager
def to_change(served: ServedBook) -> Iterator[Book]:
    """The book, which nobody else changes until this ends. It is seen before whether it is whole, unless nobody changed
    it, or its file alone, since that was seen."""
    # where that is under way it isn't done twice
    if not served.is_seen.wait(seconds_left()):
        raise busy()
    with in_turn(served):
        with alone_to_change(served.folder) as book:
            yield from whole(served, book)
        with served.opened() as changed:
            # it was whole before; a process beside may have told of a later change by now
            stamp = stamp_of(changed) if changed else ()
            served.trusted = served.trusted if served.trusted[:1] > stamp[:1] else stamp


def whole(served: ServedBook, book: Book) -> Iterator[Book]:
    if served.is_closing:
        raise Mistake(WebFault.CLOSING.said())
    if not book.is_there:
        raise no_book(served.folder)
    if stamp_of(book) != served.trusted and (job := being_told(served, book)):
        job.is_told.wait(seconds_left())
    if stamp_of(book) != served.trusted:
        verified(served, book)
    try:
        yield book
    except BaseException:
        served.program.keep_to(book.journal)
        raise


def go_on(served: ServedBook, whole: Stamp) -> None:
    """The book is changed in a process beside: as it was then it is whole, and needn't be seen again. The session is
    brought to it before somebody waits for that."""
    served.trusted = whole
    served.exports.wish()
    begin_to_see(served)
