"""Whether a book is whole: seen in processes beside the server, told on every page, and seen again each hour."""
from __future__ import annotations

import contextlib
import pathlib
import threading
from typing import cast

from gudokeyi.domain.changes import Mark
from gudokeyi.domain.messages import CALLED, Mistake
from gudokeyi.domain.mistakes import BookUnusable
from gudokeyi.domain.waiting import seconds_left
from gudokeyi.process import take_what_is_left
from gudokeyi.services.book_program import BookProgram
from gudokeyi.services.book_session import BookMoved, SessionEnded
from gudokeyi.services.cache import mark_of, stamp_of
from gudokeyi.services.history import change_made_by
from gudokeyi.services.opening import Book, book_in
from gudokeyi.services.verification import NotWhole, faults_by_parts, told_of_coefficients, verify
from gudokeyi.web.served_book import ServedBook
from gudokeyi.web.workers import TAKING, Job, Stage, Tell

# so often a desk that is open sees it, in seconds, and so little such a process takes from others
SECONDS_BETWEEN = 3600
NICE = 10


def seen_whole(folder: pathlib.Path, _: Tell) -> Mark:
    """The mark of the book as it is now, once it is seen that it is whole; else a mistake."""
    with book_in(folder) as book:
        verify(book, BookProgram(), quickly=True)
        return mark_of(book)


def seen_by_parts(folder: pathlib.Path, niceness: int, _: Tell) -> tuple[str, ...]:
    """What is told of a book that isn't whole, part by part."""
    take_what_is_left(niceness)
    try:
        return faults_by_parts(lambda: book_in(folder), BookProgram())
    except BookUnusable as mistake:
        return mistake.sentences


def see(served: ServedBook, niceness: int = 0) -> None:
    """Sees part by part whether the book is whole, in a process beside, and nobody waits for that. What isn't is told
    on every page, until that is seen anew."""
    with served.opened() as book:
        stamp = stamp_of(book) if book and book.change else None
    if stamp is None or served.is_closing:
        return
    job = served.seeing = Job(("whole",))
    job.do(seen_by_parts, (served.folder, niceness))
    if job.stage is not Stage.DONE:
        # it isn't known: where the book is changed it is seen, and told
        return
    faults = cast(tuple[str, ...], job.value)
    with served.opened() as book:
        if book is None or book.change is None:
            return
        if faults:
            served.faulty, served.trusted = (mark_of(book), faults), ()
        else:
            served.faulty = None
            served.trusted = stamp if stamp_of(book) == stamp else served.trusted


def see_each_hour(served: ServedBook) -> None:
    while not served.closes.wait(SECONDS_BETWEEN):
        # a book that can't be read is told by its pages
        with contextlib.suppress(Mistake):
            see(served, NICE)


def verified(served: ServedBook, book: Book) -> Mark:
    """The mark of a book that is seen to be whole: of this one, unless somebody changes it meanwhile."""
    if book.journal.length <= MOST_LOOKED_AT_HERE:
        verify(book, served.program, quickly=True)
        return mark_of(book)
    job = Job(("whole",))
    job.do(seen_whole, (served.folder,))
    if job.stage is not Stage.DONE:
        raise Mistake(*job.failed.sentences)
    return cast(Mark, job.value)


def begin_to_see(served: ServedBook) -> None:
    """Sees whether the book is whole, and begins with its overview and with the session, before somebody waits for
    them. What is wrong is told where the book is changed."""
    served.is_seen.clear()
    try:
        threading.Thread(target=see_whole, args=(served,), daemon=True).start()
    except RuntimeError:
        # where no thread can be started nobody waits for one: it is seen where the book is changed
        served.is_seen.set()


def see_whole(served: ServedBook) -> None:
    try:
        with contextlib.suppress(Mistake, BookMoved, SessionEnded):
            is_due = False
            with served.opened() as book:
                if book is not None and book.change is not None:
                    is_due = served.trusted != stamp_of(book)
                    served.overviews.of(book)
                    served.program.at(book)
            if is_due:
                see(served)
    finally:
        served.is_seen.set()


def keep_seeing(served: ServedBook) -> None:
    """Sees whether the book is whole, now and each hour."""
    begin_to_see(served)
    # where no thread can be started it is seen where the book is changed
    with contextlib.suppress(RuntimeError):
        threading.Thread(target=see_each_hour, args=(served,), daemon=True).start()


# Whether the coefficients that a book keeps are the program's, before a page shows them.

# a book of more commands is looked at in a process beside the server, and pages don't wait for that
MOST_LOOKED_AT_HERE = 5_000


def not_whole(served: ServedBook, book: Book, may_wait: bool = False) -> tuple[str, ...]:
    """What is wrong with the book, as it was seen, or with the kept coefficients; nothing is where it isn't known yet
    and nobody waits for it. These are seen anew where somebody changed the book, or its file alone: of a large one in a
    process beside, of which the next pages tell."""
    if served.faulty is not None and served.faulty[0] == mark_of(book):
        return served.faulty[1]
    if is_trusted(served, book, may_wait):
        return ()
    stamp = stamp_of(book)
    if book.journal.length > MOST_LOOKED_AT_HERE and not may_wait:
        if served.is_seen.is_set() and not served.jobs.turn.locked() and not being_told(served, book):
            begin_to_see(served)
        return ()
    try:
        return served.kept.of(book, ("coefficients", stamp), lambda: told_of_coefficients(book, served.program))
    except BookMoved:
        return ()
    except Mistake as mistake:
        return mistake.sentences


def is_trusted(served: ServedBook, book: Book, may_wait: bool) -> bool:
    """Is it known that the book and its file are whole? Of a change that ends at this moment it is known in a
    moment."""
    if served.trusted == stamp_of(book):
        return True
    if may_wait and (job := being_told(served, book)):
        job.is_told.wait(seconds_left())
    if may_wait and served.jobs.turn.acquire(timeout=seconds_left()):
        served.jobs.turn.release()
    return may_wait and served.trusted == stamp_of(book)


def being_told(served: ServedBook, book: Book) -> Job | None:
    """The taking of a sheet by a process beside that made the last change of a book, and is about to tell it."""
    jobs = [job for job in served.jobs.not_over() if job.kind == TAKING and not job.is_told.is_set()]
    return next((job for job in jobs if book.change and change_made_by(book, str(job.key[1])) == book.change), None)


def refuse_to_certify(served: ServedBook, book: Book) -> None:
    """A mistake where a certificate, or what else is printed, may have wrong coefficients."""
    faults = not_whole(served, book, may_wait=True)
    if faults:
        raise Mistake(*faults[:-1], NotWhole.NOT_PRINTED.said(called=CALLED))
