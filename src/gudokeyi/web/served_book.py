"""The desk that a server shows in a browser: its book, the program that answers, and what is under way at it."""
from __future__ import annotations

import contextlib
import functools
import pathlib
import threading
from collections.abc import Callable, Iterator
from dataclasses import dataclass, field
from typing import Concatenate, ParamSpec, cast

from flask import current_app, g, redirect, url_for
from werkzeug.wrappers import Response

from gudokeyi.domain.changes import Mark
from gudokeyi.domain.messages import Mistake
from gudokeyi.services.book_session import BookSession
from gudokeyi.services.cache import BookCache, Stamp
from gudokeyi.services.opening import DATABASE, Book, HeldOpen, book_in
from gudokeyi.services.overview import Overviews
from gudokeyi.web.certificate_work import SealedCertificates
from gudokeyi.web.files import Uploads
from gudokeyi.web.work_places import Turns
from gudokeyi.web.workers import Exports, Job, Jobs

EXTENSION = "desk"
# so long it is waited at the end for what looks whether the book is whole
SECONDS_TO_SEE = 10
# what a page answers
Answer = str | Response | tuple[str, int]
Given = ParamSpec("Given")


def is_set() -> threading.Event:
    event = threading.Event()
    event.set()
    return event


@dataclass
class ServedBook:
    """A book's folder with all that the pages need. One that is only to be read changes nothing."""

    folder: pathlib.Path
    program: BookSession
    read_only: bool
    uploads: Uploads
    jobs: Jobs
    exports: Exports
    # what was computed of the book as it is after a change
    kept: BookCache = field(default_factory=BookCache)
    overviews: Overviews = field(default_factory=Overviews)
    # the book and its file as they were when it was last seen to be whole
    trusted: Stamp = ()
    # what is told of a book that isn't whole, with the mark of that
    faulty: tuple[Mark, tuple[str, ...]] | None = None
    # what sees whether it is whole
    seeing: Job | None = None
    # nobody sees at the start whether it is whole
    is_seen: threading.Event = field(default_factory=is_set)
    # nobody changes the book any more
    is_closing: bool = False
    closes: threading.Event = field(default_factory=threading.Event)
    # pages of very many certificates
    printing: Turns = field(default_factory=Turns)

    def __post_init__(self) -> None:
        self.held = HeldOpen(self.folder)
        self.sealed = SealedCertificates(self.program, self.opened)

    def has_book(self) -> bool:
        return (self.folder / DATABASE).exists()

    @contextlib.contextmanager
    def opened(self) -> Iterator[Book | None]:
        """The book as it is now, whoever changes it meanwhile; none where there is none."""
        self.held.hold()
        with book_in(self.folder) as book:
            yield book if book.is_there else None

    def end_changes(self) -> None:
        """Waits for a change that is under way; no other begins."""
        self.is_closing = True
        with self.jobs.turn:
            pass
        self.jobs.end()

    def close(self) -> None:
        """Ends all else. Nothing of it goes on while the interpreter ends."""
        self.closes.set()
        if self.seeing and self.seeing.process:
            self.seeing.process.kill()
        self.is_seen.wait(SECONDS_TO_SEE)
        self.exports.end()
        self.program.close()
        self.held.end()
        with contextlib.suppress(Mistake), book_in(self.folder):
            # the last that reads it: nothing stays beside it
            pass


def served_book() -> ServedBook:
    """The desk of the server that answers."""
    return cast(ServedBook, current_app.extensions[EXTENSION])


def with_book(page: Callable[Concatenate[Book, Given], Answer]) -> Callable[Given, Answer]:
    """A page of a book that is there; where there is none the start page says what to do."""

    @functools.wraps(page)
    def shown(*values: Given.args, **named: Given.kwargs) -> Answer:
        with book_of_page() as book:
            if book is None or book.change is None:
                return redirect(url_for("start.page"))
            return page(book, *values, **named)

    return shown


@contextlib.contextmanager
def book_of_page() -> Iterator[Book | None]:
    """The book as the page that is answered shows it: it is opened once for all of the page."""
    if "book" in g:
        yield g.book
        return
    with served_book().opened() as book:
        g.book = book
        try:
            yield book
        finally:
            g.pop("book")
