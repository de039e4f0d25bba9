"""Certificates under a seal, for each of which the program hashes all of the book: one is made at a time, so that
whoever files doesn't wait for many, and the last ones are kept."""
from __future__ import annotations

import contextlib
import threading
from collections import OrderedDict
from collections.abc import Callable

from gudokeyi.domain.animals import SocietyRecord
from gudokeyi.domain.changes import Mark
from gudokeyi.domain.people import WORKER
from gudokeyi.domain.seals import PublishedSeal
from gudokeyi.services.book_program import BookProgram
from gudokeyi.services.book_session import BookMoved
from gudokeyi.services.cache import mark_of
from gudokeyi.services.opening import Book, busy, no_book
from gudokeyi.services.seals import SealedCertificate, last_published, sealed_certificate
from gudokeyi.web.work_places import Turns

# so many are kept, with so many letters together
MOST, MOST_LETTERS = 64, 8 << 20
# so often one is made of a book that somebody changes
TRIES = 3
# the published seal or else the state of the book, and the animal
Key = tuple[PublishedSeal | Mark, str]


class SealedCertificates:
    """Those of a book, which is opened anew for whoever waited."""

    def __init__(
        self, program: BookProgram, opened: Callable[[], contextlib.AbstractContextManager[Book | None]]
    ) -> None:
        self.program, self.opened = program, opened
        self.turns, self.lock = Turns(), threading.Lock()
        self.made = OrderedDict[Key, SealedCertificate]()

    def of(self, book: Book, animal: SocietyRecord) -> SealedCertificate:
        """That of an animal of the book; a mistake where others who ask for theirs keep this from being made in the
        time of a page."""
        found = self.kept(key_of(book, animal))
        if found:
            return found
        with self.turns.one(WORKER.get()):
            for _ in range(TRIES):
                with contextlib.suppress(BookMoved), self.opened() as now:
                    if now is None:
                        raise no_book(book.folder)
                    key = key_of(now, animal)
                    # somebody before may have asked for the same
                    return self.kept(key) or self.keep(key, sealed_certificate(now, self.program, animal))
        raise busy()

    def kept(self, key: Key) -> SealedCertificate | None:
        with self.lock:
            if key in self.made:
                self.made.move_to_end(key)
            return self.made.get(key)

    def keep(self, key: Key, made: SealedCertificate) -> SealedCertificate:
        with self.lock:
            self.made[key] = made
            while len(self.made) > MOST or sum(len(one.text) for one in self.made.values()) > MOST_LETTERS:
                self.made.popitem(last=False)
        return made


def key_of(book: Book, animal: SocietyRecord) -> Key:
    return last_published(book) or mark_of(book), animal.registration_number
