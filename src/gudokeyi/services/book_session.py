"""The program's session of a book: it has filed the book's journal, and is asked in its place."""
from __future__ import annotations

import contextlib
import threading
import time
from collections.abc import Iterator, Sequence

from gudokeyi.background import Background
from gudokeyi.domain.changes import NO_MARK, Change, Mark
from gudokeyi.domain.commands import Command
from gudokeyi.domain.mistakes import BookBusy, ProgramFailed
from gudokeyi.domain.refusals import Refusal
from gudokeyi.domain.waiting import seconds_left
from gudokeyi.engine.messages import ProgramFault
from gudokeyi.engine.session import (
    Answer, Places, Session, SessionBusy, SessionEnded as SessionEnded, SessionFault,
)  # fmt: skip
from gudokeyi.services.book_program import BookProgram
from gudokeyi.services.cache import mark_of
from gudokeyi.store.book import Book
from gudokeyi.store.database import busy
from gudokeyi.store.history import is_change, last_change, login
from gudokeyi.store.journal import (
    NO_JOURNAL, Journal, Part, journal_lines, lines_with_refusals, parts_of, refusals_of,
)  # fmt: skip
from gudokeyi.store.transactions import reading

# so often a session that ends is begun anew
TRIES = 2
# so many commands are filed at once
AT_ONCE = 20_000
# so long a change that is under way is waited for, and so often it is looked whether it is made, in seconds
SECONDS_FOR_CHANGE, A_MOMENT = 10, 0.02
# so many numbers of animals stand in one question: a request and an answer have an end
MOST_NUMBERS = 20_000
# so many inspectors answer several people: each keeps all of the book as it froze that last
INSPECTORS = 8
# the words that an inspector answers, which has no way to ask for two lists of animals
QUESTIONS = ("inbreeding", "inverse", "records", "certificate", "mating", "relationships", "seal", "sealed")


# the session's fault of a report that is longer than it makes them
TOO_LONG = "TooLong"


class ReportTooLong(Exception):
    """The session doesn't make so long a report; the program itself does, a part at a time."""


class BookMoved(Exception):
    """The book was changed since it was opened, and the session stands at what it is now."""


class BookSession(BookProgram):
    """The program, whose one session answers, at the journal of the book that is asked of; where that isn't the book of
    now any more it is to be opened anew. Each stored reply is compared with the session's."""

    most_numbers = MOST_NUMBERS

    def __init__(self, places: Places = Places()) -> None:
        super().__init__()
        self.places = places
        # who files at which desk
        self.desks: dict[str, int] = {}
        self.lock = threading.RLock()
        self.session: Session | None = None
        self.is_closed = False
        # the journal that the session has filed, and the mark of the book that has it
        self.journal, self.mark = NO_JOURNAL, NO_MARK

    @classmethod
    def for_one(cls) -> BookSession:
        """With one desk and one inspector."""
        return cls(Places(1, 1))

    @classmethod
    def for_many(cls) -> BookSession:
        """With as many desks as an office may have, and inspectors."""
        return cls(Places(16, INSPECTORS))

    def ask(self, words: list[str], book: Book) -> list[str]:
        if words[0] in QUESTIONS and "--with" not in words and book.journal.length:
            with contextlib.suppress(ReportTooLong):
                return self.asked([word for word in words if word != "--dam"], book)
        return super().ask(words, book)

    def beside(self, words: list[str], book: Book) -> Background[str]:
        """At once, as the session knows the book."""
        text = "".join(f"{line}\n" for line in self.ask(words, book))
        return Background(lambda: text)

    def records(self, numbers: Sequence[str], book: Book) -> list[str]:
        return [line for number in numbers for line in self.asked(["record", number], book)]

    def coefficients(self, numbers: Sequence[str], book: Book) -> list[str]:
        return [line for number in numbers for line in self.asked(["coefficient", number], book)]

    def refusals(self, book: Book) -> dict[int, Refusal]:
        """The stored ones: each was compared with the session's reply as that came to the journal."""
        for _ in range(TRIES):
            with contextlib.suppress(SessionEnded):
                self.at(book)
                return refusals_of(book.connection, book.journal)
        raise ProgramFailed(ProgramFault.SESSION_ENDS.said())

    def asked(self, question: list[str], book: Book) -> list[str]:
        """What an inspector of the session answers."""
        for _ in range(TRIES):
            with contextlib.suppress(SessionEnded):
                answer = self.answer_of(question, book)
                if answer.fault == TOO_LONG:
                    raise ReportTooLong
                if answer.fault:
                    raise ProgramFailed(ProgramFault.SESSION_CANT_DO.said(fault=answer.fault))
                if answer.steps != book.journal.length:
                    raise BookMoved
                return answer.lines
        raise ProgramFailed(ProgramFault.SESSION_ENDS.said())

    def answer_of(self, question: list[str], book: Book) -> Answer:
        session = self.at(book)
        try:
            return session.ask(question)
        except SessionBusy:
            raise busy() from None
        except SessionEnded:
            self.forget(session)
            raise

    def reply(self, command: Command, book: Book) -> Refusal | None:
        """The reply of the session's desk. Nobody else changes the book, and whoever asks stores it, or forgets the
        session."""
        with self.in_turn():
            for _ in range(TRIES):
                with contextlib.suppress(SessionEnded):
                    return self.reply_of(command, book)
        raise ProgramFailed(ProgramFault.SESSION_ENDS.said())

    def reply_of(self, command: Command, book: Book) -> Refusal | None:
        session = self.at(book, to_file=True)
        try:
            refusal = session.file([",".join(command)], self.desk_of(login()))[0]
        except SessionEnded:
            self.forget(session)
            raise
        except SessionFault as fault:
            raise ProgramFailed(ProgramFault.SESSION_CANT_FILE.said(fault=str(fault))) from None
        self.journal = Journal(self.journal.edition, self.journal.length + 1)
        return refusal

    def stands_at(self, change: Change) -> None:
        """A change is stored, which may be that of the session's last reply: without it a book is another one, and
        where the session can't be asked for long another one is begun later."""
        with contextlib.suppress(BookBusy), self.in_turn():
            if (change.edition, change.length) == (self.journal.edition, self.journal.length):
                self.mark = max(self.mark, change.mark)

    def desk_of(self, name: str) -> int:
        """Everybody has a desk; where there are more people than desks some share one."""
        return self.desks.setdefault(name, len(self.desks) % self.places.desks + 1)

    def at(self, book: Book, to_file: bool = False) -> Session:
        """The session, brought to a book's journal. A change that is under way behind the book is waited for: the
        session has filed it, and to begin another one each time would keep those waiting who ask and who file."""
        until = time.monotonic() + min(seconds_left(), SECONDS_FOR_CHANGE)
        while True:
            with self.in_turn():
                if to_file or not self.is_ahead_of(book) or time.monotonic() > until:
                    return self.brought_to(book, to_file)
                if not is_of_now(book):
                    raise BookMoved
            time.sleep(A_MOMENT)

    @contextlib.contextmanager
    def in_turn(self) -> Iterator[None]:
        """Nobody else brings the session to a book meanwhile; a mistake where somebody does for long."""
        if not self.lock.acquire(timeout=seconds_left()):
            raise busy()
        try:
            yield
        finally:
            self.lock.release()

    def is_ahead_of(self, book: Book) -> bool:
        """Has the session filed more than a book's journal has, of the same history?"""
        is_there = self.session is not None and not self.session.has_ended
        edition, length = self.journal
        return is_there and edition == book.journal.edition and length > book.journal.length

    def brought_to(self, book: Book, to_file: bool) -> Session:
        journal = book.journal
        is_of_it = journal.edition == self.journal.edition and self.is_known_to(book)
        goes_on = is_of_it and journal.length >= self.journal.length
        is_there = self.session is not None and not self.session.has_ended
        if is_there and not goes_on and not to_file and not is_of_now(book):
            raise BookMoved
        if self.is_closed:
            raise SessionEnded
        try:
            if not is_there or not goes_on:
                self.forget(self.session)
                self.session = Session(self, self.places)
                self.replay(self.session, book)
            assert self.session
            self.catch_up(self.session, book)
        except SessionEnded:
            self.forget(self.session)
            raise
        except SessionFault as fault:
            self.forget(self.session)
            raise ProgramFailed(ProgramFault.JOURNAL_CANT_BE_FILED.said(fault=str(fault))) from None
        self.mark = mark_of(book)
        return self.session

    def is_known_to(self, book: Book) -> bool:
        """Is the change after which the session stands one of this book? It isn't where another book was restored."""
        return self.mark == NO_MARK or has_change(book, self.mark)

    def replay(self, session: Session, book: Book) -> None:
        """Files the whole journal in a new session, and compares the replies with the stored ones."""
        lines = journal_lines(book.connection, book.journal)
        replies, stored = session.replay(lines, lines.count(b"\n")), refusals_of(book.connection, book.journal)
        self.compare(session, replies, stored)
        self.journal = book.journal

    def catch_up(self, session: Session, book: Book) -> None:
        """Files the commands of a book that the session lacks, and compares each reply with the stored one."""
        for part in parts_of(book.connection, book.journal):
            first = max(part.first, self.journal.length + 1)
            for begin in range(first, part.last + 1, AT_ONCE):
                last = min(part.last, begin + AT_ONCE - 1)
                stored = list(lines_with_refusals(book.connection, Part(part.edition, begin, last)))
                replies = session.file([line for line, _ in stored])
                told = {place: refusal for place, refusal in enumerate(replies, begin - 1) if refusal}
                kept = {place: Refusal(refusal) for place, (_, refusal) in enumerate(stored, begin - 1) if refusal}
                self.compare(session, told, kept)
                self.journal = Journal(book.journal.edition, last)

    def compare(self, session: Session, replies: dict[int, Refusal], stored: dict[int, Refusal]) -> None:
        """Refusals by the places of their commands, from 0 on."""
        if replies == stored:
            return
        first = min(place for place in replies.keys() | stored.keys() if replies.get(place) != stored.get(place))
        self.forget(session)
        raise ProgramFailed(ProgramFault.REPLY_DIFFERS.said(place=first + 1))

    def forget(self, session: Session | None) -> None:
        """Ends a session, so that the next question begins a new one. Whoever brings another one to the book isn't
        waited for longer than a page does."""
        with self.in_turn():
            if session is not None and session is self.session:
                self.session, self.journal = None, NO_JOURNAL
                session.end()

    def keep_to(self, stored: Journal) -> None:
        """Ends a session that has filed what isn't stored, or of which that can't be seen."""
        session = self.session
        try:
            with self.in_turn():
                if self.journal.edition != stored.edition or self.journal.length > stored.length:
                    self.forget(self.session)
        except BookBusy:
            if session:
                session.end()

    def close(self) -> None:
        """Ends the session; no other begins."""
        with self.lock:
            self.is_closed = True
            self.forget(self.session)


def has_change(book: Book, mark: Mark) -> bool:
    """Is the change with a mark one of this book?"""
    return is_change(book.connection, *mark)


def is_of_now(book: Book) -> bool:
    """Has it the last change of the book that is there, behind which one may be under way? When it was changed doesn't
    say so: clocks are put back."""
    with reading(book.folder) as connection:
        last = last_change(connection) if connection else None
        return last is None or has_change(book, last.mark)
