"""The program, asked of a book: its journal is given to it, and it answers for what the book is then."""
from __future__ import annotations

import functools
import os
from collections.abc import Sequence

from gudokeyi.background import Background
from gudokeyi.domain.commands import Command, lines_of
from gudokeyi.domain.refusals import Refusal
from gudokeyi.engine.program import Herdbook
from gudokeyi.services.exported_journal import journal_of
from gudokeyi.store.book import Book

# so many numbers of animals may stand in one call, more than a book has at most: a command line has an end
MOST_NUMBERS = os.sysconf("SC_ARG_MAX") // 32


class BookProgram(Herdbook):
    """The program with the questions that are asked of a book. Each is one run of it, of the whole journal."""

    # so many numbers of animals stand in one question
    most_numbers = MOST_NUMBERS

    def ask(self, words: list[str], book: Book) -> list[str]:
        """The lines that it writes of a book's journal."""
        return self.lines(words, journal_of(book))

    def beside(self, words: list[str], book: Book) -> Background[str]:
        """The text that it writes of a book's journal, while something else is done, and while the journal is read if
        that is read beside; else it is read before. Where it couldn't be read beside, that is raised, and to ask again
        helps."""
        pieces = book.beside
        if pieces is not None and not pieces.has_failed:
            return Background(functools.partial(self.run_meanwhile, words, pieces))
        return Background(functools.partial(self.run, words, journal_of(book)))

    def begin_matings(self, dam: str, sires: Sequence[str], book: Book) -> list[Background[str]]:
        """It begins to compute a mating of a dam with each of the sires, by their numbers: a text for some of them
        after the other."""
        return self.begin_for_each(["mating", "--dam", dam], sires, book)

    def begin_certificates(self, numbers: Sequence[str], book: Book) -> list[Background[str]]:
        """It begins to write certificates: a text for some of them after the other."""
        return self.begin_for_each(["certificate"], numbers, book)

    def begin_for_each(self, words: list[str], numbers: Sequence[str], book: Book) -> list[Background[str]]:
        """It begins to answer a question for each of some animals: a text for some of them after the other."""
        parts = range(0, len(numbers), self.most_numbers)
        return [self.beside([*words, *numbers[first : first + self.most_numbers]], book) for first in parts]

    def records(self, numbers: Sequence[str], book: Book) -> list[str]:
        """The lines of some animals' records, in the order of the numbers."""
        return self.ask(["records", *numbers], book)

    def coefficients(self, numbers: Sequence[str], book: Book) -> list[str]:
        """The lines of a few animals among those of all coefficients; none where it would be as much work as all of
        them."""
        return []

    def refusals(self, book: Book) -> dict[int, Refusal]:
        """The refusals of a book's journal: for each refused command its place, from 0 on, and the refusal."""
        return self.file_text(book.command_file(), book.journal.length)

    def reply(self, command: Command, book: Book) -> Refusal | None:
        """Why it refuses a command behind a book's journal; none where it accepts it."""
        length = book.journal.length
        return self.file_text(book.command_file() + lines_of([command]), length + 1).get(length)
