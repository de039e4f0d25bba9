"""The kinds of mistakes, for programs that tell one from another. Each has its sentences, and says what to do."""
from __future__ import annotations

from gudokeyi.domain.messages import Mistake


class NoBook(Mistake):
    """There is no book in the folder."""


class BookUnusable(Mistake):
    """The book's file is damaged, of another program or a newer version, in use, full or not to be written."""


class BookNotWhole(Mistake):
    """What the book has doesn't fit together, or isn't what the program says."""


class AnimalNotFound(Mistake):
    """No animal of the book has this id, number or name."""


class AnimalAmbiguous(AnimalNotFound):
    """Several animals of the book have this name."""


class OwnerNotFound(Mistake):
    """No owner of the book has this name."""


class InvalidValue(Mistake):
    """A value can't be such a one: a day that hasn't come, a text that is too long, letters of a number."""


class MatingImpossible(Mistake):
    """Nobody may be mated, or not so."""


class ProgramFailed(Mistake):
    """The program herdbook isn't there, or gives no answer."""


class WrongWords(Mistake):
    """The words of a call can't be read, or don't go together."""


class RegisterRefused(Mistake):
    """The program refused what somebody wanted to file."""


class BookBusy(BookUnusable):
    """Somebody else is changing the book, or changed it meanwhile: later it may be done."""
