"""Advice on the matings of a dam: what is needed further is imported while the journal is read, and while the program
computes."""
from __future__ import annotations

from collections.abc import Sequence
from typing import TYPE_CHECKING

from gudokeyi.domain.animals import SocietyRecord
from gudokeyi.services.book_program import BookProgram
from gudokeyi.services.exported_journal import read_beside
from gudokeyi.store.book import Book

if TYPE_CHECKING:
    from gudokeyi.services.matings import Advice


def advise(
    book: Book, program: BookProgram, dam: SocietyRecord, named: Sequence[SocietyRecord], also_left: bool
) -> Advice:
    """Advice on the sires that are named, or where none is on all that there are, with those that left too."""
    if named:
        from gudokeyi.services.matings import advise_on_named

        return advise_on_named(book, program, dam, named)
    from gudokeyi.domain.kinds import Role
    from gudokeyi.store.mates import MatesRead

    with read_beside(book):
        sires = MatesRead(book, Role.SIRE, also_left)
        begun = program.begin_matings(dam.registration_number, sires.numbers, book)
        from gudokeyi.services.matings import advise_on_all

        return advise_on_all(book, program, dam, sires, begun, also_left)
