"""Corrections that another program asks for: of anything of an animal, all of it or nothing."""
from __future__ import annotations

from dataclasses import dataclass
from typing import Any

from gudokeyi.domain.animals import SocietyRecord
from gudokeyi.domain.messages import Mistake
from gudokeyi.domain.refusals import Refusal
from gudokeyi.reconcile.rewriting import Rewriting, RewritingRefused
from gudokeyi.services.batch_commands import animal_of, parent_of
from gudokeyi.services.batch_fields import Asked, FieldFault
from gudokeyi.services.book_program import BookProgram
from gudokeyi.services.correcting import Corrected, Correction, Refused, corrected, state_after as state_after
from gudokeyi.store.book import Book
from gudokeyi.store.journal import Filed


@dataclass(frozen=True, slots=True)
class RefusedCorrection:
    """The first command of it that the register refuses, and a sentence."""

    id: str
    refusal: Refusal
    sentence: str


def correction_of(book: Book, asked: Asked) -> tuple[SocietyRecord, Correction]:
    """The animal, and what it is to have."""
    values: dict[str, Any] = dict(asked.values)
    sire, dam = (parent_of(book, role, values) for role in ("sire", "dam"))
    said = Correction(
        values.get("new_id"), values.get("name"), values.get("sex"), values.get("castrated"), values.get("born"), sire,
        dam, values.get("embryo"), values.get("owners"), values.get("exit"), values.get("reason"),
    )  # fmt: skip
    return animal_of(book, "id", values["id"]), said


def correction(book: Book, program: BookProgram, asked: Asked) -> tuple[Corrected, Filed] | RefusedCorrection:
    """What is corrected, and the commands of it; raises `FieldFault`."""
    known, said = correction_of(book, asked)
    try:
        one = corrected(book, known, said)
    except Mistake as mistake:
        raise FieldFault("", mistake.sentences[0]) from None
    try:
        return one, Rewriting(book, {one.before.registration_number: one.life}).filed(program)
    except RewritingRefused as found:
        first = found.commands[0]
        return RefusedCorrection(known.id, first.refusal, str(next(Refused(book, one, first).sentences())))
