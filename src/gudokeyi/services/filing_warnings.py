"""What may be wrong of a command that somebody files by hand, and that they see before it is filed."""
from __future__ import annotations

import datetime
from dataclasses import replace

from gudokeyi.domain.findings import What
from gudokeyi.domain.kinds import ChangeKind
from gudokeyi.reconcile.plausibility_by_hand import (
    ByHandAnimal, MayBeWrong as MayBeWrong, digest_of as digest_of, refuse_unseen as refuse_unseen, warnings_of,
)  # fmt: skip
from gudokeyi.services.filing import FiledCommand, born_record, parent_in
from gudokeyi.store.book import Book


def looked_at(book: Book, one: FiledCommand) -> FiledCommand:
    """With what may be wrong of it, by the rules of sheets."""
    number, command = one.animal.registration_number, one.command
    was = book.by_number().get(number)
    if (one.kind is ChangeKind.BIRTH) == (was is not None):
        # the program refuses it
        return one
    if was is None:
        record = born_record(command)
    else:
        record = book.records[number]
        if one.kind is ChangeKind.PARENTS:
            record = record._replace(sire=parent_in(command.sire), dam=parent_in(command.dam))
        elif one.kind is ChangeKind.EXIT:
            record = record._replace(left=datetime.date.fromisoformat(command.day))
    findings = tuple(found for found in one.findings if found.what is not What.WARNING)
    warnings = warnings_of(book, [ByHandAnimal(one.animal, record, was)], one.new_owners)
    return replace(one, findings=findings, warnings=warnings)
