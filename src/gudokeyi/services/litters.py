"""The births of one dam on a day, filed together as one change: all of them, or nothing where the register refuses
any."""
from __future__ import annotations

import datetime
import re
from collections.abc import Iterator, Sequence
from dataclasses import dataclass, replace

from gudokeyi.domain.animals import SocietyRecord
from gudokeyi.domain.changes import Change, ChangeDetails, Option
from gudokeyi.domain.commands import Command, leave
from gudokeyi.domain.findings import Entry
from gudokeyi.domain.kinds import ChangeKind, ExitReason, Field
from gudokeyi.domain.messages import why
from gudokeyi.domain.mistakes import InvalidValue, RegisterRefused
from gudokeyi.engine.answers import records_of
from gudokeyi.reconcile.findings.by_hand import IdsAlike, NewAnimal
from gudokeyi.reconcile.messages import LitterFault as LitterFault
from gudokeyi.reconcile.plausibility_by_hand import ByHandAnimal, refuse_unseen, warnings_of
from gudokeyi.reconcile.rewriting import refused_of
from gudokeyi.reconcile.stored_findings import told_of
from gudokeyi.services.book_program import BookProgram
from gudokeyi.services.filing import FiledCommand, NewAnimals, Offspring, born, born_record, clean
from gudokeyi.services.writing import write
from gudokeyi.store.animal_rows import row_of
from gudokeyi.store.book import Book
from gudokeyi.store.journal import Filed, Step
from gudokeyi.store.state import Rows, State, Values, rows_with_id

# the digits at the end of a tag
AT_END = re.compile(r"\d+$")
# so many newborns a litter has at most
MOST = 20


@dataclass(frozen=True)
class Newborn:
    """What is said of one: an empty tag counts on from the one before, and one that was born dead needs none."""

    sex: str
    id: str = ""
    name: str = ""
    is_stillborn: bool = False


@dataclass(frozen=True)
class Litter:
    """What is said of the births of a day."""

    dam: SocietyRecord
    day: datetime.date
    sire: SocietyRecord | None
    owner: str
    newborns: tuple[Newborn, ...]


@dataclass(frozen=True)
class FiledLitter:
    """The births, as each would be filed alone, with what is told of all, and what may be wrong."""

    births: tuple[FiledCommand, ...]
    exits: tuple[Command, ...]
    warnings: tuple[Entry, ...]
    new_owners: dict[str, int]


class OneAfterTheOther(NewAnimals):
    """Their numbers go on from one another. What is like them is looked for at once."""

    def __init__(self, book: Book) -> None:
        self.digits = book.greatest_digits()

    def next_digits(self, book: Book) -> int:
        self.digits += 1
        return self.digits

    def alike(self, book: Book, id: str) -> list[IdsAlike]:
        return []


def next_tag(tag: str) -> str:
    """The tag behind one: its digits at the end count on. A mistake where it has none."""
    found = AT_END.search(tag)
    if not found:
        raise InvalidValue(LitterFault.NO_TAG.said(tag=tag))
    return f"{tag[: found.start()]}{int(found[0]) + 1:0{len(found[0])}}"


def with_tags(book: Book, litter: Litter) -> Iterator[Newborn]:
    """Each with its tag."""
    before, dead = "", 0
    for one in litter.newborns:
        tag = clean(one.id)
        if one.is_stillborn and not tag:
            dead += 1
            tag = f"{litter.dam.id} {litter.day.isoformat()} †{dead}"
        elif not tag and not before:
            raise InvalidValue(LitterFault.FIRST_TAG.said())
        else:
            tag = before = tag or next_tag(before)
        if tag in book.society_records:
            raise InvalidValue(LitterFault.TAG_TAKEN.said(tag=tag))
        yield replace(one, id=tag)


def born_together(book: Book, litter: Litter) -> FiledLitter:
    """The births of a litter; a mistake where that can't be meant. The register isn't asked yet."""
    if not 0 < len(litter.newborns) <= MOST:
        raise InvalidValue((LitterFault.TOO_MANY if litter.newborns else LitterFault.NO_NEWBORN).said(most=MOST))
    newborns = [*with_tags(book, litter)]
    tags = [one.id for one in newborns]
    if twice := next((tag for tag in tags if tags.count(tag) > 1), ""):
        raise InvalidValue(LitterFault.TAG_TWICE.said(tag=twice))
    births, new = list[FiledCommand](), OneAfterTheOther(book)
    for one in newborns:
        said = Offspring(one.id, one.sex, litter.day, one.name, litter.sire, litter.dam, litter.owner)
        filed = born(book, said, new)
        births.append(as_stillborn(filed) if one.is_stillborn else filed)
    dead = (one.animal.registration_number for one, newborn in zip(births, newborns) if newborn.is_stillborn)
    exits = tuple(leave(number, litter.day) for number in dead)
    return FiledLitter(tuple(births), exits, warnings_in(book, births), births[0].new_owners)


def as_stillborn(filed: FiledCommand) -> FiledCommand:
    by_hand = filed.animal.by_hand | {Field.EXIT}
    return replace(filed, animal=filed.animal._replace(exit_reason=str(ExitReason.STILLBORN), by_hand=by_hand))


def warnings_in(book: Book, births: Sequence[FiledCommand]) -> tuple[Entry, ...]:
    """What may be wrong; what is told of several alike is told of the first."""
    filed = [ByHandAnimal(one.animal, born_record(one.command)) for one in births]
    found = warnings_of(book, filed, births[0].new_owners)
    return tuple({entry.finding: entry for entry in reversed(found)}.values())[::-1]


def file_litter(
    book: Book, program: BookProgram, one: FiledLitter, options: tuple[Option, ...] = (), form: str = "",
    seen: str | None = None,
) -> Change:  # fmt: skip
    """Files the births as one change, once the program takes all of them. What may be wrong was seen, or is a mistake
    too, unless `seen` is none."""
    steps = [Step(command) for command in (*(birth.command for birth in one.births), *one.exits)]
    if refused := refused_of(program, [*book.steps, *steps]):
        called = {birth.animal.registration_number: birth.animal.id for birth in one.births}
        raise RegisterRefused(
            *(LitterFault.REFUSED.said(animal=called[each.command.animal], **why(each.refusal)) for each in refused)
        )
    if seen is not None:
        refuse_unseen(one.warnings, seen)
    animals = {birth.animal.registration_number: birth.animal for birth in one.births}

    def find_state(after: Book) -> State:
        records = records_of(program.records([*animals], after), {})
        there = [row for animal in animals.values() for row in rows_with_id(after.connection, animal.id)]
        before: dict[Values, Values] = {(row.id,): row for row in there}
        rows: dict[Values, Values] = {(one.id,): row_of(one, records[number]) for number, one in animals.items()}
        return State(Rows(before, rows), new_owners=one.new_owners, born_together=tuple(animals))

    own = (Entry(0, birth.animal.id, NewAnimal(birth.animal.registration_number)) for birth in one.births)
    told = tuple(map(told_of, (*own, *one.warnings)))
    counts = (("new", len(one.births)),)
    made = ChangeDetails(ChangeKind.LITTER, options=options, counts=counts, told=told, form=form)
    return write(book, program, Filed(steps), find_state, made)

