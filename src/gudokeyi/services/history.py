"""The changes of a book: all of them, one, the last ones, which of them holds, what each did of each animal, and what
it told."""
from __future__ import annotations

import collections
from collections.abc import Collection, Mapping, Sequence
from dataclasses import dataclass
from typing import TYPE_CHECKING, NamedTuple

from gudokeyi.domain.animals import NO_OWNER
from gudokeyi.domain.changes import Change
from gudokeyi.domain.findings import Entry, What
from gudokeyi.domain.kinds import ChangeKind
from gudokeyi.domain.own_columns import OtherDifference
from gudokeyi.reconcile.stored_findings import entry_of, kind_named
from gudokeyi.services.facts import Fact, Facts, facts_of
from gudokeyi.store import history
from gudokeyi.store.animal_rows import AnimalRow, digits_of
from gudokeyi.store.book import Book
from gudokeyi.store.changed_animals import (
    id_of_command, ids_changed, names_around, names_of_parents, renamed_by, rows_around, rows_by_change,
    rows_of_owner_codes,
    told_by_kind, told_of_animal,
)  # fmt: skip
from gudokeyi.store.own_data import (
    differences_by_change, differences_of_change, digits_changed, ids_with_digits,
)  # fmt: skip
from gudokeyi.store.history import FILED_BY_HAND as FILED_BY_HAND
from gudokeyi.store.journal import Edition, edition_of
from gudokeyi.store.state import names_now
from gudokeyi.store.taken_back import CHANGE, taken_back

if TYPE_CHECKING:
    from gudokeyi.reconcile.findings.by_hand import CommandRefused

# The changes.


def changes_of(book: Book) -> list[Change]:
    """All changes, the first one first."""
    return history.all_changes(book.connection)


def change_numbered(book: Book, number: int) -> Change | None:
    return history.change_numbered(book.connection, number)


def change_made_by(book: Book | None, form: str) -> Change | None:
    """The change that a form made in a book; none where it made none yet, or there is no book."""
    return history.change_by_form(book.connection, form) if book else None


def last_changes(book: Book, most: int, behind: int = 0) -> list[Change]:
    """So many of the last changes, the newest first, but for so many that are newer."""
    return history.last_changes(book.connection, most, behind)


def last_that_changed(book: Book) -> int:
    """The last change that changed something of the book, 0 for none."""
    return history.last_that_changed(book.connection)


def taken_back_by(book: Book, number: int) -> int:
    """The change that brought back a state before a change; 0 where the book of now has it."""
    by = (change for change, numbers in taken_back(book.connection).items() if number in numbers)
    return history.taken_back_by(book.connection, number) or next(by, 0)


def numbers_taken_back(change: Change) -> list[str]:
    """Of a change by which others were taken back one by one, these."""
    return [one.word for one in change.options if change.kind is ChangeKind.TAKEN_BACK and one.option == CHANGE]


def edition_after(book: Book, change: Change) -> Edition:
    """The edition of the journal that a change wrote."""
    return edition_of(book.connection, change.edition)


# What a change did of each animal.


@dataclass(frozen=True, slots=True)
class AnimalChange:
    """What the book had of an animal before a change, and has after it; none where it isn't in the book."""

    id: str
    before: Facts | None
    after: Facts | None
    # what became of its notes, and of the society's own columns
    others: tuple[OtherDifference, ...] = ()

    def changed(self) -> list[Fact]:
        """What is otherwise after it."""
        before, after = self.before or {}, self.after or {}
        facts = [fact for fact in after or before if after.get(fact, "") != before.get(fact, "")]
        # of one that is new, or isn't there any more, it is told by itself
        return [fact for fact in facts if fact is not Fact.ID or (before and after)]


def animals_changed(book: Book, number: int, most: int | None = None) -> tuple[int, list[AnimalChange]]:
    """How many animals a change changed, and of them the first, or all."""
    former, then = renamed_by(book.connection, number)
    same = {row.id: row for row in rows_of_owner_codes(book.connection, [*then], number)}
    count, first = ids_changed(book.connection, number, -1 if most is None else most)
    ids = sorted({*same, *first})[:most]
    before, after = (same | rows_around(book.connection, ids, column, number) for column in ("until", "since"))
    renamed = ids_before(before, after)
    before |= {now: before.pop(former) for now, former in renamed.items()}
    ids = [id for id in ids if id not in renamed.values()]
    count -= len(renamed)
    rows = [*before.values(), *after.values()]
    names = names_around(book.connection, number) if most is None else names_of_parents(book.connection, rows)
    owners = names_now(book.connection) | {NO_OWNER: ""}
    both = owners | former, owners | then
    further, first_digits = digits_changed(book.connection, number, -1 if most is None else most)
    others = others_by_id(book, number, {*first_digits, *map(digits_of, rows)})

    def changed(id: str) -> AnimalChange:
        around = zip((before.get(id), after.get(id)), both)
        facts_before, facts_after = (facts_of(row, names, its) if row else None for row, its in around)
        return AnimalChange(id, facts_before, facts_after, tuple(others.pop(id, ())))

    found = [changed(id) for id in ids]
    room = len(others) if most is None else max(0, most - len(found))
    found += [AnimalChange(id, {}, {}, tuple(own)) for id, own in sorted(others.items())[:room]]
    return count + len(same) + further, found


def others_by_id(book: Book, number: int, digits: Collection[str]) -> dict[str, list[OtherDifference]]:
    """What a change made of some animals' notes and own columns, by the ids that they had then."""
    found = differences_of_change(book.connection, number, digits)
    ids = ids_with_digits(book.connection, found, number) if found else {}
    return {ids[digits]: own for digits, own in found.items() if digits in ids}


def ids_before(before: Mapping[str, AnimalRow], after: Mapping[str, AnimalRow]) -> dict[str, str]:
    """The ids that animals have after a change in place of those before it."""
    ended = {digits_of(row): id for id, row in before.items() if id not in after}
    begun = {id: digits_of(row) for id, row in after.items() if id not in before}
    return {id: ended[digits] for id, digits in begun.items() if digits in ended}


class OwnChange(NamedTuple):
    """A change that changed an animal, or told of it."""

    change: Change
    did: AnimalChange | None
    told: list[Entry]


def history_of(book: Book, id: str) -> list[OwnChange]:
    """What the history has of one animal, the oldest first."""
    began, ended = (rows_by_change(book.connection, id, column) for column in ("since", "until"))
    former = {row.id for row in (*began.values(), *ended.values())} - {id}
    told = told_of_animal(book.connection, id, former)
    names = names_of_parents(book.connection, [*began.values(), *ended.values()])
    owners = names_now(book.connection) | {NO_OWNER: ""}
    found = []
    rows = [*began.values(), *ended.values()]
    others = differences_by_change(book.connection, digits_of(rows[0])) if rows else {}
    for number in sorted(began.keys() | ended.keys() | told.keys() | {at for at, own in others.items() if own}):
        change = change_numbered(book, number)
        assert change is not None
        around: Sequence[AnimalRow | None] = ended.get(number), began.get(number)
        own = tuple(others.get(number, ()))
        did = None
        if any(around):
            facts_before, facts_after = (facts_of(row, names, owners) if row else None for row in around)
            did = AnimalChange(id, facts_before, facts_after, own)
        elif own:
            did = AnimalChange(id, {}, {}, own)
        entries = [entry_of(one) for one in told.get(number, [])]
        found.append(OwnChange(change, did, [entry for entry in entries if not is_said_by_rows(entry)]))
    return found


# what the rows before and after a change say too
SAID_BY_ROWS = (What.NEW, What.CHANGED)
# the codes of `OwnerDayBack` and `OwnersCorrected`, whose modules nobody waits for who has none of them
OF_FORMER_OWNERS = ("owner day back", "owners corrected")


def is_said_by_rows(entry: Entry) -> bool:
    """Do the rows before and after say it? They have no owners before the last."""
    return entry.what in SAID_BY_ROWS and entry.finding.code not in OF_FORMER_OWNERS


# What a change told.


def entries_of(book: Book, number: int) -> list[Entry]:
    return [entry_of(one) for one in history.told_by(book.connection, number)]


def first_entries(book: Book, number: int, most: int) -> tuple[collections.Counter[What], list[Entry]]:
    """How many entries of each kind a change told, and of each kind of finding the first."""
    counts, told = told_by_kind(book.connection, number, most)
    totals = collections.Counter[What]()
    for code, count in counts.items():
        totals[kind_named(code).what] += count
    return totals, [entry_of(one) for one in told]


class Filed(NamedTuple):
    """The id of the animal of a command that was filed by hand, and why it was refused, if it was."""

    id: str
    refused: CommandRefused | None


def filed_by(book: Book, change: Change) -> Filed:
    """Of which animal a command was, and its reply, as the history has them."""
    # whoever asks for an animal would wait for it
    from gudokeyi.reconcile.findings.by_hand import CommandRefused

    entries = entries_of(book, change.number)
    refused = next((one.finding for one in entries if isinstance(one.finding, CommandRefused)), None)
    own = next((one.id for one in entries if one.what is not What.WARNING or one.finding is refused), "")
    return Filed(own or id_of_command(book.connection, change), refused)
