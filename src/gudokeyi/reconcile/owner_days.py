"""The owners of an animal, one after the other, with the days since which they have it."""
from __future__ import annotations

import datetime
import functools
from collections.abc import Iterable, Iterator, Sequence
from typing import NamedTuple

from gudokeyi.domain.animals import NO_OWNER
from gudokeyi.domain.collections import made
from gudokeyi.domain.commands import Command, RegisterRecord, first_owner_codes, transfer, transfers_of
from gudokeyi.domain.findings import Finding, Report
from gudokeyi.domain.kinds import Field
from gudokeyi.domain.provenance import OwnerDay
from gudokeyi.ingest.animals import SheetAnimal
from gudokeyi.ingest.days import DayFault, Span
from gudokeyi.ingest.findings.cells import DayLeftOut
from gudokeyi.ingest.unknown_parents import names_no_owner
from gudokeyi.ingest.texts import clean, plain
from gudokeyi.reconcile.findings.rows import (
    OwnerDayBack, OwnerDayInferred, OwnerDayMoved, OwnerDayOfImport, OwnerDayOfOther,
)  # fmt: skip
from gudokeyi.reconcile.next_book import Meanings
from gudokeyi.reconcile.owner_day_known import has_period
from gudokeyi.store.book import Book
from gudokeyi.store.given_days import Said, all_cells, given_days, renamed_ever, told_of_kind
from gudokeyi.store.history import changes_behind
from gudokeyi.store.journal import accepted_commands

# The days on which owners change that were given, where imports moved them since: what made them impossible may be
# mended.


class GivenDays:
    """What imports told of the days that they moved, but for those that were undone."""

    def __init__(self, book: Book) -> None:
        self.book = book

    def of(self, id: str, transfers: Sequence[Command]) -> list[Command]:
        """The transfers that the book has of an animal, on the days that were given."""
        if id not in self.moved:
            return [*transfers]
        said = sorted([*self.moved[id], *self.held(id)], reverse=True)
        # the last first, as what is told: an owner may have had it twice
        return [self.given(command, said) for command in reversed(transfers)][::-1]

    def given(self, command: Command, said: list[Said]) -> Command:
        """Takes what is said of a transfer out of what is said of all, from the last change on."""
        day = command.day
        for one in [*said]:
            if (one.owner_code, one.day) != (int(command.to_owner), day):
                continue
            if one.given == day:
                break
            said.remove(one)
            day = one.given
        return command._replace(day=day)

    @functools.cached_property
    def changes(self) -> set[int]:
        """Those that made the book what it is."""
        return changes_behind(self.book.connection)

    @functools.cached_property
    def moved(self) -> dict[str, list[Said]]:
        """The days that imports moved, by the animals' ids."""
        found: dict[str, list[Said]] = {}
        for change, place, id, fields in told_of_kind(self.book, OwnerDayMoved.code):
            owner_code = self.owner_codes.get(fields["owner"])
            if owner_code and change in self.changes:
                found.setdefault(id, []).append(Said(change, place, owner_code, fields["now"], fields["before"]))
        return found

    def held(self, id: str) -> Iterator[Said]:
        """The days that were given, but for those of changes that were undone."""
        return (one for one in given_days(self.book, id) if one.change in self.changes)

    @functools.cached_property
    def owner_codes(self) -> dict[str, int]:
        """The owners' herds, by all names that they had."""
        owner_codes = self.book.owners_came()
        for word, meaning in renamed_ever(self.book):
            if word in owner_codes:
                owner_codes.setdefault(meaning, owner_codes[word])
        return owner_codes | self.book.owners


# Days since which owners have animals, in cells in which they stood for another owner before: of the one of now they
# say nothing.


class DaysOfOthers:
    """Compares an animal's cells with those that it had in all sheets before."""

    def __init__(self, book: Book, meanings: Meanings, report: Report) -> None:
        self.book, self.meanings, self.report = book, meanings, report
        self.today = datetime.date.today()

    def leave_out(self, animal: SheetAnimal, record: RegisterRecord) -> None:
        since = animal.since
        if since is None or animal.is_since_sale or not animal.owner or since.first > self.today:
            return
        if since.has(record.since) and self.are_one(animal.owner, self.book.owner_of(record.owner_code)):
            return
        text = animal.cells.get(Field.SINCE, "")
        if before := self.owner_before(animal.id, animal.owner, text):
            animal.since = None
            self.report.add(animal.line, animal.id, OwnerDayOfOther(text, before, animal.owner))

    def owner_before(self, id: str, owner: str, text: str) -> str:
        """The last other owner for whom the cell said what it says since then; empty where there was none."""
        for before, since in self.cells_before(id):
            if not self.meanings.are_alike(id, Field.SINCE, since, text):
                return ""
            if before and not self.are_one(before, owner):
                return before
        return ""

    def cells_before(self, id: str) -> Iterator[tuple[str, str]]:
        """The owner and the day of the cells of each sheet before, from the last on; no owner for a word that names
        none."""
        for owner, since in all_cells(self.book, id):
            yield "" if names_no_owner(owner) else clean(owner), since

    def are_one(self, one: str, other: str) -> bool:
        """Are these two names of one owner, who was renamed, or is only written otherwise?"""
        owner_codes = {self.owner_codes.get(name, name) for name in (one, other)}
        return len(owner_codes) == 1 or (plain(one) or one) == (plain(other) or other)

    @functools.cached_property
    def owner_codes(self) -> dict[str, int]:
        """The owners' herds, by the names by which they came too, where these are none of now."""
        return self.book.owners_came() | self.book.owners


# The owners of an animal, one after the other: the transfers that the book has, those that a sheet adds, and their
# days.


class Owners(NamedTuple):
    """The herd in which an animal was born, and its transfers, of which the book has as many as `known`."""

    first_herd: int
    transfers: list[Command]
    known_count: int
    is_corrected: bool

    @property
    def new(self) -> list[Command]:
        return self.transfers[self.known_count :]


class OwnerDays:
    """The days on which owners change. `day` is that of the import, if one is named: else it is today, which is
    inferred, and gives way to what a later sheet says."""

    def __init__(self, book: Book, report: Report, day: datetime.date | None) -> None:
        self.book, self.report = book, report
        self.today = datetime.date.today()
        self.day, self.source = day or self.today, OwnerDay.GIVEN if day else OwnerDay.INFERRED
        self.told: set[tuple[str, Finding]] = set()
        # the animals whose last transfer is refused
        self.refused: set[str] = set()
        # the first days with owners that stay, where the sheet says others than the book's, by the animals' ids
        self.other_days: dict[str, str] = {}
        self.given_days = GivenDays(book)

    @functools.cached_property
    def before(self) -> tuple[dict[str, int], dict[str, list[Command]]]:
        """The herd in which each animal of the book was born, and its transfers."""
        accepted = [*accepted_commands(self.book.each_step())]
        return first_owner_codes(accepted), transfers_of(accepted)

    def tell(self, animal: SheetAnimal, found: Finding) -> None:
        """Once, though the commands are asked for again where one is refused."""
        if (animal.id, found) not in self.told:
            self.told.add((animal.id, found))
            self.report.add(animal.line, animal.id, found)

    def leave_out(self, animal: SheetAnimal, found: Finding) -> None:
        self.tell(animal, found)
        self.refused.add(animal.id)
        entries = self.report.entries
        refused = [one for one in entries if one.id == animal.id and isinstance(one.finding, OwnerDayOfImport)]
        self.report.entries = [one for one in entries if one not in refused] if refused else entries

    def herd_of(self, owner: str) -> int:
        """The owner's herd; a new owner gets the next number."""
        if not owner:
            return NO_OWNER
        owners = self.book.owners
        if owner not in owners:
            owners[owner] = max(owners.values(), default=0) + 1
        return owners[owner]

    def of(self, animal: SheetAnimal) -> Owners:
        in_book = self.book.society_records.get(animal.id)
        if in_book is None:
            return self.of_new(animal)
        record = self.book.records[in_book.registration_number]
        first, before = record.owner_code, list[Command]()
        if record.from_owner:
            number = record.registration_number
            first, before = self.before[0][number], self.before[1].get(number, [])
        animal.owner_day = in_book.owner_day
        has_other_owner = self.has_other_owner(animal, record)
        since = None if has_other_owner or animal.since is None else self.other_days_of(animal, record)
        if not (before or has_other_owner or since):
            return made(Owners, (first, [], 0, False))
        has_new_owner = has_other_owner and animal.id not in self.refused
        before = [one._replace(animal=animal.registration_number) for one in before]
        transfers = given = self.as_given(animal, record, before, not has_new_owner)
        first_herd = first
        if has_new_owner:
            since = animal.since
            transfers = [*given, self.change(animal, record)]
        elif since:
            day = self.day_said(animal, since)
            if given:
                transfers = [*given[:-1], given[-1]._replace(day=day.isoformat())]
            else:
                first_herd, transfers = NO_OWNER, [transfer(animal.registration_number, day, NO_OWNER, first)]
        transfers = self.in_order(animal, transfers, since, before)
        if has_new_owner:
            self.tell_day_of_import(animal, transfers)
        if not has_other_owner and transfers[-1].day != record.since.isoformat():
            # one that was moved is told by itself
            if since or transfers[-1].day == given[-1].day:
                self.other_days[animal.id] = transfers[-1].day
        is_kept = [one[1:] for one in transfers[: len(before)]] == [one[1:] for one in before]
        return Owners(first_herd, transfers, len(before), not is_kept or first_herd != first)

    def of_all(self, animals: Iterable[SheetAnimal]) -> list[Owners]:
        """The same of many animals. Most have one owner from their birth on."""
        known, from_birth, found = self.book.society_records, dict[str, Owners](), list[Owners]()
        records, of_book = self.book.records, dict[int, Owners]()
        for animal in animals:
            in_book = known.get(animal.id)
            if animal.since is not None or animal.owner_before:
                found.append(self.of(animal))
                continue
            if in_book:
                record = records[in_book.registration_number]
                code = record.owner_code
                if record.from_owner or (animal.owner and self.book.owners.get(animal.owner) != code):
                    found.append(self.of(animal))
                    continue
                # it has the owner that it has in the book, from its birth on
                animal.owner_day = in_book.owner_day
                if code not in of_book:
                    of_book[code] = made(Owners, (code, [], 0, False))
                found.append(of_book[code])
                continue
            owners = from_birth.get(animal.owner)
            if owners is None:
                owners = from_birth[animal.owner] = self.of(animal)
            found.append(owners)
        return found

    def as_given(
        self, animal: SheetAnimal, record: RegisterRecord, before: list[Command], stays: bool
    ) -> list[Command]:
        """The book's transfers on the days that were given, also where imports moved them. The last owner keeps the
        book's day where the sheet says it too."""
        given = self.given_days.of(animal.id, before) if before else before
        if not stays or given == before or given[-1] == before[-1]:
            return given
        if animal.since and animal.since.has(record.since):
            return [*given[:-1], before[-1]]
        is_of_period = has_period(self.book, animal.id, datetime.date.fromisoformat(given[-1].day))
        animal.owner_day = OwnerDay.INFERRED if is_of_period else OwnerDay.GIVEN
        return given

    def of_new(self, animal: SheetAnimal) -> Owners:
        """A new animal has its owner from its birth on, but where the sheet says since when."""
        owner_code = self.herd_of(animal.owner)
        if animal.owner_before and animal.owner and not self.is_later(animal):
            return self.of_sold(animal, owner_code)
        if animal.since is None or owner_code == NO_OWNER or self.is_later(animal):
            return made(Owners, (owner_code, [], 0, False))
        if animal.since.first <= animal.born:
            self.tell_before_birth(animal, animal.since)
            return made(Owners, (owner_code, [], 0, False))
        only = [transfer(animal.registration_number, self.day_said(animal, animal.since), NO_OWNER, owner_code)]
        return Owners(NO_OWNER, self.in_order(animal, only, animal.since), 0, False)

    def tell_before_birth(self, animal: SheetAnimal, since: Span) -> None:
        """The first owner has it from its birth on, also where the sheet says a day before."""
        if since.last < animal.born:
            self.tell(animal, OwnerDayMoved(animal.owner, since.last, animal.born))

    def of_sold(self, animal: SheetAnimal, owner_code: int) -> Owners:
        """A new animal that its first owner sold."""
        first = self.herd_of(animal.owner_before)
        day, animal.owner_day = self.day, self.source
        if animal.since:
            day = self.day_said(animal, animal.since)
        only = [transfer(animal.registration_number, day, first, owner_code)]
        transfers = self.in_order(animal, only, animal.since)
        self.tell_day_of_import(animal, transfers)
        return Owners(first, transfers, 0, False)

    def tell_day_of_import(self, animal: SheetAnimal, transfers: Sequence[Command]) -> None:
        """Where neither a cell nor a wish says the day of the last transfer."""
        if animal.since is None and self.source.is_inferred:
            day = datetime.date.fromisoformat(transfers[-1].day)
            self.tell(animal, OwnerDayOfImport(animal.owner, day))

    def has_other_owner(self, animal: SheetAnimal, record: RegisterRecord) -> bool:
        if not animal.owner or self.herd_of(animal.owner) == record.owner_code:
            return False
        if self.is_later(animal):
            # the sheet names him now, and the day alone can't be
            animal.since = None
        return True

    def other_days_of(self, animal: SheetAnimal, record: RegisterRecord) -> Span | None:
        """The days of the sheet since which the owner that the book has has it, where the book's isn't among them. Of
        an owner from the birth on only later ones are said."""
        since = animal.since
        if since is None or not animal.owner or self.is_later(animal):
            return None
        if not record.from_owner and since.first <= animal.born:
            self.tell_before_birth(animal, since)
            return None
        if since.is_day:
            animal.owner_day = OwnerDay.GIVEN
        return None if since.has(record.since) else since

    def day_said(self, animal: SheetAnimal, since: Span) -> datetime.date:
        """The day of the sheet, or the last one of its month or year, which is inferred."""
        animal.owner_day = OwnerDay.GIVEN if since.is_day else OwnerDay.INFERRED
        return min(since.last, self.today)

    def is_later(self, animal: SheetAnimal) -> bool:
        if animal.since is None or animal.since.first <= self.today:
            return False
        text = animal.cells.get(Field.SINCE) or str(animal.since.first)
        self.tell(animal, DayLeftOut(Field.SINCE, DayFault.AFTER_TODAY, text))
        return True

    def change(self, animal: SheetAnimal, record: RegisterRecord) -> Command:
        """The transfer to another owner: on the day that the sheet says, on the last one of its month or year, or on
        that of the import."""
        day, animal.owner_day = self.day, self.source
        if animal.since:
            day = self.day_said(animal, animal.since)
        return transfer(animal.registration_number, day, record.owner_code, self.herd_of(animal.owner))

    def in_order(
        self, animal: SheetAnimal, transfers: list[Command], since: Span | None = None, before: Sequence[Command] = ()
    ) -> list[Command]:
        """The transfers with no day before the birth, before that of the owner before, or after the exit. Days that
        were inferred give way; where a day that was given does, it is told, unless the book has it so by `before`, and
        so is that of a month or a year, which the sheet says of the last one by `since`."""
        low, high = animal.born, animal.left or datetime.date.max
        days = [datetime.date.fromisoformat(command.day) for command in transfers]
        if days and not animal.owner_day.is_inferred:
            # what was before the last owner's day gives way to it
            high = min(high, days[-1])
        found = []
        for place, (command, day) in enumerate(zip(transfers, days)):
            moved = min(max(day, low), high) if low <= high else low
            is_last = place == len(transfers) - 1
            in_book = datetime.date.fromisoformat(before[place].day) if place < len(before) else None
            owner = self.book.owner_of(int(command.to_owner))
            if is_last and since and not since.is_day and since.has(moved):
                self.tell(animal, OwnerDayInferred(moved, since.period()))
            elif moved != day:
                # what no sheet says of the last owner is inferred, or was told before
                is_said = since if is_last else None
                if is_said or (moved != in_book and not (is_last and animal.owner_day.is_inferred)):
                    self.tell(animal, OwnerDayMoved(owner, day, moved))
            elif in_book and moved != in_book and not is_last:
                self.tell(animal, OwnerDayBack(owner, in_book, moved))
            if moved != day and is_last:
                animal.owner_day = OwnerDay.INFERRED
            found.append(command._replace(day=moved.isoformat()))
            low = moved
        return found
