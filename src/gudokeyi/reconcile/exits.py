"""Exits that can't be, and changes of many animals at once, such as exits that are taken back."""
from __future__ import annotations

import collections
import datetime
import itertools
import operator
from collections.abc import Collection
from typing import NamedTuple

from gudokeyi.domain.animals import SocietyRecord
from gudokeyi.domain.commands import RegisterRecord
from gudokeyi.domain.findings import Entry
from gudokeyi.domain.kinds import CommandKind, Field
from gudokeyi.domain.provenance import GIVEN_EXIT, ExitBasis, ExitSource
from gudokeyi.domain.refusals import Refusal
from gudokeyi.ingest.animals import DAM_OF, LEFT_OF, SheetAnimal
from gudokeyi.ingest.born_dead import born_dead_word
from gudokeyi.ingest.exits_in_tables import worksheets_told
from gudokeyi.ingest.exits_unread import ExitsUnread
from gudokeyi.ingest.exit_words import exit_word, lives, says_lives
from gudokeyi.ingest.words_beside import words_beside
from gudokeyi.ingest.workbooks import RowsOfExits
from gudokeyi.reconcile.findings.animals import KeptByHand, KeptFromBook
from gudokeyi.reconcile.findings.by_hand import ValueChanged
from gudokeyi.reconcile.findings.lost_columns import ExitsOfLostColumn
from gudokeyi.reconcile.findings.plausibility import ExitsWithdrawn, MostChanged, RowOf
from gudokeyi.reconcile.findings.obstacles import ExitsEmptied
from gudokeyi.reconcile.findings.rows import CommandLeftOut
from gudokeyi.reconcile.next_book import NextBook

# Exits that can't be: one of a dam that has offspring later is left out where more than one offspring, or the book,
# speaks
# against it; else the link of the one offspring is. One that is left out is tried again where the book is to keep it.

# of a day as `2001-03-01`
DAY_LETTERS = 10
# so many offspring outweigh an exit
SEVERAL_OFFSPRING = 2


# a day by hand that is so near that of a sheet is that of the same exit
NEAR = datetime.timedelta(31)


class Exit(NamedTuple):
    day: datetime.date | None
    basis: ExitBasis

    @property
    def reason(self) -> str:
        """What is said of why the animal left."""
        return self.basis.text if self.day or exit_word(self.basis.text) else ""

    def is_on(self, day: datetime.date | None) -> bool:
        """Is a day by hand that of this exit, whose own day isn't known or may be mistyped: in its month or year, near
        it, or the same of another year? One that isn't known is that of any."""
        if self.day is None or day is None:
            return bool(self.day) or self.basis.day_is_unknown
        is_within = self.basis.period is not None and str(day).startswith(self.basis.period.text)
        return is_within or abs(self.day - day) <= NEAR or f"{self.day:%m-%d}" == f"{day:%m-%d}"


def exit_in_book(in_book: SocietyRecord, record: RegisterRecord, born: datetime.date) -> Exit:
    """The exit that an animal has in the book, or that was left out, since a sheet made it impossible, and can be with
    this birth day."""
    day = given_day(in_book.exit)
    if day is None or day < born:
        return Exit(record.left, in_book.exit)
    # behind the day it stands in brackets, and may have some of its own
    return Exit(day, GIVEN_EXIT.with_reason(in_book.exit.text[DAY_LETTERS + 2 : -1]))


def given_day(basis: ExitBasis) -> datetime.date | None:
    """The day of an exit that was left out, where it was kept as it is; a reason may stand behind it."""
    if not basis.day_is_unknown or basis.text[DAY_LETTERS : DAY_LETTERS + 2] not in ("", " ("):
        return None
    text = basis.text[:DAY_LETTERS]
    try:
        day = datetime.date.fromisoformat(text)
    except ValueError:
        return None
    return day if day.isoformat() == text else None


def leave_out_early_exits(next_book: NextBook) -> None:
    known, records = next_book.book.society_records, next_book.book.records
    # where the book has the same one all offspring was born before, as of rows that say what it has
    new = {
        one.id: one for one in filter(LEFT_OF, next_book.animals_otherwise())
        if not (in_book := known.get(one.id)) or records[in_book.registration_number].left != one.left
    }  # fmt: skip
    progeny, those = collections.defaultdict[str, list[SheetAnimal]](list), next_book.animals.values()
    for animal in itertools.compress(those, map(new.__contains__, map(DAM_OF, those))) if new else ():
        if not animal.embryo:
            progeny[animal.dam].append(animal)
    for dam in new.values():
        later = [offspring for offspring in progeny[dam.id] if dam.left and offspring.born > dam.left]
        if len(later) >= SEVERAL_OFFSPRING or any(next_book.has_in_book(offspring.id, dam.id) for offspring in later):
            leave_out_exit(next_book, dam, Refusal.LATER_OFFSPRING, later)


def leave_out_exit(next_book: NextBook, animal: SheetAnimal, refusal: Refusal, later: list[SheetAnimal]) -> None:
    """The animal counts as gone, on a day that isn't known."""
    assert animal.left is not None
    day, period, is_kept = animal.left.isoformat(), animal.exit_basis.period, animal.id in next_book.exits_of_book
    last = max(later, key=lambda one: (one.born, one.id), default=None)
    id, line = (last.id, last.line) if last else ("", 0)
    text = "" if is_kept else animal.cells.get(Field.EXIT, "")
    reason = not_in_cell(animal.exit_basis.text, text)
    animal.left = None
    basis = ExitBasis(ExitSource.UNKNOWN_DAY, text=text or (period.text if period else day))
    animal.exit_basis = basis.with_reason(reason)
    if is_kept:
        entries = next_book.report.entries
        next_book.report.entries = [one for one in entries if not tells_of_exit(one, animal)]
    if not (is_kept and is_left_out_already(next_book, animal)):
        found = CommandLeftOut(CommandKind.EXIT, day, refusal, id, line)
        next_book.report.add(animal.line, animal.id, found)


def not_in_cell(reason: str, cell: str) -> str:
    """What is said of why an animal left but by the cell of the exit itself."""
    beside = words_beside(cell)
    if reason == beside:
        return ""
    return reason[len(beside) + 2 : -1] if beside and reason.startswith(f"{beside} (") else reason


def tells_of_exit(entry: Entry, animal: SheetAnimal) -> bool:
    """Does it tell that the exit is as it was?"""
    found = entry.finding
    return entry.id == animal.id and isinstance(found, KeptByHand | KeptFromBook) and found.field is Field.EXIT


def is_left_out_already(next_book: NextBook, animal: SheetAnimal) -> bool:
    """Is the exit left out in the book too, for the same birth day?"""
    in_book = next_book.book.society_records.get(animal.id)
    if in_book is None:
        return False
    return (in_book.exit, next_book.book.records[in_book.registration_number].born) == (animal.exit_basis, animal.born)


# Changes of many animals at once, which are taken, and told in a sentence: exits that are taken back, and what most
# animals have otherwise than before.

# so many exits that are taken back are told whatever their cells say, and the first of them
SEVERAL_WITHDRAWN, FIRST = 3, 3
# changes of so few animals are ordinary corrections, also where these are most of the flock
FEW_CHANGED = 5
# what is looked at: the fields whose many changes no guard keeps from being taken
LOOKED_AT = ("name", "owner", "exit")


def tell_withdrawn_exits(next_book: NextBook) -> None:
    animals, gone = next_book.animals, next_book.in_book.left
    stay = itertools.compress(animals, map(operator.not_, map(LEFT_OF, animals.values()))) if gone else ()
    withdrawn = [animals[id] for id in filter(gone.__contains__, stay) if not has_left(animals[id])]
    if len(withdrawn) < SEVERAL_WITHDRAWN:
        # what a cell says is told by itself
        withdrawn = [animal for animal in withdrawn if says_nothing(animal.cells.get(Field.EXIT, ""))]
    # what keeps the sheet from being taken is told
    if withdrawn and not any(isinstance(one, ExitsEmptied) for one in next_book.obstacles):
        first = tuple(RowOf(animal.id, animal.line) for animal in withdrawn[:FIRST])
        others = [animal.id for animal in animals.values() if animal.line and has_left(animal)]
        other = others[0] if len(others) >= len(withdrawn) else ""
        next_book.report.add(0, "", ExitsWithdrawn(len(withdrawn), first, other))


def tell_lost_exits(next_book: NextBook, title: str) -> None:
    """The exits that stay, since a column of the last time lacks; `title` is that of the one that is read."""
    if kept := next_book.kept_exits:
        first = tuple(RowOf(animal.id, animal.line) for animal in kept[:FIRST])
        next_book.report.add(0, "", ExitsOfLostColumn(next_book.lost_exits[0], title, len(kept), first))


def tell_exits_unread(next_book: NextBook, unread: Collection[ExitsUnread]) -> None:
    """Cells that may tell of exits, of the animals that count as living."""
    lines = {line for one in unread for line in one.cells}
    rows = [animal for animal in next_book.animals.values() if animal.line in lines] if lines else []
    # what the name of one says that was born dead is told by itself
    living = {one.line: one.id for one in rows if not has_left(one) and not born_dead_word(one.name)}
    told = [(0, found) for one in unread if (found := one.of(living))]
    of_each = itertools.chain.from_iterable(one.of_each(living).items() for one in unread)
    for line, finding in (*told, *of_each):
        next_book.report.add(line, living.get(line, ""), finding)


def tell_worksheets_of_exits(next_book: NextBook, of_exits: RowsOfExits) -> None:
    """Other worksheets with animals that count as living."""
    living = {one.id for one in next_book.animals.values() if not has_left(one)} if of_exits else set[str]()
    for found in worksheets_told(of_exits, living):
        next_book.report.add(0, "", found)


def has_left(animal: SheetAnimal) -> bool:
    return animal.left is not None or animal.exit_basis.is_inferred


def says_nothing(exit: str) -> bool:
    """Does a cell tell of no exit, without saying that the animal lives?"""
    return lives(exit) and not says_lives(exit)


def tell_most_changed(next_book: NextBook) -> None:
    """What most rows of animals that the book has have otherwise; an exit that is taken back is told by itself."""
    report = next_book.report
    if not next_book.book.society_records:
        return
    changed = [one.finding for one in report.entries if one.line and isinstance(one.finding, ValueChanged)]
    counts = collections.Counter(one.name for one in changed if one.name != "exit" or one.after)
    many = [name for name in LOOKED_AT if counts[name] > FEW_CHANGED]
    both = next_book.rows - next_book.new_rows if many else 0
    for name in many:
        if 2 * counts[name] > both:
            report.add(0, "", MostChanged(name, counts[name], both))
