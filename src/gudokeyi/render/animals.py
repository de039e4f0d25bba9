"""All that the book has of one animal, in words."""
from __future__ import annotations

from collections.abc import Iterator, Mapping, Sequence

from gudokeyi.domain.animals import SocietyRecord
from gudokeyi.domain.kinds import Role, Standing
from gudokeyi.domain.messages import counted
from gudokeyi.reconcile.owner_day_known import owner_day_known
from gudokeyi.render.history import told_of_animal
from gudokeyi.services.animals import Relatives, column_of_breeders, owners_of_dams, relatives_of
from gudokeyi.services.facts import exit_in_sheet
from gudokeyi.services.own_columns import values_of
from gudokeyi.store.animal_rows import AnimalRow, exit_of, society_record_of
from gudokeyi.store.book import Book
from gudokeyi.store.coefficients import Coefficient, kept_coefficients
from gudokeyi.store.own_data import notes_of

SEXES = {"M": "male", "F": "female"}
# so many animals of a kind are shown, but where all are asked for
MOST_SHOWN = 25


class AnimalView:
    """What is shown of an animal, line by line."""

    def __init__(self, book: Book, animal: SocietyRecord, shows_all: bool) -> None:
        self.book, self.animal, self.shows_all = book, animal, shows_all
        self.coefficients: Mapping[str, Coefficient] = kept_coefficients(book)
        self.row = book.row(animal)

    def lines(self) -> Iterator[str]:
        relatives = relatives_of(self.book, self.animal)
        yield f"{self.animal.id}  {self.animal.name}".rstrip()
        for what, fact in self.facts(relatives):
            yield f"  {what:<13} {fact}"
        yield from self.of_offspring(relatives.offspring)
        yield from self.kind("full sibs", relatives.full_sibs)
        for role in Role:
            yield from self.kind(f"half sibs by the {role}", relatives.half_sibs[role])
        yield from self.notes()
        yield "history"
        yield from (f"  {line}" for line in told_of_animal(self.book, self.animal.id))

    def facts(self, relatives: Relatives) -> list[tuple[str, str]]:
        animal, row = self.animal, self.row
        coefficient = self.coefficients[animal.registration_number]
        owner = self.book.owner_of(row.owner_code or 0)
        is_said = owner_day_known(self.book, animal, row.from_owner, row.owned_since)
        since = f", since {row.owned_since}{animal.owner_day.mark()}" if is_said else ""
        found = [
            ("number", animal.registration_number),
            ("sex", SEXES[animal.registration_number[6]] + animal.sex.mark() + ", castrated" * animal.castrated),
            ("born", f"{row.born}{basis(animal.birth.words())}" + ", from a stored embryo" * bool(row.embryo)),
            ("exit", (exit_of_row(row) or "none") + in_sheet(exit_in_sheet(row))),
            ("owner", f"{owner}{since}" if owner else "not known"),
            ("coefficient", f"{coefficient.fraction} = {coefficient.decimal()} ({coefficient.percent}%)"),
        ]
        found += [(role.value, self.parent(role, relatives.parents[role])) for role in Role]
        if breeder := owners_of_dams(self.book, [animal.registration_number])[animal.registration_number]:
            # a column of the society's own stands below
            found += [("breeder", breeder)] * (column_of_breeders(self.book) is None)
        found += [(one.column.title, one.value) for one in values_of(self.book, animal) if one.value]
        if animal.standing is not Standing.ROW:
            found.append(("in the book", animal.standing.words()))
        return found

    def notes(self) -> Iterator[str]:
        """Each in a line, where there are some."""
        for note in notes_of(self.book.connection, self.animal.digits):
            yield f"note {note.number}, {note.day}, {note.author}: {' '.join(note.text.split())}"

    def parent(self, role: Role, row: AnimalRow | None) -> str:
        return (self.line(row) if row else "unknown") + in_sheet(self.animal.written(role))

    def line(self, row: AnimalRow) -> str:
        """Another animal in a line."""
        animal, coefficient = society_record_of(row), self.coefficients[row.registration_number]
        facts = [f"born {row.born}{animal.birth.mark()}", SEXES[row.registration_number[6]]]
        facts += [f"F {coefficient.percent}%"] * coefficient.is_inbred
        facts += [f"exit {exit_of_row(row)}"] * bool(exit_of_row(row))
        return f"{f'{row.id}  {row.name}'.rstrip()}  ({', '.join(facts)})"

    def of_offspring(self, offspring: Mapping[str, Sequence[AnimalRow]]) -> Iterator[str]:
        """The offspring by partner."""
        count, left = sum(map(len, offspring.values())), None if self.shows_all else MOST_SHOWN
        partners = f" with {counted(len(offspring), 'partner')}" if count else ""
        yield f"offspring: {count}{partners}"
        for partner, rows in offspring.items():
            if left == 0:
                break
            yield f"  by {self.partner(partner)}"
            shown = rows if left is None else rows[:left]
            left = None if left is None else left - len(shown)
            yield from (f"    {self.line(row)}" for row in shown)
        yield from self.more(count, "  ")

    def partner(self, number: str) -> str:
        if not number:
            return "an unknown partner"
        animal = self.book.by_number()[number]
        return f"{animal.id}  {animal.name}".rstrip()

    def kind(self, what: str, rows: Sequence[AnimalRow]) -> Iterator[str]:
        yield f"{what}: {len(rows)}"
        yield from (f"  {self.line(row)}" for row in (rows if self.shows_all else rows[:MOST_SHOWN]))
        yield from self.more(len(rows), "  ")

    def more(self, count: int, indent: str) -> Iterator[str]:
        if count > MOST_SHOWN and not self.shows_all:
            yield f"{indent}and {count - MOST_SHOWN} more: --all shows them"


def basis(words: str) -> str:
    """What is said of a day that the sheet doesn't give."""
    if not words or words == "invented":
        return f" ({words})" * bool(words)
    return f" (inferred, {words})"


def in_sheet(written: str) -> str:
    """What a sheet has in the place of what stands before it, or beside it."""
    return f" (in the sheet: {written})" if written else ""


def exit_of_row(row: AnimalRow) -> str:
    return exit_of(row.departed, row.exit_source, row.exit_period, row.exit_no_such_day, row.exit_text)
