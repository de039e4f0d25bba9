"""Parts of a taking by themselves: numbers, what is known of animals, and the commands."""
from __future__ import annotations

import dataclasses
import datetime
from types import SimpleNamespace
from typing import Any, cast

from front_desk.replayed import record_after
from gudokeyi.domain.animals import SocietyRecord
from gudokeyi.domain.commands import birth, text_of, transfer
from gudokeyi.domain.findings import Report, What
from gudokeyi.domain.kinds import CELL_FIELDS, ChangeKind, CommandKind, Field, Role, Standing
from gudokeyi.domain.provenance import BirthBasis, BirthSource, ExitBasis, ExitSource, OwnerDay, SexSource
from gudokeyi.domain.refusals import Refusal
from gudokeyi.engine.program import refusals_in
from gudokeyi.ingest.animals import SheetAnimal
from gudokeyi.ingest.day_cells import DayCells
from gudokeyi.ingest.days import year_of
from gudokeyi.ingest.unknown_parents import UnknownParents
from gudokeyi.reconcile.animals_of_book import AnimalsOfBook
from gudokeyi.reconcile.commands import CommandsAnew, Filing, is_corrected
from gudokeyi.reconcile.findings.animals import KeptByHand, OwnerRenamed, SexInferred
from gudokeyi.reconcile.findings.by_hand import CommandRefused, ValueChanged
from gudokeyi.reconcile.findings.rows import CommandLeftOut
from gudokeyi.reconcile.ids import give_numbers
from gudokeyi.reconcile.last_found import NothingKept
from gudokeyi.reconcile.next_book import NextBook, known_after, written_parents
from gudokeyi.reconcile.owner_days import OwnerDays
from gudokeyi.reconcile.sexes import find_sexes
from gudokeyi.reconcile.values_from_book import keep_values
from gudokeyi.services.book_program import BookProgram
from gudokeyi.services.saving import cell_rows
from gudokeyi.store.book import Book
from gudokeyi.store.database import empty

NUMBER, BORN = "HOLGBRF000000000001", datetime.date(2001, 1, 2)
BIRTH = birth(NUMBER, BORN, "", "", 1, False)
DAYS = DayCells(UnknownParents(), month_first=False)


def numbered(book: Book, *born: tuple[str, int], breed: str = "", country: str = "") -> dict[str, str]:
    """The numbers of animals, each with its id and its birth year, beside a book."""
    animals = {id: SheetAnimal(id, 2, sex="M", born=datetime.date(year, 1, 2)) for id, year in born}
    parts = dict(book=book, animals=animals, in_book=AnimalsOfBook(book), renumbered=set(), last_found=NothingKept())
    give_numbers(cast(NextBook, SimpleNamespace(**parts)), breed, country)
    return {id: animal.registration_number for id, animal in animals.items()}


def test_numbers_of_a_taking() -> None:
    """Whoever was in the book has the digits that it had, with its sex of today; others follow by birth day and id,
    with the breed and the country of the book, though nobody is in it any more."""
    known, dropped = SocietyRecord("SKUDEUF000000000004", "known"), SocietyRecord("SKUDEUM000000000002", "dropped")

    def book(former: dict[str, str], *known: SocietyRecord, dropped: tuple[SocietyRecord, ...] = ()) -> Book:
        parts = ({one.id: one for one in some} for some in (known, dropped))
        first = next(iter([*(one.registration_number for one in known), *former.values()]), "")
        found = dict(
            zip(("society_records", "dropped"), parts), former_numbers=lambda: former, greatest_digits=lambda: 7
        )
        return cast(Book, SimpleNamespace(**found, records={}, connection=empty(), first_number=lambda: first))

    new = ("b", 2001), ("c", 2000), ("a", 2001)
    digits = {"c": 8, "a": 9, "b": 10}
    assert numbered(book({}), *new) == {id: f"HOLGBRM{at:012}" for id, at in digits.items()}
    emptied = {"former": "SKUDEUM000000000005"}
    assert numbered(book(emptied), *new) == {id: f"SKUDEUM{at:012}" for id, at in digits.items()}
    back = ("former", 2000), ("dropped", 2000), ("known", 2000)
    one = book(emptied, known, dropped=(dropped,))
    assert numbered(one, *back) == {id: f"SKUDEUM{at:012}" for id, at in (("known", 4), ("dropped", 2), ("former", 5))}
    assert numbered(one, ("known", 2000), ("a", 2001), country="IRL") == {
        "known": "SKUIRLM000000000004", "a": "SKUIRLM000000000008"
    }  # fmt: skip


def next_book(
    animal: SheetAnimal | None, known: SocietyRecord | None, *given: str, is_pedigree: bool = False
) -> NextBook:
    """Of one animal, without parents in the book, and the columns that a sheet gives."""
    records = {NUMBER: record_after(None, birth(NUMBER, BORN, "", "", 1, False))}
    before = {known.id: known} if known else {}
    book = SimpleNamespace(society_records=before, dropped={}, records=records, by_number=dict)
    return NextBook(cast(Book, book), {animal.id: animal} if animal else {}, {*given}, Report(), DAYS, is_pedigree)


def test_texts_of_parents_after_a_taking() -> None:
    """The book's stay where no row gives the parent, and where that is still the same; a row's own is kept where the
    parent is left out or another, but for parents of a pedigree that are swapped."""
    both, known = ("sire", "dam"), SocietyRecord(NUMBER, "a", written_sire="Bob", written_dam="Eva")

    def texts(
        animal: SheetAnimal, *given: str, written: tuple[str, str] = ("", ""), is_pedigree: bool = False
    ) -> object:
        one = next_book(animal, known, *given, is_pedigree=is_pedigree)
        one.texts = {"a": written}
        return written_parents(one).get("a")

    assert texts(SheetAnimal("a"), *both) == texts(SheetAnimal("a", 2)) == ("Bob", "Eva")
    assert texts(SheetAnimal("a", 2), "dam") == ("Bob", "") and texts(SheetAnimal("a", 2, sire="b")) == ("", "Eva")
    assert texts(SheetAnimal("a", 2, sire="b"), *both, written=("b", "Ada")) == ("", "Ada")
    swapped = SheetAnimal("a", 2, sire="b", dam="c")
    assert texts(swapped, *both, written=("c", "b")) == ("c", "b")
    assert texts(swapped, *both, written=("c", "b"), is_pedigree=True) is None


def test_what_an_animal_is_after_a_taking() -> None:
    """One without a row is gone if it had one, but one whose id a row has that is left out stays what it was, as does
    one that was filed by hand. One that isn't taken over is dropped, and keeps what is known of it."""
    found: dict[Standing, list[Standing]] = {}
    for standing in Standing.ROW, Standing.GONE, Standing.PARENT, Standing.FILED:
        known = SocietyRecord(
            NUMBER, "a", "Anna", standing, by_hand=frozenset({Field.SIRE}), owner_day=OwnerDay.INFERRED
        )
        row, none, left_out = (
            next_book(
                SheetAnimal(
                    "a", line, registration_number=NUMBER, owner_day=OwnerDay.GIVEN if line else OwnerDay.INFERRED
                ), known
            )
            for line in (2, 0, 0)
        )
        left_out.used_again = {"a"}
        assert known_after(next_book(None, known)) == {"a": known._replace(standing=Standing.DROPPED)}
        row.overridden = {"a": frozenset({Field.SIRE})}
        after = [known_after(one)["a"] for one in (none, left_out, row)]
        found[standing] = [one.standing for one in after]
        assert [len(one.by_hand) for one in after] == [1, 1, 0]
        assert [one.owner_day for one in after] == [OwnerDay.INFERRED, OwnerDay.INFERRED, OwnerDay.GIVEN]
    without = dict(zip(found, (Standing.GONE, Standing.GONE, Standing.PARENT, Standing.FILED)))
    assert found == {standing: [one, standing, Standing.ROW] for standing, one in without.items()}
    assert known_after(next_book(SheetAnimal("a"), None))["a"].standing is Standing.PARENT


def test_cells_after_a_pedigree() -> None:
    """A sheet's stay where the pedigree says the same, or has no such column."""
    cells = {"sire": "", "dam": "e"}
    one = next_book(
        SheetAnimal("a", 2, cells=cells), SocietyRecord(NUMBER, "e", "Eva"), "sire", "dam", is_pedigree=True
    )
    before = dict(zip(CELL_FIELDS, ("Anna", "f", "2001", "?", "eva", "Nord", None, "sold", "")))
    for dam, after in (("eva", "eva"), ("Ada", "e")):
        one.book.cells = {("a",): ("a", *(before | {Field.DAM: dam}).values())}
        one.book.renamed = []
        assert cell_rows(one) == {("a",): ("a", *(before | {Field.DAM: after}).values())}
    # a sheet's own take their place as they are written
    one.is_pedigree = False
    assert cell_rows(one) == {("a",): ("a", *(before | {Field.SIRE: "", Field.DAM: "e"}).values())}


def test_what_was_filed_by_hand() -> None:
    """It stays where its cell is as in the last sheet, and so does the day of its owner; another cell holds. Where a
    sheet lacks a column nothing of it is told, and it is by hand as before."""
    fields, period = frozenset({Field.NAME, Field.OWNER, Field.EXIT, Field.EMBRYO}), year_of(2005)
    known = SocietyRecord(NUMBER, "a", "Anna", by_hand=fields, exit=ExitBasis(ExitSource.PERIOD, period.period()))
    record = record_after(None, birth(NUMBER, BORN, "", "", 4, True))._replace(left=period.last)
    before = {Field.NAME: "Ann", Field.OWNER: "3", Field.SINCE: "2003", Field.EXIT: "", Field.EMBRYO: ""}
    now = {Field.NAME: "Ada", Field.OWNER: "7", Field.SINCE: "2004", Field.EXIT: "sold", Field.EMBRYO: "yes"}

    def kept(*changed: Field, lacks: frozenset[Field] = frozenset()) -> tuple[SheetAnimal, set[Field], list[Field]]:
        """The animal of a sheet after that, the fields that its cells override, and those of which it is told."""
        given = [one for one in before if one not in lacks]
        said = {one.value: (now if one in changed else before)[one] for one in given}
        name, owner, since = said.get(Field.NAME, ""), said.get(Field.OWNER, ""), year_of(int(said[Field.SINCE]))
        one = next_book(SheetAnimal("a", 2, name, owner=owner, cells=said, since=since), known, *said)
        last = {("a",): ("a", *map(cast(Any, before).get, CELL_FIELDS))}
        vars(one.book).update(cells=last, records={NUMBER: record}, owner_of=str, respelt=str, connection=empty())
        keep_values(one)
        told = [entry.finding.field for entry in one.report.entries if isinstance(entry.finding, KeptByHand)]
        return one.animals["a"], {*one.overridden["a"]}, told

    animal, overridden, told = kept()
    assert (animal.name, animal.owner, animal.since, animal.embryo) == ("Anna", "4", None, True)
    assert (animal.left, animal.exit_basis) == (record.left, known.exit)
    assert not overridden and {*told} == fields
    animal, overridden, told = kept(*before)
    assert (animal.name, animal.owner, animal.left, animal.embryo) == ("Ada", "7", None, False)
    assert animal.since == year_of(2004) and overridden == fields and not told
    for changed in (), (Field.SINCE,):
        animal, overridden, told = kept(*changed, lacks=fields)
        assert (animal.name, animal.owner, animal.left, animal.embryo) == ("Anna", "4", record.left, True)
        assert (animal.since is None) == (not changed) and not overridden and not told


def test_a_sex_that_is_inferred_tells_of_a_cell() -> None:
    """Where it can't be read, which is something else than none."""
    for unread, more in (0, ""), (1, ", and its cell can't be read"):
        one = next_book(SheetAnimal("a", 2, unread=["sex"] * unread), None)
        one.roles = {"a": Role.DAM}
        find_sexes(one)
        assert [entry.finding for entry in one.report.entries] == [SexInferred("F", SexSource.DAM, bool(unread))]
        assert one.report.entries[0].finding.words() == f"sex female, since it is a dam{more}"


def filing(length: int = 0) -> Filing:
    """That of an animal beside a journal of so many commands, whose owners are told by their herds."""
    journal = SimpleNamespace(length=length)
    book = SimpleNamespace(journal=journal, owner_of=str, by_number=dict, society_records={}, records={})
    owners = cast(OwnerDays, SimpleNamespace(other_days={}))
    return Filing(NextBook(cast(Book, book), {}, set(), Report(), DAYS), owners)


def test_a_whole_book_is_asked_about_as_it_is_filed() -> None:
    """A look asks of lines that are no commands, by birth and not in the order of the sheet, and has the same refused;
    other replies are none."""
    dam = SheetAnimal("b", 3, born=BORN, left=BORN.replace(year=2005), registration_number=NUMBER)
    later, number = BORN.replace(year=2004), NUMBER[:-1] + "2"
    calf = SheetAnimal("a", 2, dam="b", born=later, embryo=True, registration_number=number)
    book = cast(Book, SimpleNamespace(society_records={}, records={}, by_number=dict))
    whole = NextBook(book, {"a": calf, "b": dam}, set(), Report(), DAYS)
    anew = CommandsAnew(whole, whole.told_of_all(), [7, 4], [transfer(NUMBER, later, 4, 7)])
    assert [command.kind for command in anew.commands] == ["birth", "birth", "transfer", "exit"]
    births = [birth(NUMBER, BORN, "", "", 4, False), birth(number, later, "", NUMBER, 7, True)]
    assert anew.commands[:2] == births
    assert anew.text() == text_of(anew.commands)
    replies = b"1,accepted\n2,refused,8\n3,accepted\n4,refused,16\n"
    program = cast(BookProgram, SimpleNamespace(file_text=lambda text, count: refusals_in(replies)))
    wanted = [(anew.commands[1], Refusal.DAM_NOT_OLDER), (anew.commands[3], Refusal.LATER_OFFSPRING)]
    assert anew.refused(program, is_preview=True) == anew.refused(program, is_preview=False) == wanted


def test_refusals_behind_the_journal() -> None:
    """The first command behind it is seen, and what is refused in it, as of commands by hand, doesn't count."""
    for refused, wanted in ((2, []), (3, [0]), (4, [1])):
        program = SimpleNamespace(file_text=lambda text, count, at=refused: {at: Refusal.SAME_OWNER})
        assert filing(3).refused_behind(cast(BookProgram, program), [BIRTH, BIRTH], b"text") == wanted


def test_a_birth_day_that_changes_is_told_but_where_both_are_invented() -> None:
    record, later = record_after(None, birth(NUMBER, BORN, "", "", 4, False)), datetime.date(2002, 3, 4)
    invented, period = BirthBasis(BirthSource.INVENTED), BirthBasis(BirthSource.PERIOD, year_of(2002).period())
    for before, after in ((invented, invented), (invented, period), (period, invented)):
        animal = SheetAnimal("a", 2, owner="4", born=later, registration_number=NUMBER, birth_basis=after)
        told = [one.name for one in filing().changes(animal, record, SocietyRecord(NUMBER, "a", birth=before))]
        assert told == ([] if before is after else ["birth day"])


def test_what_no_command_corrects() -> None:
    """A birth day, a number, a stored embryo, and an exit that moves or is withdrawn; a new exit is one of the
    commands."""
    record = record_after(None, birth(NUMBER, BORN, "", "", 4, False))
    left = record._replace(left=datetime.date(2005, 1, 2))

    def animal(**more: Any) -> SheetAnimal:
        return dataclasses.replace(SheetAnimal("a", 2, born=BORN, registration_number=NUMBER), **more)

    assert not is_corrected(animal(), record) and not is_corrected(animal(left=left.left), record)
    assert not is_corrected(animal(left=left.left), left)
    assert is_corrected(animal(), left) and is_corrected(animal(left=BORN), left)
    changed = {"born": left.left, "registration_number": NUMBER.replace("F", "M"), "embryo": True}
    assert all(is_corrected(animal(**{name: value}), record) for name, value in changed.items())


def test_commands_that_are_left_out_are_told_by_what_refuses_them() -> None:
    """An exit that is left out tells that the animal counts as gone, and a transfer doesn't."""
    day = BORN.isoformat()
    exit, transferred = (
        CommandLeftOut(kind, day, Refusal.LATER_OFFSPRING, "b", line)
        for kind, line in ((CommandKind.EXIT, 7), (CommandKind.TRANSFER, 0))
    )
    assert exit.words().endswith(" (b in line 7) (refusal 16); the animal counts as gone")
    assert transferred.words().endswith(" (b) (refusal 16)")
    other = CommandLeftOut(CommandKind.EXIT, day, Refusal.SAME_OWNER, "", 0)
    assert len({one.theme() for one in (exit, transferred, other)}) == 3
    # parents have no day
    for kind, of_day, on in (ChangeKind.EXIT, day, f"exit on {day}"), (ChangeKind.PARENTS, "", "parents"):
        refused = CommandRefused(kind, of_day, Refusal.LATER_OFFSPRING)
        assert refused.words() == f"the {on} is refused: {Refusal.LATER_OFFSPRING.words()} (refusal 16)"


def test_animals_that_are_changed() -> None:
    """Each counts once, however much of it is changed, or its owner is only written otherwise."""
    report = Report()
    for id, name in ("a", "name"), ("a", "birth day"), ("b", "dam"):
        report.add(2, id, ValueChanged(name, "now", "before"))
    report.add(0, "", OwnerRenamed("Meier", "Meyer", 2))
    assert report.counts()[What.CHANGED] == 2
    report.renamed |= {"b", "c"}
    assert report.counts()[What.CHANGED] == 3
