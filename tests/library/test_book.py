"""Questions and commands of a book by the library alone: what they answer, and what they raise."""
from __future__ import annotations

import dataclasses
import datetime
import pathlib
from collections.abc import Callable
from fractions import Fraction

import pytest

import gudokeyi
from front_desk.whole import FLOCK
from gudokeyi import Birth, Book, Command, Exit, ImportOptions, Parents, Setting, Transfer

DAY = datetime.date(2012, 1, 2)


def test_empty(empty: Book) -> None:
    """A book that isn't there is one without animals and changes; only what changes one needs it to be there."""
    assert empty.is_empty and not empty.list() and not empty.history() and not empty.find("a")
    assert not any(empty.settings().values()) and len(empty.export()) == 0
    empty.verify()
    with pytest.raises(gudokeyi.AnimalNotFound, match="the book has no animal 'a1'"):
        empty.animal("a1")
    commands: list[Command] = [Birth("a1", "M", DAY), Exit("a1", DAY)]
    for command in commands:
        with pytest.raises(gudokeyi.NoBook, match="there is no book in the folder"):
            empty.file(command)
    with pytest.raises(gudokeyi.NoBook):
        empty.undo()
    with pytest.raises(gudokeyi.NoBook):
        empty.backup(empty.folder.parent / "copy")
    assert not empty.folder.exists()


def test_import(empty: Book, sheet: pathlib.Path) -> None:
    """A preview writes nothing; an import begins the book, and tells what it found by animals."""
    seen = empty.import_sheet(sheet, preview=True)
    assert (seen.change, seen.animals, seen.new) == (0, 16, 16) and empty.is_empty and not empty.folder.exists()
    made = empty.import_sheet(sheet)
    assert (made.change, made.animals, made.new, made.obstacles) == (1, 16, 16, ()) and not empty.is_empty
    sheet.write_text(FLOCK.replace("a1,F,2000-01-02,,,farm 1,", "a1,F,2000-01-02,,,farm 2,"), encoding="utf-8")
    again = empty.import_sheet(sheet)
    assert (again.change, again.new) == (2, 0) and {(entry.line, entry.id) for entry in again.findings} == {(3, "a1")}
    sheet.write_text("id,sex,born\n", encoding="utf-8")
    with pytest.raises(gudokeyi.ImportRefused, match="no column for sire or dam is found"):
        empty.import_sheet(sheet)
    sheet.write_text(f"id,sex,born\nx,M,2001-01-01\ny,{'z' * 200_000},2001-01-01\n", encoding="utf-8")
    with pytest.raises(gudokeyi.Mistake, match="line 3: a cell has more than 10,000 letters"):
        empty.import_sheet(sheet)
    assert len(empty.history()) == 2


def test_pedigree(empty: Book, tmp_path: pathlib.Path) -> None:
    """`id sire dam`, with sexes and days that are invented."""
    path = tmp_path / "triples.txt"
    path.write_text("id sire dam\na 0 0\nb 0 0\nc a b\nd c b\n", encoding="utf-8")
    assert empty.import_pedigree(path, preview=True).new == 4 and empty.is_empty
    made = empty.import_pedigree(path)
    assert (made.change, made.animals) == (1, 4) and empty.coefficient("d").value == Fraction(1, 4)
    assert empty.animal("a").birth_basis.is_invented and empty.animal("a").sex == "M"
    assert empty.history()[0].kind.value == "pedigree"
    path.write_text("id sire dam\na b 0\nb a 0\n", encoding="utf-8")
    with pytest.raises(gudokeyi.Mistake):
        empty.import_pedigree(path)


def test_options(empty: Book, sheet: pathlib.Path) -> None:
    """The options are those of the word `import`; the folder is the book's."""
    empty.import_sheet(sheet, ImportOptions(breed="SKU", country="DEU"))
    assert {animal.registration_number[:6] for animal in empty.list()} == {"SKUDEU"}
    assert not (empty.folder.parent / "book" / "book").exists()


def test_list(book: Book) -> None:
    """Animals come in age order, by what is asked for."""
    assert [animal.id for animal in book.list()] == [f"a{at}" for at in range(16)]
    males = book.list(sex="M", born=(datetime.date(2001, 1, 1), datetime.date(2002, 12, 31)))
    assert [animal.id for animal in males] == ["a4", "a6", "a8", "a10"]
    assert [animal.id for animal in book.list(owner="farm 2")] == ["a2", "a5", "a8", "a11", "a14"]
    assert [animal.id for animal in book.find("farm 1", "a1")] == ["a1", "a10", "a13"]
    with pytest.raises(gudokeyi.OwnerNotFound, match="the book has no owner 'farm 9'"):
        book.list(owner="farm 9")
    with pytest.raises(gudokeyi.InvalidValue):
        book.find(*["a"] * 21)


def test_animal(book: Book) -> None:
    """All that the book has of one, with its parents' ids and its coefficient."""
    animal = book.animal("a12")
    assert (animal.id, animal.sex, animal.born) == ("a12", "M", datetime.date(2003, 1, 13))
    assert (animal.sire, animal.dam, animal.owner) == ("a8", "a9", "farm 0")
    assert (animal.left, animal.has_left, animal.is_embryo) == (None, False, False)
    assert not animal.birth_basis.is_inferred and len(animal.registration_number) == 19
    assert book.animal(animal.registration_number) == animal
    assert book.coefficient("a12").value == animal.coefficient.value == Fraction(1, 4)
    with pytest.raises(dataclasses.FrozenInstanceError):
        animal.name = "Berta"  # type: ignore[misc]


def test_certificate(book: Book) -> None:
    """Fourteen ancestors by the ways to them, none for one that isn't known."""
    certificate = book.certificate("a12")
    ways = ["S", "D", "SS", "SD", "DS", "DD", "SSS", "SSD", "SDS", "SDD", "DSS", "DSD", "DDS", "DDD"]
    assert certificate.animal == book.animal("a12") and [*certificate.ancestors] == ways
    ids = [animal and animal.id for animal in certificate.ancestors.values()]
    assert ids == ["a8", "a9", "a4", "a5", "a4", "a5", *[None] * 8]


def test_mating(book: Book) -> None:
    """Each male, the least related first; or those that are named, of which the program refuses some."""
    advice = book.mating("a9")
    found = [(mating.coefficient.value, mating.sire) for mating in advice.matings]
    assert found == sorted(found) and {sire for _, sire in found} == {f"a{at}" for at in range(0, 16, 2)}
    assert (Fraction(1, 4), "a8") in found and (advice.dam, advice.left, advice.refused) == ("a9", 0, {})
    assert [mating.sire for mating in book.mating("a9", ["a8", "a0"]).matings] == ["a0", "a8"]
    book.file(Exit("a0", DAY))
    assert book.mating("a9").left == 1 and len(book.mating("a9", with_left=True).matings) == len(found)
    with pytest.raises(gudokeyi.MatingImpossible, match="name a female as the dam"):
        book.mating("a8", ["a0"])
    refused = book.mating("a9", ["a1", "a0"]).refused
    assert refused == {"a1": gudokeyi.MatingFault.SIRE_NOT_MALE}


def test_breed(book: Book) -> None:
    """The measures of those who are asked for, by their ids: shares and mean kinships are fractions."""
    state = book.breed(among=["a14", "a15"])
    assert state.population == ("a14", "a15") and state.measures["animals"].value == 2
    both = book.kinships(["a14", "a15"])
    mean = sum(pair.kinship * (1 if pair.one == pair.other else 2) for pair in both) / 4
    assert state.measures["mean_kinship"].exact == mean == sum(state.mean_kinships.values()) / 2
    assert sum(one.share for one in state.founders) == 1 and state.mean_kinships.keys() == {"a14", "a15"}
    born = (DAY.replace(year=2002), DAY.replace(year=2004))
    assert book.breed(born=born).population == tuple(animal.id for animal in book.list(born=born))
    assert set(book.breed(owner="farm 1").population) == {
        animal.id for animal in book.list(living=True, owner="farm 1")
    }
    with pytest.raises(gudokeyi.Mistake, match="the book has none of these animals"):
        book.breed(among=[])
    with pytest.raises(gudokeyi.OwnerNotFound):
        book.breed(owner="nobody")


def test_plan(book: Book) -> None:
    """Each dam has the sire that a plan by all pairs has, and what bounds leave open is assumed and said."""
    plan = book.plan(["a13", "a15"], ["a12", "a14"], gudokeyi.PlanRules(most_for_a_sire=None))
    by_dam = {dam: book.mating(dam, ["a12", "a14"]).matings for dam in ("a13", "a15")}
    assert [(one.dam, one.coefficient) for one in plan.matings] == [(dam, by_dam[dam][0].coefficient) for dam in by_dam]
    assert (
        plan.mean == sum(one.coefficient.value for one in plan.matings) / 2 and plan.allowed == 4 and not plan.unmated
    )
    refused = book.plan(["a15"], ["a14"], gudokeyi.PlanRules(at_most=Fraction(-1)))
    assert not refused.matings and refused.mean is None and refused.unmated == {"a15": gudokeyi.Unmated.ABOVE}
    assert any("no sire has more than" in one for one in book.plan().assumed)


def test_kinships(book: Book) -> None:
    pairs = book.kinships(["a8", "a9"])
    assert {(one.one, one.other): one.relationship for one in pairs} == {
        ("a8", "a8"): 1, ("a8", "a9"): Fraction(1, 2), ("a9", "a9"): 1
    }  # fmt: skip
    (pair,) = book.kinships(["a12"], ["a8"])
    assert (pair.relationship, pair.kinship) == (Fraction(3, 4), Fraction(3, 8)) and book.kinships([]) == ()


def test_file(book: Book) -> None:
    """One command after the other on one opened book; a refused one is a value too, and changes no animal."""
    born = book.file(Birth("n", "F", DAY, "Nina", "a12", "a13", "farm 9"))
    assert born.is_accepted and born.change.number == 2 and book.animal("n").name == "Nina"
    assert book.animal("n").registration_number == born.registration_number and born.notes == ()
    moved = book.file(Transfer("n", datetime.date(2013, 1, 1), "farm 1"))
    assert moved.is_accepted and (book.animal("n").owner, book.animal("n").owner_since.year) == ("farm 1", 2013)
    assert book.file(Parents("n", dam="")).is_accepted and book.animal("n").dam == "" != book.animal("n").sire
    left = book.file(Exit("n", datetime.date(2014, 1, 1)))
    assert left.is_accepted and book.animal("n").left == datetime.date(2014, 1, 1)
    before, again = book.animal("n"), book.file(Exit("n", datetime.date(2014, 1, 2)))
    assert again.refusal is gudokeyi.Refusal.LEFT_ALREADY and not again.is_accepted and book.animal("n") == before
    assert again.change.number == 6 == len(book.history())
    book.verify()


def test_what_cant_be_filed(book: Book) -> None:
    """A mistake of its kind, and nothing is filed."""
    tomorrow = datetime.date.today() + datetime.timedelta(1)
    cases: list[tuple[type[gudokeyi.Mistake], Command]] = [
        (gudokeyi.InvalidValue, Exit("a1", tomorrow)),
        (gudokeyi.InvalidValue, Birth("", "M", DAY)),
        (gudokeyi.InvalidValue, Birth("x" * 61, "M", DAY)),
        (gudokeyi.AnimalNotFound, Birth("n", "M", DAY, sire="nobody")),
        (gudokeyi.OwnerNotFound, Transfer("a1", DAY, "farm 2", from_owner="farm 8")),
        (gudokeyi.AnimalNotFound, Parents("nobody", sire="a0")),
    ]
    for mistake, command in cases:
        with pytest.raises(mistake) as found:
            book.file(command)
        assert found.value.sentences and isinstance(found.value, gudokeyi.Mistake)
    assert len(book.history()) == 1


def test_names(book: Book) -> None:
    """An id comes before a name, and a name that several have stands for none of them."""
    for id in "n", "o":
        book.file(Birth(id, "F", DAY, "Nina"))
    with pytest.raises(gudokeyi.AnimalAmbiguous, match="2 animals have the name 'Nina'"):
        book.animal("Nina")


def test_undo_and_history(book: Book) -> None:
    """An earlier state comes back as a change of its own."""
    book.file(Exit("a1", DAY))
    change = book.undo()
    assert (change.number, change.undone_to) == (3, 1) and book.animal("a1").left is None
    assert [one.kind.value for one in book.history()] == ["take", "exit", "undo"]
    assert book.undo(2).number == 4 and book.animal("a1").left == DAY
    assert book.undo(0).undone_to == 0 and book.is_empty
    with pytest.raises(gudokeyi.Mistake, match="its state is that after the last one"):
        book.undo(5)


def test_backup_and_restore(book: Book, tmp_path: pathlib.Path) -> None:
    copy = tmp_path / "copy"
    book.backup(copy)
    with pytest.raises(gudokeyi.Mistake, match="is there already"):
        book.backup(copy)
    book.backup(copy, replaces=True)
    book.file(Exit("a1", DAY))
    with pytest.raises(gudokeyi.Mistake, match="there is a book in the folder"):
        book.restore(copy)
    assert book.restore(copy, anyway=True).change.number == 2 and book.animal("a1").left is None
    other = Book.open(tmp_path / "other", book.program)
    assert other.restore(copy).notes == () and other.list() == book.list()
    copy.write_text("no database " * 99, encoding="utf-8")
    with pytest.raises(gudokeyi.Mistake, match="is damaged, or isn't a backup"):
        other.restore(copy, anyway=True)


def test_settings(book: Book) -> None:
    book.change_settings({Setting.NAME: "Schafzuchtverein"})
    assert book.settings()[Setting.NAME] == "Schafzuchtverein" and book.settings()[Setting.BREED] == ""
    with pytest.raises(gudokeyi.InvalidValue, match="isn't three letters A to Z"):
        book.change_settings({Setting.BREED: "long"})


def test_export(book: Book, tmp_path: pathlib.Path) -> None:
    """What is written is a sheet: imported into another folder it makes the same pedigree."""
    path = tmp_path / "export.csv"
    path.write_text(book.export().text(semicolons=False), encoding="utf-8")
    other = Book.open(tmp_path / "other", book.program)
    other.import_sheet(path)
    facts = [[(one.id, one.sire, one.dam, one.coefficient) for one in each.list()] for each in (book, other)]
    assert facts[0] == facts[1] and len(facts[0]) == 16
    assert [row[0] for row in book.export(keep=["a12"]).rows] == ["a4", "a5", "a8", "a9", "a12"]


def test_unusable(book: Book, tmp_path: pathlib.Path) -> None:
    """A file that is no book is told where it is opened, and a program that isn't there where it is needed."""
    (tmp_path / "other").mkdir()
    (tmp_path / "other" / "book.sqlite").write_text("no database " * 99, encoding="utf-8")
    with pytest.raises(gudokeyi.BookUnusable, match="is damaged, or isn't a database"):
        Book.open(tmp_path / "other")
    with pytest.MonkeyPatch.context() as patched:
        patched.setenv("HERDBOOK", str(tmp_path / "nothing"))
        without = Book.open(book.folder)
        assert without.list() == book.list()
        asked: list[Callable[[], object]] = [without.verify, without.undo, lambda: without.mating("a9")]
        for one in asked:
            with pytest.raises(gudokeyi.ProgramFailed, match="isn't there"):
                one()


def test_long_cells(book: Book, tmp_path: pathlib.Path) -> None:
    """A cell that is longer than Python's module reads is told as one that is too long, also where no process is
    set."""
    from gudokeyi.domain.messages import Mistake
    from gudokeyi.ingest.pedigree_files import first_cell, given_file, read_lines

    path, long = tmp_path / "long.txt", "b" * 140_000
    path.write_text(f"id,sire,dam\n{long},,\n", encoding="utf-8")
    with pytest.raises(Mistake, match="line 2: a cell has more than 10,000 letters"):
        read_lines(given_file(path, is_pedigree=True))
    assert first_cell(f"{long},x") == long
