"""Days before 1900, which no book can have, and what a column of exits tells of something else: what such cells say is
kept as notes, with the change that takes the sheet."""
from __future__ import annotations

import pytest

from front_desk.desk import Desk
from gudokeyi.services.book_program import BookProgram
from gudokeyi.services.notes import notes_of, write_note
from gudokeyi.services.opening import book_in, to_change

TITLES = "Ohrmarke;Name;Geschlecht;geb;Vater;Mutter;Besitzer;Abgang\n"
OLD = "001;Max;m;14.05.1887;;;Huber;\n002;Eva;w;ca. 1899;;;Huber;12.3.1899\n003;Ada;w;1.2.1905;001;002;Huber;\n"
KEPT = {"001": {"geb: 14.05.1887"}, "002": {"geb: ca. 1899", "Abgang: 12.3.1899"}, "003": set[str]()}


def notes(desk: Desk) -> dict[str, set[str]]:
    with book_in(desk.room / "book") as book:
        found = {id: notes_of(book, animal) for id, animal in book.society_records.items()}
    assert all(len(those) == len({one.text for one in those}) for those in found.values())
    return {id: {one.text for one in those} for id, those in found.items()}


def test_kept_with_the_import(desk: Desk) -> None:
    """A preview tells of them, the import writes them, taken again it writes none, and undone it takes them away."""
    told = "line 2: 001: changed: a book has no days before 1900, so what the cell says is kept as a note: 'geb: 14.05.1887'"
    assert told in desk.take(TITLES + OLD, "--preview").out
    assert told in desk.take(TITLES + OLD).told and notes(desk) == KEPT
    again = desk.take(TITLES.replace("geb", "geboren am") + OLD.replace("Max", "Moritz"))
    assert "kept as a note" not in again.told and notes(desk) == KEPT
    desk.good("undo", "--to", "0")
    assert not notes(desk)
    desk.take(TITLES + OLD)
    assert notes(desk) == KEPT


def test_removed_by_hand(desk: Desk, monkeypatch: pytest.MonkeyPatch) -> None:
    """A note that somebody removed comes again where the cell is another alone."""
    monkeypatch.setenv("HERDBOOK", desk.program)
    desk.take(TITLES + OLD)
    program = BookProgram()
    with to_change(desk.room / "book", program) as book:
        animal = book.society_records["001"]
        [note] = notes_of(book, animal)
        write_note(book, program, animal, "", book.records[animal.registration_number].born, note)
    assert "kept as a note" not in desk.take(TITLES + OLD).told and not notes(desk)["001"]
    desk.take(TITLES + OLD.replace("14.05.1887", "14.05.1888"))
    assert notes(desk)["001"] == {"geb: 14.05.1888"}


def test_no_note_of_days_that_a_book_has(desk: Desk) -> None:
    """Nor of other numbers in such cells."""
    desk.take(TITLES + OLD.replace("14.05.1887", "vor 2001").replace("ca. 1899", "Nr. 31899").replace("12.3.1899", "12.3.1999"))
    assert not any(notes(desk).values())


NO_EXITS = (
    "retired 2019", "on loan to Meier 3.4.2021", "pensioned", "castré le 03.04.2020", "saillie 12.05.2021", "prêtée",
    "kastriert 3.4.2020", "gedeckt 12.05.2021", "verliehen", "covered 12.05.2021", "for sale", "zurück 5.2020",
)  # fmt: skip


@pytest.mark.parametrize("title", ["Abgang", "Status", "Abgang am;Status"])
def test_what_is_no_exit(desk: Desk, title: str) -> None:
    """Such an animal stays; the cell is kept as a note, and told once among the first lines."""
    beside = ";" * title.count(";")
    rows = "".join(f"{at:03};;w;2.2.2009;;;Huber;{beside}{cell}\n" for at, cell in enumerate(NO_EXITS, 1))
    text = TITLES.replace("Abgang", title) + rows + f"100;;w;2.2.2009;;;Huber;{beside}verkauft (gedeckt)\n"
    done = desk.take(text)
    name = title.rpartition(";")[2]
    told = f"{len(NO_EXITS)} cells of the column '{name}' tell of something other than exits, the first in line 2: "
    told += "'retired 2019', "
    assert told in done.out.partition("rows below the titles")[0] and "and 7 more" in done.out
    assert [one["id"] for one in desk.table("book/ids.csv") if one["exit"]] == ["100"]
    assert not [line for line in desk.commands() if line.startswith("exit")]
    assert notes(desk) == {f"{at:03}": {f"{name}: {cell}"} for at, cell in enumerate(NO_EXITS, 1)} | {"100": set[str]()}
    assert " 0 changed" in desk.take(text).last


# a word for a living animal and what else is said, and such words that say no more than that
LIVES_AND_MORE = ("lebt, hat gut gelammt", "aktiv - Zuchtpreis 2021", "lebt, geht an Meier", "aktiv (A)", "alive; lame")
LIVES_ALONE = (
    "lebt", "lebt noch", "lebt (Stand Mai 24)", "im Bestand seit 1.2.2019", "aktiv, im Herdbuch", "alive as of 2024",
    "toujours en vie", "nein", "-",
)  # fmt: skip


@pytest.mark.parametrize("title", ["Abgang", "Status", "Abgang am;Status"])
def test_what_is_said_of_a_living_animal(desk: Desk, title: str) -> None:
    """The text behind a word for a living animal is kept, and told once; the word alone is no note."""
    beside = ";" * title.count(";")
    cells = [*LIVES_AND_MORE, *LIVES_ALONE, "verkauft"]
    rows = "".join(f"{at:03};;w;2.2.2009;;;Huber;{beside}{cell}\n" for at, cell in enumerate(cells, 1))
    text = TITLES.replace("Abgang", title) + rows.replace("; lame", ", lame")
    done, name = desk.take(text), title.rpartition(";")[2]
    kept = [cell.replace(";", ",") for cell in LIVES_AND_MORE]
    told = f"{len(kept)} cells of the column '{name}' tell of something other than exits, the first in line 2: "
    assert told in done.out
    assert {id: those for id, those in notes(desk).items() if those} == {
        f"{at:03}": {f"{name}: {cell}"} for at, cell in enumerate(kept, 1)
    }
    assert [one["id"] for one in desk.table("book/ids.csv") if one["exit"]] == [f"{len(cells):03}"]
    assert " 0 changed" in desk.take(text).last


@pytest.mark.parametrize("title", ["lebt", "Abgang;lebt"])
def test_more_behind_a_yes_or_a_no(desk: Desk, title: str) -> None:
    """In a column of living animals what stands behind a yes is kept too, and a no tells of an exit."""
    beside = ";" * title.count(";")
    cells = ("ja", "ja, hat gut gelammt", "nein", "nein, Wolf", "ja (Stand 2024)", "nein (3.4.2020)")
    rows = "".join(f"{at};;w;2.2.2009;;;Huber;{beside}{cell}\n" for at, cell in enumerate(cells, 1))
    desk.take(TITLES.replace("Abgang", title) + rows)
    assert {id: those for id, those in notes(desk).items() if those} == {"2": {"lebt: lebt, hat gut gelammt"}}
    assert {one["id"]: one["exit"] for one in desk.table("book/ids.csv") if one["exit"]} == {
        "3": "day unknown: 'nicht lebt'", "4": "day unknown: 'nicht lebt, Wolf'", "6": "'nicht lebt'",
    }  # fmt: skip


def test_exit_that_was_none(desk: Desk) -> None:
    """One that a book has is taken back where the next sheet says something else."""
    row = "001;Max;m;1.2.2010;;;Huber;"
    desk.take(TITLES + f"{row}12.05.2020\n")
    done = desk.take(TITLES + f"{row}gedeckt 12.05.2020\n")
    done.tells(
        "line 2: 001: changed: exit: none, before 2020-05-12",
        "line 2: 001: changed: kept as a note: 'Abgang: gedeckt 12.05.2020'",
    )
    assert not [one for one in desk.table("book/ids.csv") if one["exit"]]


NOT_BRED = (
    "Non-breeding", "non breeding", "not for breeding", "no longer breeding 2020", "nicht zur Zucht", "nicht mehr in Zucht",
    "kein Zuchttier", "zuchtuntauglich", "aus der Zucht genommen", "non reproducteur", "réformé de la reproduction",
    "réformée de la reproduction 2020", "hors reproduction", "plus apte à la reproduction",
)  # fmt: skip
GONE = (
    "réformé", "réformée de la reproduction, vendue", "Non-breeding, sold", "nicht mehr im Bestand", "nicht mehr im Zuchtbuch",
    "not active", "zuchtuntauglich, geschlachtet 2020",
)  # fmt: skip


@pytest.mark.parametrize("title", ["Status", "Abgang"])
@pytest.mark.parametrize("text", [*NOT_BRED, *GONE])
def test_not_bred(desk: Desk, text: str, title: str) -> None:
    """An animal that isn't bred from is still there, and what its cell says is kept as a note."""
    rows = "a1;F;2015-03-13;;;active\na2;M;2015-03-14;;;active\na4;F;2015-03-14;;;sold 2020-01-01\na5;F;2015-03-14;;;alive\n"
    done = desk.take(f"id;sex;born;sire;dam;{title}\n{rows}a3;F;2017-03-14;a2;a1;{text}\n")
    is_there = text in NOT_BRED
    assert (f"line 6: a3: changed: kept as a note: '{title}: {text}'" in done.report) == is_there
    assert desk.good("list", "--living").out.count("a3") == is_there
