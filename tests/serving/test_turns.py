"""Who waits for whom: one changes the book at a time, and nobody waits longer than for what is written then."""
from __future__ import annotations

import contextlib
import gc
import pathlib
import re
import sqlite3
import threading
import time
import weakref
from collections.abc import Callable

import pytest

from front_desk.desk import TOP, Desk
from gudokeyi.domain.kinds import Standing
from gudokeyi.ingest.files import read_file
from gudokeyi.reconcile.findings.by_hand import NewAnimal
from gudokeyi.reconcile.import_options import ImportOptions
from gudokeyi.services import folder_files, restoring, sheet_imports
from gudokeyi.services.book_program import BookProgram
from gudokeyi.services.folder_files import refresh
from gudokeyi.services.opening import there_to_change
from gudokeyi.services.own_columns import columns_of, write_values
from gudokeyi.services.restoring import restore
from gudokeyi.services.sheet_imports import import_sheet
from gudokeyi.store import backup as backups, exports
from gudokeyi.store.book import Book
from gudokeyi.store.transactions import Overtaken, reading
from gudokeyi.web import sheet_work
from gudokeyi.web.forms import new_form
from gudokeyi.web.sheet_work import Asked, Chosen, Imported, Look, Seen, imported, looked_at, seen_of

DAM, OTHER, DAY = "GK-17/472c", "GK-16/433c", "2024-05-01"
ANYWAY = Chosen(options=(("anyway", "1"),))


@pytest.fixture
def folder(society_desk: Desk, program: str, monkeypatch: pytest.MonkeyPatch) -> pathlib.Path:
    monkeypatch.setenv("HERDBOOK", program)
    # a look is for a process of its own
    monkeypatch.setattr(sheet_work, "bound_look", lambda: None)
    return society_desk.room / "book"


def is_free(folder: pathlib.Path) -> bool:
    """May somebody change the book at once?"""
    with contextlib.closing(sqlite3.connect(folder / "book.sqlite", timeout=0, isolation_level=None)) as connection:
        try:
            connection.execute("BEGIN IMMEDIATE")
        except sqlite3.OperationalError:
            return False
        return True


def kinds(folder: pathlib.Path) -> list[str]:
    """The kinds of the changes, from the first on."""
    with contextlib.closing(sqlite3.connect(folder / "book.sqlite")) as connection:
        return [kind for (kind,) in connection.execute("SELECT kind FROM change ORDER BY change")]


def sheet(desk: Desk) -> pathlib.Path:
    path = desk.room / "more.csv"
    path.write_text("id,name,sex,birth,sire,dam\nNEW-1,,f,2024-01-01,,\n", encoding="utf-8")
    return path


def exit_of(desk: Desk) -> None:
    desk.good("exit", DAM, "--day", DAY)


def behind(monkeypatch: pytest.MonkeyPatch, module: object, name: str, do: Callable[[], object]) -> None:
    """Does something once, behind what a function of a module does."""
    made, done = getattr(module, name), list[bool]()

    def both(*values: object, **named: object) -> object:
        result = made(*values, **named)
        if not done:
            done.append(True)
            do()
        return result

    monkeypatch.setattr(module, name, both)


def seen_now(folder: pathlib.Path) -> Seen:
    with reading(folder) as connection:
        return seen_of(Book(folder, connection), ANYWAY)


def taken_now(folder: pathlib.Path, path: pathlib.Path) -> Imported:
    """A sheet is taken at a desk that looked at the book of now."""
    look = looked_at(folder, path, ANYWAY, (), lambda _: None)
    return imported(folder, path, ANYWAY, Asked(look.seen, look.by_animal, new_form()), lambda _: None)


def filed_meanwhile(
    monkeypatch: pytest.MonkeyPatch, folder: pathlib.Path, file: Callable[[int], object]
) -> list[bool]:
    """Somebody files something behind each preparation of a sheet that others don't wait for; whether they don't."""
    free, prepare = list[bool](), getattr(sheet_work, "import_sheet_into")

    def prepared(*values: object, **named: object) -> object:
        found: object = prepare(*values, **named)
        free.append(is_free(folder))
        if free[-1]:
            file(len(free))
        return found

    monkeypatch.setattr(sheet_work, "import_sheet_into", prepared)
    return free


def taken_as_looked(folder: pathlib.Path, path: pathlib.Path, look: Look) -> Imported:
    return imported(folder, path, ANYWAY, Asked(look.seen, look.by_animal, new_form()), lambda _: None)


def birth_of(desk: Desk, id: str, *more: str) -> None:
    desk.good("birth", id, "--sex", "f", "--day", "2024-01-01", "--owner", "Lower Mill", *more)


@pytest.mark.parametrize("has_all", [False, True])
def test_sheet_behind_others(
    folder: pathlib.Path, society_desk: Desk, monkeypatch: pytest.MonkeyPatch, has_all: bool
) -> None:
    """What others file while a sheet is prepared doesn't have it prepared anew where it touches none of its animals,
    but for their standing or their cells: it stands behind that, with numbers behind those that were given
    meanwhile."""
    path = sheet(society_desk)
    if has_all:
        text = (TOP / "examples/society.csv").read_text(encoding="utf-8")
        rows = re.sub(r",(\d{4})-(\d\d)-(\d\d),", r",\3.\2.\1,", text)
        path.write_text(f"{rows}Lower Mill,NEW-1,F,01.01.2024,,,\n", encoding="utf-8")
    look = looked_at(folder, path, ANYWAY, (), lambda _: None)

    def file(at: int) -> None:
        birth_of(society_desk, f"OTHER-{at}", "--dam", DAM)
        society_desk.good("exit", OTHER, "--day", DAY)
        assert society_desk.run("exit", OTHER, "--day", DAY).status == 3

    free = filed_meanwhile(monkeypatch, folder, file)
    made = taken_as_looked(folder, path, look)
    assert free == [True] and made.change == 5 and kinds(folder) == ["take", "birth", "exit", "exit", "take"]
    with contextlib.closing(sqlite3.connect(folder / "book.sqlite")) as connection:
        asked = "SELECT number, since FROM animal WHERE id IN ('NEW-1', 'OTHER-1') AND until IS NULL ORDER BY since"
        (other, _), (new, since) = connection.execute(asked)
        told = connection.execute("SELECT fields FROM told WHERE change = 5 AND id = 'NEW-1'").fetchall()
        animals = connection.execute("SELECT count FROM counted WHERE (change, what) = (5, 'animals')").fetchone()[0]
    assert since == 5 and int(new[7:]) == int(other[7:]) + 1 and any(new in fields for (fields,) in told)
    assert animals == len(society_desk.listed("list"))
    with reading(folder) as opened:
        now = Book(folder, opened)
        assert now.society_records[OTHER].standing is (Standing.ROW if has_all else Standing.GONE)
        assert str(now.records[now.society_records[OTHER].registration_number].left) == DAY
    society_desk.good("verify")


@pytest.mark.parametrize("file", ["birth", "near", "transfer", "calf", "owner", "settings"])
def test_touched_while_prepared(
    folder: pathlib.Path, society_desk: Desk, monkeypatch: pytest.MonkeyPatch, file: str
) -> None:
    """Where others filed something of an animal that the sheet changes, or that it stands on, it is prepared anew: then
    that animal is asked about anew, if the sheet would change it otherwise now."""
    path = society_desk.room / "more.csv"
    path.write_text(f"id,name,sex,birth,sire,dam,owner\nNEW-1,,f,2024-01-01,,{DAM},New Mill\n", encoding="utf-8")
    look = looked_at(folder, path, ANYWAY, (), lambda _: None)
    calls = {
        "birth": ("birth", "NEW-1", "--sex", "f", "--day", "2023-01-01", "--owner", "Lower Mill"),
        "near": ("birth", "new-01", "--sex", "f", "--day", "2023-01-01", "--owner", "Lower Mill"),
        "transfer": ("transfer", DAM, "--day", DAY, "--to", "Lower Mill"),
        "calf": ("birth", "OTHER-1", "--sex", "f", "--day", "2023-11-01", "--dam", DAM, "--owner", "Lower Mill"),
        "owner": ("birth", "OTHER-1", "--sex", "f", "--day", "2024-01-03", "--owner", "New Mill"),
        "settings": ("settings", "--country", "GBR"),
    }
    free = filed_meanwhile(monkeypatch, folder, lambda at: society_desk.good(*calls[file]) if at == 1 else None)
    made = taken_as_looked(folder, path, look)
    is_asked = file in ("birth", "near", "calf")
    assert made.otherwise == ("NEW-1",) * is_asked and free == [True] * (1 if file == "settings" else 2)
    assert (made.change > 0) is (file in ("transfer", "owner")) and made.read_otherwise is (file == "settings")
    society_desk.good("verify")


def test_others_wait_for_the_last_try(
    folder: pathlib.Path, society_desk: Desk, monkeypatch: pytest.MonkeyPatch
) -> None:
    """Where others file something of a sheet's animals each time they wait at last, and it is taken; of what was
    prepared in vain nothing is kept."""
    path, books = society_desk.room / "more.csv", list[weakref.ref[Book]]()
    path.write_text(f"id,name,sex,birth,sire,dam\nNEW-1,,f,2020-01-01,,{DAM}\n", encoding="utf-8")
    look = looked_at(folder, path, ANYWAY, (), lambda _: None)

    def file(at: int) -> None:
        society_desk.good("transfer", DAM, "--day", f"2024-05-{at:02}", "--to", f"Mill {at}")

    free = filed_meanwhile(monkeypatch, folder, file)
    prepare = getattr(sheet_work, "import_sheet_into")

    def prepared(book: Book, *values: object) -> object:
        assert not [one for one in books if one()]
        books.append(weakref.ref(book))
        return prepare(book, *values)

    monkeypatch.setattr(sheet_work, "import_sheet_into", prepared)
    monkeypatch.setattr(sheet_work, "MOST_TRIES", 2)
    gc.disable()
    try:
        made = taken_as_looked(folder, path, look)
    finally:
        gc.enable()
    assert free == [True, True, False] and len(books) == 3
    assert made.change == 4 and kinds(folder) == ["take", "transfer", "transfer", "take"]


def test_corrected_behind_others(folder: pathlib.Path, society_desk: Desk, monkeypatch: pytest.MonkeyPatch) -> None:
    """A sheet for which the journal is begun anew, and that corrects parents, stands behind others too: what they filed
    is in the new journal, and coefficients are those of all."""
    text, path = (TOP / "examples/society.csv").read_text(encoding="utf-8"), society_desk.room / "more.csv"
    assert text.count("GK-13/374c,F,2013-02-12,GK-06/217b") == 1
    corrected = text.replace("GK-13/374c,F,2013-02-12,GK-06/217b", "GK-13/374c,F,2013-02-13,")
    path.write_text(f"{corrected}Lower Mill,NEW-1,F,2024-01-01,,GK-13/374c,\n", encoding="utf-8")
    look = looked_at(folder, path, ANYWAY, (), lambda _: None)

    def file(at: int) -> None:
        birth_of(society_desk, f"OTHER-{at}", "--dam", DAM)
        society_desk.good("exit", OTHER, "--day", DAY)
        assert society_desk.run("exit", OTHER, "--day", DAY).status == 3

    free = filed_meanwhile(monkeypatch, folder, file)
    made = taken_as_looked(folder, path, look)
    assert free == [True] and made.change == 5
    with contextlib.closing(sqlite3.connect(folder / "book.sqlite")) as connection:
        assert connection.execute("SELECT edition FROM change WHERE change = 5").fetchone() == (2,)
    living = {row["id"] for row in society_desk.listed("list", "--living")}
    assert "OTHER-1" in living and OTHER not in living
    society_desk.good("verify")


def test_filed_by_hand_stays(folder: pathlib.Path, society_desk: Desk) -> None:
    """Where others filed something of an animal whose row says what the last sheet said, that stays: the sheet doesn't
    change it, and is taken without another look."""
    path = TOP / "examples/society.csv"
    look = looked_at(folder, path, ANYWAY, (), lambda _: None)
    society_desk.good("exit", OTHER, "--day", DAY)
    society_desk.good("transfer", DAM, "--day", DAY, "--to", "Lower Mill")
    made = imported(folder, path, ANYWAY, Asked(look.seen, look.by_animal, new_form()), lambda _: None)
    assert made.otherwise == () and kinds(folder) == ["take", "exit", "transfer", "take"]
    assert OTHER not in {row["id"] for row in society_desk.listed("list", "--living")}
    society_desk.good("verify")


def own_sheet(desk: Desk, value: str) -> pathlib.Path:
    """The society's sheet with a column of its own, of which two animals have a value."""
    path = desk.room / "own.csv"
    titles, *rows = (TOP / "examples/society.csv").read_text(encoding="utf-8").splitlines()
    values = (value if f",{DAM}," in row or f",{OTHER}," in row else "" for row in rows)
    lines = [f"{titles},CAE", *(f"{row},{one}" for row, one in zip(rows, values))]
    path.write_text("".join(f"{line}\n" for line in lines), encoding="utf-8")
    return path


def test_own_values_of_others(folder: pathlib.Path, society_desk: Desk) -> None:
    """Where another wrote a value of the society's own it isn't written over, though as many values change as before:
    that animal alone is named."""
    chosen = Chosen.of({}, {"anyway": "1"}, others={"CAE": "text"})
    made = []
    for value in "old", "new":
        path = own_sheet(society_desk, value)
        look = looked_at(folder, path, chosen, (), lambda _: None)
        if value == "new":
            with there_to_change(folder, BookProgram()) as book:
                place = columns_of(book)[0].place
                write_values(book, BookProgram(), book.society_records[DAM], {place: "by hand"})
        asked = Asked(look.seen, look.by_animal, new_form())
        made.append(imported(folder, path, chosen, asked, lambda _: None))
    assert made[0].change and (made[1].change, made[1].otherwise) == (0, (DAM,))


def test_touched_by_others(folder: pathlib.Path, society_desk: Desk) -> None:
    """Where others changed an animal that the sheet changes too it isn't taken, and that animal alone is named."""
    path = sheet(society_desk)
    look = looked_at(folder, path, ANYWAY, (), lambda _: None)
    asked = Asked(look.seen, look.by_animal, new_form())
    society_desk.good("birth", "NEW-1", "--sex", "f", "--day", "2023-01-01", "--owner", "Lower Mill")
    made = imported(folder, path, ANYWAY, asked, lambda _: None)
    assert (made.change, made.otherwise) == (0, ("NEW-1",)) and kinds(folder) == ["take", "birth"]
    again = looked_at(folder, path, ANYWAY, made.otherwise, lambda _: None)
    assert again.again and {entry.id for entry in again.again} == {"NEW-1"}


def test_sheet_of_a_terminal(folder: pathlib.Path, society_desk: Desk, monkeypatch: pytest.MonkeyPatch) -> None:
    """There it stands behind what another filed meanwhile too, and is told with its numbers there. Where that touches
    it, it is prepared anew, and then others wait for it."""
    for id, other, dam, waits in ("NEW-1", OTHER, "", False), ("NEW-2", DAM, DAM, True):
        path, free = society_desk.room / "more.csv", list[bool]()
        path.write_text(f"id,name,sex,birth,sire,dam\n{id},,f,2024-01-01,,{dam}\n", encoding="utf-8")

        def file() -> None:
            free.append(is_free(folder))
            birth_of(society_desk, f"OTHER-{id}")
            society_desk.good("exit", other, "--day", DAY)
            behind(patched, sheet_imports, "finish", lambda: free.append(is_free(folder)))

        with monkeypatch.context() as patched:
            behind(patched, sheet_imports, "finish", file)
            outcome, _ = import_sheet(read_file(path), ImportOptions(folder, anyway=True), BookProgram())
        assert free == [True, False][: 1 + waits] and kinds(folder)[-3:] == ["birth", "exit", "take"]
        society_desk.good("verify")
        rows = {row["id"]: row for row in society_desk.listed("list")}
        told = [one.finding for one in outcome.report.entries if isinstance(one.finding, NewAnimal)]
        assert [one.number for one in told] == [rows[id]["number"]] and outcome.after
        assert outcome.after.animals == len(rows) and f"{rows[id]['number']},{id}," in (folder / "ids.csv").read_text("utf-8")


def test_exports(folder: pathlib.Path, society_desk: Desk, monkeypatch: pytest.MonkeyPatch) -> None:
    """Nobody waits for the files beside the database, and they are never put back to an earlier change."""
    society_desk.good("exit", OTHER, "--day", DAY)
    (folder / exports.IDS).unlink()
    later = threading.Thread(target=refresh, args=(folder, 60))

    def file() -> None:
        assert is_free(folder)
        with contextlib.closing(sqlite3.connect(folder / "book.sqlite")) as connection:
            connection.execute("UPDATE change SET time = time + 1 WHERE change = 2")
            connection.commit()
        later.start()

    behind(monkeypatch, folder_files, "report_text", file)
    assert refresh(folder, 0) == ""
    later.join()
    with contextlib.closing(sqlite3.connect(folder / "book.sqlite")) as connection:
        moment = connection.execute("SELECT max(time) FROM change").fetchone()[0]
    assert all((folder / name).stat().st_mtime_ns == moment * 1000 for name in exports.NAMES)


def test_exports_one_after_the_other(folder: pathlib.Path) -> None:
    """Whoever doesn't wait for another who writes them says that they aren't written."""
    (folder / exports.IDS).unlink()
    with exports.turn(folder, 0):
        assert "couldn't all be written" in refresh(folder, 0)
    assert refresh(folder, 0) == "" and (folder / exports.IDS).exists()


def test_restoring(folder: pathlib.Path, society_desk: Desk, monkeypatch: pytest.MonkeyPatch) -> None:
    """Nobody changes the book between its keeping in `old` and its replacing: who wants to waits, and then files in the
    book that is restored."""
    society_desk.good("backup", "copy.sqlite")
    society_desk.good("exit", OTHER, "--day", DAY)
    filing = threading.Thread(target=society_desk.good, args=("exit", DAM, "--day", DAY))

    def file() -> None:
        assert not is_free(folder)
        filing.start()
        # it looks whether it may, and has to wait
        filing.join(1.5)
        assert filing.is_alive()

    behind(monkeypatch, restoring, "keep_old", file)
    restore(folder, society_desk.room / "copy.sqlite", BookProgram(), anyway=True)
    filing.join()
    assert kinds(folder) == ["take", "restore", "exit"]
    (old,) = (folder / "old").glob("book-*.sqlite")
    with contextlib.closing(sqlite3.connect(old)) as connection:
        assert [kind for (kind,) in connection.execute("SELECT kind FROM change")] == ["take", "exit"]
    society_desk.good("verify")
    # two in one second don't get the same name
    monkeypatch.setattr(time, "strftime", lambda _: "now")
    for _ in range(2):
        backups.keep_old(folder)
    assert len(list((folder / "old").glob("book-now-*.sqlite"))) == 2


def test_restoring_of_another_book(folder: pathlib.Path, society_desk: Desk, monkeypatch: pytest.MonkeyPatch) -> None:
    """Where somebody files behind the look at a book, and be it at the last moment, nothing is restored, and the book
    is as it was left."""
    society_desk.good("backup", "copy.sqlite")
    exits = iter((OTHER, DAM))
    for module, name in (restoring, "prepare"), (backups, "set_write_ahead"):
        looked = seen_now(folder).mark
        behind(monkeypatch, module, name, lambda: society_desk.good("exit", next(exits), "--day", DAY))
        with pytest.raises(Overtaken):
            restore(folder, society_desk.room / "copy.sqlite", BookProgram(), anyway=True, looked=looked)
    assert kinds(folder) == ["take", "exit", "exit"] and not (folder / "old").exists()
    society_desk.good("verify")
