"""What leaves the front desk: files that are asked for, cells for spreadsheets, and text for a terminal."""
from __future__ import annotations

import os
import pathlib

import pytest
from front_desk.desk import Desk
from front_desk.whole import FLOCK

from gudokeyi.domain.messages import Mistake
from gudokeyi.ingest.files import MOST_BYTES, MOST_LETTERS, MOST_ROWS, check_bounds, read_bytes
from gudokeyi.ingest.sheets import SheetRow
from gudokeyi.services import output_files, restoring as backups, written_files
from gudokeyi.store import files
from gudokeyi.store.book import Book
from gudokeyi.store.transactions import reading
from gudokeyi.web.routes.restoring import restoring

ODD = "id,name,sex,born,sire,dam\n@SUM(A1),+x,F,2001-01-01,,\nA 1,\x1b[31mred,F,2001-01-01,,\nA-1,,F,2001-01-01,,\nA/1,,M,2001-01-01,,\n"


@pytest.mark.parametrize(
    "name",
    [
        "book/book.sqlite", "book/commands.csv", "book/ids.csv", "book/owners.csv", "book/old/x", "book/last_backup.csv",
        "book/accounts.sqlite",
    ],
)  # fmt: skip
def test_never_onto_the_book(flock_desk: Desk, name: str) -> None:
    (flock_desk.room / "book/old").mkdir()
    flock_desk.wrong("is a file of the book, and is never written over", "list", "--out", name, "--force")
    (flock_desk.room / "link").symlink_to(name)
    flock_desk.wrong("is a file of the book, and is never written over", "list", "--out", "link", "--force")


def test_never_onto_a_sheet(desk: Desk) -> None:
    """Neither by its name nor by what stands in it."""
    desk.take(FLOCK)
    desk.write("copy.csv", FLOCK)
    for name in "sheet.csv", "copy.csv":
        desk.wrong("is a sheet that was taken, and is never written over", "list", "--out", name, "--force")
    # she may be changing it for the next taking
    desk.write("sheet.csv", FLOCK + "b,M,2010-01-01,a8,a9,x,\n")
    desk.wrong("is a sheet that was taken, and is never written over", "list", "--out", "sheet.csv", "--force")


def test_a_book_is_written_over_nothing_else(desk: Desk) -> None:
    """Neither over a sheet in its place, nor over what was there before the book; exports that stayed give way."""
    sheet = desk.write("ids.csv", "id,sex,born,sire,dam,remark\na,F,2001-01-01,,,precious\n")
    desk.write("sheet.csv", FLOCK)
    desk.wrong("ids.csv is where the book in the folder . has a file of its own", "import", sheet, "--book", ".")
    in_the_way = "ids.csv isn't of a book, and one in the folder . would write over it: move it away"
    desk.wrong(in_the_way, "import", "sheet.csv", "--book", ".")
    desk.wrong(in_the_way, "import", "--pedigree", desk.write("p.txt", "a 0 0\n"), "--book", ".")
    desk.good("import", sheet)
    desk.good("backup", "copy")
    desk.wrong(in_the_way, "restore", "copy", "--book", ".")
    (desk.room / "book/old").mkdir()
    desk.good("import", desk.write("book/old/2001.csv", desk.text(sheet)))
    (desk.room / sheet).rename(desk.room / "other.csv")
    desk.good("import", "other.csv", "--semicolons", "--book", ".")
    (desk.room / "book.sqlite").unlink()
    (desk.room / "commands.csv").unlink()
    desk.good("import", "sheet.csv", "--book", ".")


def test_onto_other_files(flock_desk: Desk) -> None:
    """Only where that is wished; a link is replaced, and what it leads to stays."""
    flock_desk.write("other.csv", "precious")
    (flock_desk.room / "link").symlink_to("other.csv")
    for name in "other.csv", "link":
        flock_desk.wrong("is there already: name another file", "list", "--out", name)
    flock_desk.good("list", "--out", "link", "--force")
    assert flock_desk.text("other.csv") == "precious" and flock_desk.text("link").startswith("id,")
    flock_desk.wrong("there is no folder absent", "list", "--out", "absent/list.csv")
    os.mkfifo(flock_desk.room / "pipe")
    flock_desk.wrong("pipe can't be written: it isn't an ordinary file", "list", "--out", "pipe", "--force")
    flock_desk.wrong("the folder absent isn't there", "import", "sheet.csv", "--book", "absent/book")
    (flock_desk.room / "matrix.ids").write_text("precious")
    flock_desk.wrong("matrix.ids is there already", "inverse", "--matrix-market", "matrix")


def test_a_file_that_came_meanwhile(flock_desk: Desk, monkeypatch: pytest.MonkeyPatch) -> None:
    """It came behind the look at its name, and isn't written over."""
    path = flock_desk.room / "came"
    with reading(flock_desk.room / "book") as connection:
        book = Book(flock_desk.room / "book", connection)
        for module in output_files, backups:
            monkeypatch.setattr(module, "check", lambda *_: path.write_bytes(b"precious"))
        with pytest.raises(Mistake, match="is there already"):
            output_files.write_outs(book, {path: b"text"}, False)
        with pytest.raises(Mistake, match="is there already"):
            backups.backup(book, path, False)
        assert path.read_bytes() == b"precious"


def test_all_or_none(tmp_path: pathlib.Path, monkeypatch: pytest.MonkeyPatch) -> None:
    """Where one of several can't be written those before it go again, and one that was there is as it was."""

    def put(path: pathlib.Path, text: bytes, replaces: bool) -> None:
        if path.name == "full":
            raise OSError(28, "No space left on device")
        files.put(path, text, replaces=replaces)

    monkeypatch.setattr(written_files, "put", put)
    was_there, new, full = (tmp_path / name for name in ("was there", "new", "full"))
    was_there.write_bytes(b"before")
    with pytest.raises(Mistake, match="full can't be written"):
        output_files.write_outs(Book(tmp_path / "book", None), {was_there: b"a", new: b"b", full: b"c"}, True)
    assert {path.name: path.read_bytes() for path in tmp_path.iterdir()} == {"was there": b"before"}
    # nothing is begun where one of them mustn't be written
    for force, path, told in (False, was_there, "is there already"), (True, tmp_path, "it is a folder: name a file"):
        with pytest.raises(Mistake, match=told):
            output_files.write_outs(Book(tmp_path / "book", None), {new: b"b", path: b"c"}, force)
        assert not new.exists()


def test_spreadsheets_and_terminals(desk: Desk) -> None:
    """No cell is a formula, and nothing that a terminal shows does something there."""
    done = desk.take(ODD)
    shown = done.out + done.err + desk.good("list").out + desk.good("history", "1").out
    assert "\x1b" not in shown
    asked = desk.good("list").out, desk.good("kinship", "@SUM(A1)", "A 1", "--matrix", "kinship").out
    for text in *asked, desk.text("book/ids.csv"), desk.text("book/report.csv"):
        cells = [cell for line in text.splitlines() for cell in line.split(",")]
        assert not [cell for cell in cells if cell[:1] in ("=", "+", "-", "@")]
    assert [row["id"] for row in desk.listed("list")][:1] == ["'@SUM(A1)"]


def test_file_names(desk: Desk) -> None:
    """Each animal's certificate has a name of its own."""
    desk.take(ODD)
    names = {desk.good("certificate", id).out.split(" is written")[0] for id in ("A 1", "A-1", "A/1", "@SUM(A1)")}
    assert len(names) == 4


@pytest.mark.parametrize(("text", "told"), [
    ("id,born,sire,dam\n" + "a,2001,,\n" * 200_001, "sheet.csv has 200,001 rows, and 200,000 are taken at most"),
    (f"id,born,sire,dam\na,2001,,\n{'b' * 10_001},2001,,\n", "line 3: a cell has more than 10,000 letters"),
    (b"id,born,sire,dam\n" + b" " * 50_000_000, "sheet.csv has 50 MB, and 50 MB are read at most"),
])  # fmt: skip
def test_bounds(desk: Desk, text: str | bytes, told: str) -> None:
    """Of a sheet, and of a pedigree alike."""
    desk.wrong(told, "import", desk.write("sheet.csv", text))
    desk.wrong(told, "import", "--pedigree", "sheet.csv")


def test_bounds_without_end(desk: Desk) -> None:
    """What never ends isn't read to its end; a cell of any length is no fault of the front desk."""
    for words in ("import", "/dev/zero"), ("import", "--pedigree", "/dev/zero"):
        desk.wrong("/dev/zero has 50 MB, and 50 MB are read at most", *words)
    long = "b" * 140_000
    sheet, lines = desk.write("long.csv", f"id,born\na,2001\n{long},2001\n"), desk.write(
        "long.txt", f"a 0 0\n{long} 0 0\n"
    )
    desk.wrong("line 3: a cell has more than 10,000 letters", "import", sheet)
    desk.wrong("line 2: a cell has more than 10,000 letters", "import", "--pedigree", lines)
    desk.take("id,sex,born,sire,dam\na,m,2001,,\n")
    desk.wrong("long.txt: the book has no animal 'b", "mating", "--dams", desk.write("long.txt", f"{long},x\n"))


def test_at_the_bounds(tmp_path: pathlib.Path) -> None:
    """So much is just taken, below a line of titles and without one."""
    path = tmp_path / "sheet.csv"
    for titles in 0, 1:
        rows = [SheetRow(1, ["b" * MOST_LETTERS])] * (MOST_ROWS + titles)
        check_bounds(path, rows, titles)
        with pytest.raises(
            Mistake, match="has 200,001 rows, .* To leave out ancestors, such as the oldest animals, changes"
        ):
            check_bounds(path, [*rows, rows[0]], titles)
    path.touch()
    os.truncate(path, MOST_BYTES)
    assert len(read_bytes(path)) == MOST_BYTES
