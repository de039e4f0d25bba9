"""Workbooks of few bytes that would become very much, and looks that would take very long: refused before that."""
from __future__ import annotations

import io
import pathlib
import re
import signal
import subprocess
import sys
import time
import tracemalloc
import zipfile

import openpyxl
import pytest
from openpyxl.comments import Comment

from front_desk.desk import TOP
from gudokeyi.bounds import bound_look, bounded_reading
from gudokeyi.domain.messages import Mistake
from gudokeyi.ingest import files, workbooks
from gudokeyi.ingest.columns import find_columns
from gudokeyi.ingest.files import MOST_CELLS, MOST_ROWS, GivenFile, check_bounds
from gudokeyi.ingest.messages import SheetFault
from gudokeyi.ingest.sheets import Sheet, SheetRow
from gudokeyi.ingest.unknown_parents import UnknownParents
from gudokeyi.ingest.workbooks import Worksheet, cells_of, read_workbook
from gudokeyi.reconcile.import_options import ImportOptions
from gudokeyi.services import pedigree_imports, sheet_imports, sheet_reading
from gudokeyi.services.book_program import BookProgram

PATH = pathlib.Path("flock.xlsx")
TITLES, ANIMAL = ["Ohrmarke", "Geschlecht", "Geburtsdatum"], ["a", "m", "2001-01-01"]
SHEET, BOOK = "xl/worksheets/sheet1.xml", "xl/workbook.xml"
END = "</sheetData>"
FAR = '<row r="1048576"><c r="{}1048576" t="inlineStr"><is><t>x</t></is></c></row>' + END
LONG = '<row r="3"><c r="A3" t="inlineStr"><is>{}</is></c></row>' + END
TOO_MANY = SheetFault.TOO_MANY_CELLS.said(path=PATH, most=MOST_CELLS)
ODD = SheetFault.NO_WORKBOOK.said(path=PATH, error="it is written as no spreadsheet writes it")


def with_part(before: str, after: str, part: str = SHEET) -> bytes:
    """A small workbook, in whose worksheet or other part something else is written."""
    made, edited = io.BytesIO(), io.BytesIO()
    found = openpyxl.Workbook()
    for row in (TITLES, ANIMAL):
        found.active.append(row)
    found.save(made)
    with zipfile.ZipFile(made) as archive, zipfile.ZipFile(edited, "w", zipfile.ZIP_DEFLATED) as copy:
        for name in archive.namelist():
            text = archive.read(name).decode()
            copy.writestr(name, text.replace(before, after, 1) if name == part else text)
    return edited.getvalue()


def read(data: bytes) -> Worksheet:
    """The worksheet, of which no more is made than it has, of cells or of anything."""
    tracemalloc.start()
    try:
        return read_workbook(PATH, data, len, 5, "")
    finally:
        assert tracemalloc.get_traced_memory()[1] < 20_000_000
        tracemalloc.stop()


@pytest.mark.parametrize("column, width", [("A", 3), ("XFD", 16384)])
def test_far_cells(column: str, width: int) -> None:
    """A cell in the last row, or in the last cell of all, is one more, and not all that lie between."""
    rows = read(with_part(END, FAR.format(column))).rows
    assert [line for line, _ in rows] == [1, 2, 1_048_576] and {len(cells) for _, cells in rows} == {width}
    assert rows[1][1][:3] == ANIMAL and rows[2][1][0 if column == "A" else -1] == "x"


def test_very_many_columns() -> None:
    """What has what is found at once, also where a far cell makes a sheet as wide as one may be."""
    row = [*TITLES, *[""] * 16_000]
    sheet = Sheet(1, row, [SheetRow(at, [f"a{at}"] * len(row)) for at in range(2, 12)], "", [])
    began = time.process_time()
    columns = find_columns(sheet, {}, {}, UnknownParents())
    assert time.process_time() - began < 2 and columns.found["sex"] == 1
    # a file of text may have more, in which nothing is looked for
    check_bounds(PATH, [(1, ["x"] * files.MOST_COLUMNS)], 1)
    for width in files.MOST_COLUMNS + 1, 1_000_000:
        with pytest.raises(Mistake) as told:
            check_bounds(PATH, [(1, ["x"] * width)], 1)
        assert told.value.sentences == (TOO_MANY,)


def test_far_apart(monkeypatch: pytest.MonkeyPatch) -> None:
    """Each row is as wide as the widest: where these would be too many cells they aren't made."""
    monkeypatch.setattr(workbooks, "MOST_CELLS", 3 * 16384 - 1)
    with pytest.raises(Mistake) as told:
        read(with_part(END, FAR.format("XFD")))
    assert told.value.sentences == (SheetFault.TOO_MANY_CELLS.said(path=PATH, most=3 * 16384 - 1),)


def test_long_texts() -> None:
    """A text that is longer than a sheet of a society has is told with its line; what isn't of a cell isn't counted."""
    text = "x" * 60_000
    beside = f"</sheetData><headerFooter><oddHeader>{text * 2}</oddHeader></headerFooter>"
    data = with_part(END, LONG.format(f"<t>{text}</t>").replace(END, beside))
    with pytest.raises(Mistake) as told:
        check_bounds(PATH, read_workbook(PATH, data, len, 5, "").rows, 1)
    assert told.value.sentences == (SheetFault.LONG_CELL.said(line=3, most=files.MOST_LETTERS),)


@pytest.mark.parametrize(
    "before, after, told",
    [
        (END, f'{END}<mergeCells count="1"><mergeCell ref="A1:XFD1048576"/></mergeCells>', TOO_MANY),
        (END, f'{END}<hyperlinks><hyperlink ref="$XFD$1048576:A1" display="x"/></hyperlinks>', TOO_MANY),
        (END, f'{END}<hyperlinks><hyperlink ref="A:XFD" display="x"/></hyperlinks>', ODD),
        ('<row r="1"', f'<row x="{">" * 40_000_000}" r="1"', ODD),
        ("<sheetData>", f"<!--{'<y>' * 1_000_000}--><sheetData>", ODD),
        ("<worksheet", '<!DOCTYPE x [<!ENTITY a "b">]><worksheet', ODD),
        (END, LONG.format(f"<r><t>{'x' * 60_000}</t></r>" * 2), ODD),
    ],
    ids=["merged", "linked", "linked without an end", "attribute", "comment", "entities", "long text"],
)
def test_hostile_parts(before: str, after: str, told: str) -> None:
    """What would make very many cells, or is read again and again, isn't opened."""
    with pytest.raises(Mistake) as found:
        read_workbook(PATH, with_part(before, after), len, 5, "")
    assert found.value.sentences == (told,)


@pytest.mark.parametrize(
    "part, end, element, most",
    [
        (SHEET, END, "<row/>", 1000), (SHEET, END, "<c/>", 20_000), ("_rels/.rels", "</Relationships>", "<Relationship/>", 2000),
        (SHEET, END, "<tablePart/>", 200),
        (SHEET, END, "<si/>", 20_000), ("xl/styles.xml", "</cellXfs>", "<xf/>", 2000),
        (BOOK, "<calcPr", '<definedName name="a">1</definedName>', 2000), (BOOK, "</sheets>", "<sheet/>", 200),
    ],
)  # fmt: skip
def test_elements(monkeypatch: pytest.MonkeyPatch, part: str, end: str, element: str, most: int) -> None:
    """Also what has no cells is counted, of which much is made all the same."""
    monkeypatch.setattr(workbooks, "MOST_CELLS", 20_000)
    monkeypatch.setitem(workbooks.WEIGHTS, "row", 20)
    workbooks.check_unpacked(PATH, with_part(end, element * (most - 50) + end, part))
    with pytest.raises(Mistake, match="20,000"):
        workbooks.check_unpacked(PATH, with_part(end, element * (most + 1) + end, part))


@pytest.mark.parametrize("other", [False, True], ids=["same relation", "same target"])
def test_one_part_for_all(other: bool) -> None:
    """The cells of a part are counted once, and would be made for each worksheet that names it: one alone may."""
    sheet = '<sheet xmlns:r="{}" name="S{}" sheetId="{}" state="visible" r:id="{}"/>'
    space = "http://schemas.openxmlformats.org/officeDocument/2006/relationships"
    more = "".join(sheet.format(space, at, at, "rOther" if other else "rId1") for at in range(2, 4 - other))
    data = with_part("</sheets>", f"{more}</sheets>", BOOK)
    if other:
        made = io.BytesIO()
        with zipfile.ZipFile(io.BytesIO(data)) as archive, zipfile.ZipFile(made, "w") as copy:
            for name in archive.namelist():
                text = archive.read(name).decode()
                if name == "xl/_rels/workbook.xml.rels":
                    same = re.search('<Relationship [^>]*Id="rId1"[^>]*/>', text)
                    assert same
                    text = text.replace(same[0], same[0] + same[0].replace("rId1", "rOther").replace("/xl/", ""))
                copy.writestr(name, text)
        data = made.getvalue()
    with pytest.raises(Mistake) as found:
        read_workbook(PATH, data, len, 5, "")
    assert found.value.sentences == (ODD,)


def test_rows_are_counted() -> None:
    """As many as a sheet may have are read, and more without a cell are refused."""
    workbooks.check_unpacked(PATH, with_part(END, "<row/>" * (MOST_ROWS + 10) + END))
    with pytest.raises(Mistake) as found:
        workbooks.check_unpacked(PATH, with_part(END, "<row/>" * (MOST_ROWS + 20_000) + END))
    assert found.value.sentences == (TOO_MANY,)


@pytest.mark.parametrize("sheets", [1, 2])
def test_one_part_beside_all(sheets: int) -> None:
    """Comments stand beside one worksheet alone: those of a part that two name would be made for each of them."""
    made, edited, count = io.BytesIO(), io.BytesIO(), 3
    found = openpyxl.Workbook()
    for row in (TITLES, ANIMAL):
        found.active.append(row)
    for _ in range(count - 1):
        found.create_sheet()
    for sheet in found.worksheets[:sheets]:
        sheet["A1"].comment = Comment("x", "y")
    found.save(made)
    with zipfile.ZipFile(made) as archive, zipfile.ZipFile(edited, "w") as copy:
        for name in archive.namelist():
            text = archive.read(name).decode()
            copy.writestr(name, text.replace("comment2.xml", "comment1.xml") if name.endswith(".rels") else text)
    if sheets == 1:
        assert read(edited.getvalue()).rows[1][1] == ANIMAL
        return
    with pytest.raises(Mistake) as told:
        read(edited.getvalue())
    assert told.value.sentences == (ODD,)


@pytest.mark.parametrize("is_pedigree", [False, True])
def test_import_is_bounded(tmp_path: pathlib.Path, monkeypatch: pytest.MonkeyPatch, is_pedigree: bool) -> None:
    """An import reads its sheet or pedigree within the bounds of a look, and writes the book without them."""
    seen: list[bool] = []

    def read_slowly(*_: object) -> None:
        seen.append(signal.getitimer(signal.ITIMER_VIRTUAL)[0] > 0)
        raise Mistake("read")

    monkeypatch.setattr(sheet_reading, "read_sheet", read_slowly)
    monkeypatch.setattr(pedigree_imports, "read_triples", read_slowly)
    take = pedigree_imports.import_pedigree if is_pedigree else sheet_imports.import_sheet
    with pytest.raises(Mistake, match="read"):
        file, options = GivenFile(tmp_path / "a.csv", b"id\n"), ImportOptions(tmp_path / "book")
        take(file, options, BookProgram(), bounded_reading)
    assert seen == [True] and signal.getitimer(signal.ITIMER_VIRTUAL)[0] == signal.getitimer(signal.ITIMER_PROF)[0] == 0
    assert signal.getsignal(signal.SIGVTALRM) is signal.SIG_DFL


def test_counted() -> None:
    """All cells of all worksheets are counted, and those of a text too."""
    assert cells_of("A1:C5") == cells_of("$C$5:$A$1") == cells_of("a1:c5") == 15 and cells_of("B2") == 1
    assert cells_of("A:C") is None
    rows = [SheetRow(at, ["a"] + [""] * 15_999) for at in range(MOST_CELLS // 16_000)]
    check_bounds(PATH, rows, 0)
    with pytest.raises(Mistake, match="cells"):
        check_bounds(PATH, [*rows, SheetRow(len(rows), ["a"])], 0)


def looking(work: str) -> subprocess.CompletedProcess[str]:
    """A process that looks for a tenth of a second at most."""
    code = f"from gudokeyi.bounds import bound_look\nbound_look(0.1)\n{work}"
    return subprocess.run([sys.executable, "-c", code], cwd=TOP / "src", capture_output=True, text=True, timeout=60)


def test_time() -> None:
    """A look that takes longer is ended, with a sentence; and so is one that wants very much memory."""
    done = looking("while True: pass")
    assert done.stderr.splitlines()[-1].endswith(SheetFault.TOO_SLOW.said(seconds=0))
    assert looking("b' ' * (3 << 30)").stderr.splitlines()[-1] == "MemoryError"
    assert files.MOST_ROWS * 20 == MOST_CELLS and bound_look.__defaults__ == (180.0,)
    assert signal.getsignal(signal.SIGVTALRM) is signal.SIG_DFL
