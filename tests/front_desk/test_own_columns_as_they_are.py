"""The society's own columns in sheets as spreadsheets leave them: no good value is replaced by what a spreadsheet made
of it without a word, cells are kept as they are shown, and what was erased or changed is told as that."""
from __future__ import annotations

import datetime

import openpyxl
import pytest

from front_desk.desk import Desk
from gudokeyi.domain.messages import MOST_NAMED
from gudokeyi.ingest.number_formats import shown_number
from gudokeyi.ingest.shown_cells import shown_day
from gudokeyi.services.book_program import BookProgram
from gudokeyi.services.imports import Import, ImportOptions
from gudokeyi.services.sheet_previews import changes_by_animal

TITLES = "id;name;sex;birth;sire;dam;owner;{}\n"
CHIPS = [f"9810200015442{at}" for at in range(10, 40)]


def dogs(title: str, values: list[str]) -> str:
    """A sheet with a column of its own."""
    rows = (f"a{at:02};Dog {at};f;2012-05-13;;;Mrs X;{value}\n" for at, value in enumerate(values, 1))
    return TITLES.format(title) + "".join(rows)


def values(desk: Desk, title: str) -> list[str]:
    return [row[title] for row in desk.listed("export") if row["id"]]


def as_cut(count: int, text: str) -> str:
    many = f"{count} cells of the column 'Chip' are left out, the first in line 2"
    begins = many if count > 1 else "1 cell of the column 'Chip' is left out, in line 2"
    return (
        f"{begins}: '{text}' is a long number that the spreadsheet has cut; the book keeps what it has: give the column "
        "the format text, or number without decimals, save the sheet again, and take that"
    )


@pytest.mark.parametrize("kind", ["text", "number", "choice"])
@pytest.mark.parametrize("cut", ["9.8102E+14", "9,81E+14", "9.8102e+14"])
def test_numbers_that_are_cut(desk: Desk, kind: str, cut: str) -> None:
    """They are told in one line with their count, the book keeps what it has, and a new animal gets none."""
    desk.take(dogs("Chip", CHIPS), "--own", f"Chip={kind}")
    done = desk.take(dogs("Chip", [cut] * 31))
    assert values(desk, "Chip") == [*CHIPS, ""]
    done.shows(as_cut(31, cut), "own columns: 'Chip' (31 cut)")
    assert done.told.count(cut) == 2 and ", 1 new, 0 changed, " in done.last and ", 31 left out (31 cells)" in done.last
    # they are told as long as they stand there, and whoever wants nothing left out is told before
    assert as_cut(31, cut) in desk.take(dogs("Chip", [cut] * 31)).out
    desk.wrong(as_cut(1, cut), "import", desk.write("sheet.csv", dogs("Chip", [cut, *CHIPS[1:], ""])), "--strict")
    # what the spreadsheet didn't cut is taken
    done = desk.take(dogs("Chip", [*CHIPS, CHIPS[0]]))
    assert "has cut" not in done.out and values(desk, "Chip")[-1] == CHIPS[0] and " 0 left out" in done.last


@pytest.mark.parametrize(
    "kind, good, advice",
    [("number", "12,5", "write numbers alone, as 12.5"), ("day", "1.2.2013", "write days as 2001-03-01 or 01.03.2001"),
     ("yes-no", "ja", "write yes or no")],
)  # fmt: skip
def test_many_cells_that_cannot_be_read(desk: Desk, kind: str, good: str, advice: str) -> None:
    """They are told in one line with the first of them; the report has each, and the book keeps what it has."""
    desk.take(dogs("Weight", [good] * 3), "--own", f"Weight={kind}")
    before = values(desk, "Weight")[0]
    cells = [good, *(f"ca. {at} kg" for at in range(40)), ""]
    done = desk.take(dogs("Weight", cells), "--own", f"Weight={kind}")
    first = done.out.partition("rows below the titles")[0]
    told = (
        f"to look at: 40 of 41 cells of the column 'Weight' ({kind}) can't be read, the first in line 3: 'ca. 0 kg'; "
        f"of these animals the book keeps what it has: {advice}, or keep the column as text"
    )
    assert first.splitlines()[0] == told and first.count("ca. ") == 1
    done.shows("own columns: 'Weight' (40 unread)")
    each = [row for row in desk.table("book/report.csv") if row["what"] == "left out"]
    assert [(row["line"], row["id"]) for row in each] == [(f"{at}", f"a{at - 1:02}") for at in range(3, 43)]
    assert each[39]["why"] == f"its cell in 'Weight' is left out: 'ca. 39 kg' can't be read as {kind}"
    assert values(desk, "Weight") == [before] * 3 + [""] * 39
    # whoever means texts says so once
    [command] = done.commands()
    assert command.count("--own") == 1
    desk.typed(command)
    assert values(desk, "Weight") == [before, *cells[1:]]
    # of one cell it is told as of one
    looked = desk.take(dogs("Weight", [good, "heavy"]), "--own", f"Weight={kind}", "--book", "two")
    assert f"1 of 2 cells of the column 'Weight' ({kind}) can't be read, in line 3: 'heavy'; of this" in looked.out


def test_counts_of_values(desk: Desk) -> None:
    """New values, changed ones and emptied ones are each counted, on the screen of a take too, and the first are told
    with their lines and what was there before."""
    desk.take(dogs("Hips", ["5/4", "6/6", "7/7", ""]), "--own", "Hips=text").shows("own columns: 'Hips' (3 new)")
    text = dogs("Hips", ["", "16/6", "7/7", "8/8", "9/9"])
    looked = desk.good("import", desk.write("sheet.csv", text), "--preview")
    done = desk.take(text)
    told = [
        "changed: the column 'Hips' (text) has 2 new values", "changed: the column 'Hips' (text) has 1 changed value",
        "changed: the column 'Hips' (text) has 1 emptied value", "line 2: a01: changed: Hips: none; before: 5/4",
        "line 3: a02: changed: Hips: 16/6; before: 6/6",
    ]  # fmt: skip
    looked.shows(*told, "own columns: 'Hips' (2 new, 1 changed, 1 emptied)")
    done.tells(*told)
    done.shows("own columns: 'Hips' (2 new, 1 changed, 1 emptied)")
    # the animal that is new isn't changed
    assert ", 1 new, 3 changed, " in done.last and ", 1 new, 3 changed, " in looked.last
    assert "3 changed" in desk.good("history").out
    assert "own columns" not in desk.take(text).out and " 0 changed" in desk.take(text).last
    assert values(desk, "Hips") == ["", "16/6", "7/7", "8/8", "9/9"]


def test_many_values(desk: Desk) -> None:
    """Of many values that are changed the first are told, and all are counted."""
    count = MOST_NAMED + 5
    desk.take(dogs("Hips", [f"{at}/1" for at in range(2 * count)]), "--own", "Hips=text")
    named = dogs("Hips", [f"{at}/2" for at in range(count)] + [""] * count).replace(";Dog", ";Hound")
    looked = desk.good("import", desk.write("sheet.csv", named), "--preview").out.splitlines()
    # what is told of columns takes no place of what is told of animals
    assert sum(": changed: " in line for line in looked) == 25
    assert sum(line.startswith("changed: the column 'Hips'") for line in looked) == 2
    done = desk.take(dogs("Hips", [f"{at}/2" for at in range(count)] + [""] * count))
    done.shows(f"own columns: 'Hips' ({count} changed, {count} emptied)")
    assert f", {2 * count} changed, " in done.last
    assert sum("/2; before: " in line for line in done.report) == MOST_NAMED
    assert sum("Hips: none; before: " in line for line in done.report) == MOST_NAMED
    # several columns in one line
    sheet = TITLES.format(";".join(f"C{at}" for at in range(7))) + "a01;Dog 1;f;2012-05-13;;;Mrs X" + ";x" * 7 + "\n"
    done = desk.take(sheet, "--anyway", *(word for at in range(7) for word in ("--own", f"C{at}=text")))
    done.shows("own columns: " + ", ".join(f"'C{at}' (1 new)" for at in range(5)) + " and 2 more")
    # those first of which something goes
    done = desk.take(sheet.replace(";x\n", ";\n").replace(";x;x;x", ";y;y;y", 1))
    done.shows("own columns: 'C6' (1 emptied), 'C0' (1 changed), 'C1' (1 changed), 'C2' (1 changed)")


def workbook(desk: Desk, cells: list[tuple[object, str]], title: str = "Score") -> str:
    """A workbook with a column of its own, of whose cells the value and the format are these."""
    book = openpyxl.Workbook()
    sheet = book.active
    sheet.append(TITLES.strip().format(title).split(";"))
    for at, (value, number_format) in enumerate(cells, 1):
        sheet.append([f"a{at:02}", f"Dog {at}", "f", datetime.date(2012, 5, 13), None, None, "Mrs X", value])
        sheet.cell(at + 1, 8).number_format = number_format
    book.save(desk.room / "sheet.xlsx")
    return "sheet.xlsx"


FIFTH = datetime.date(2022, 4, 5)
# a value with its format, what a column of texts keeps, and what is read elsewhere
SHOWN: list[tuple[object, str, str, str]] = [
    (123, '0000"CK"', "0123CK", "123"),
    (FIFTH, "d/m", "5/4", "2022-04-05"),
    (FIFTH, "[$-407]dd\\.mm\\.;@", "05.04.", "2022-04-05"),
    (0.25, "0%", "25%", "0.25"),
    (41, '0" kg"', "41 kg", "41"),
    (41.5, '0.0" kg"', "41.5 kg", "41.5"),
    # a format that doesn't show all of a number takes nothing away
    (41.5, '0" kg"', "41.5", "41.5"),
    (0.255, "0%", "0.255", "0.255"),
    (FIFTH, "dd/mm/yyyy", "2022-04-05", "2022-04-05"),
    (1234, '#,##0 "EUR"', "1234", "1234"),
    (7, "General", "7", "7"),
    # no spreadsheet has a format of so many letters
    (7, f'0"{"k" * 260}"', "7", "7"),
]  # fmt: skip


def test_cells_as_they_are_shown(desk: Desk) -> None:
    """A column of texts keeps what the spreadsheet shows, and others what is read of it."""
    cells = [(value, number_format) for value, number_format, _, _ in SHOWN]
    sheet = workbook(desk, cells)
    done = desk.good("import", sheet, "--own", "Score=text")
    assert values(desk, "Score") == [shown for _, _, shown, _ in SHOWN]
    done.shows("own columns: 'Score' (12 new)")
    assert "own columns" not in desk.good("import", sheet).out
    desk.good("import", sheet, "--own", "Score=choice", "--book", "other")
    choices = desk.good("own", "--book", "other").out
    assert "0123CK" in choices and "25%" in choices
    numbers = [(value, number_format) for value, number_format, _, read in SHOWN if "-" not in read]
    desk.good("import", workbook(desk, numbers), "--own", "Score=number", "--book", "third")
    rows = desk.listed("export", "--book", "third")
    assert [row["Score"] for row in rows] == [read for *_, read in SHOWN if "-" not in read]


def test_shown_in_a_merged_cell(desk: Desk) -> None:
    """It stands for each of the rows."""
    path = desk.room / workbook(desk, [(123, '0000"CK"'), (None, "General")])
    book = openpyxl.load_workbook(path)
    book.active.merge_cells("H2:H3")
    book.save(path)
    desk.good("import", "sheet.xlsx", "--own", "Score=text")
    assert values(desk, "Score") == ["0123CK", "0123CK"]


@pytest.mark.parametrize(
    "value, number_format, shown",
    [
        (25, '0"%"', "25%"), (5, "0.0%", "500.0%"), (123456, '00" "00" "00"x"', "12 34 56x"), (17, '"A"0.00', "A17.00"),
        (12, '[<10]0" x";0" y"', ""), (-3, '0"x"', ""), (float("inf"), '0"x"', ""), (17, "0000", ""), (1, "# ?/?", ""),
        (3, 'General" kg"', "3 kg"), (0.5, '0.#"x"', ""), (1, f'0.{"0" * 40}"x"', ""),
        (999_999_999_999_999, f'0.{"0" * 10}"x"', f"999999999999999.{'0' * 10}x"),
    ],
)  # fmt: skip
def test_shown_number(value: float, number_format: str, shown: str) -> None:
    assert shown_number(value, number_format) == shown


@pytest.mark.parametrize(
    "number_format, shown",
    [("m/d", "4/5"), ("d-mmm", "5-Apr"), ("[$-407]d\\. mmmm;@", "5. April"), ("dd/mm", "05/04"), ("mmm-yy", ""),
     ("d.m.yyyy", ""), ("dddd d/m", ""), ("d/m h:mm", ""), ("mm", ""), ("General", "")],
)  # fmt: skip
def test_shown_day(number_format: str, shown: str) -> None:
    assert shown_day(FIFTH, number_format) == shown


@pytest.mark.parametrize(
    "cells, told",
    [
        (["05-Apr", "14/12", "6/6"], "1 cell of the column 'Hips' reads like a day: '05-Apr' in line 2"),
        (["14/12", "5. Apr", "6.Mai", ""], "2 cells of the column 'Hips' read like days, the first '5. Apr' in line 3"),
        (["avr.-13", "14/12"], "1 cell of the column 'Hips' reads like a day: 'avr.-13' in line 2"),
        (["14/12", "2022-04-05", "6/6"], "1 cell of the column 'Hips' reads like a day: '2022-04-05' in line 3"),
        (["2022-04-05", "2021-04-05", "not yet"], ""),
        (["2013-04", "2013-05", "x"], ""),
        (["14/12", "6/6", "Apr", "5 years"], ""),
    ],
)
def test_days_among_texts(desk: Desk, cells: list[str], told: str) -> None:
    """A day that a spreadsheet may have made of a text is told when it comes, and it is kept."""
    done = desk.take(dogs("Hips", cells), "--own", "Hips=text")
    first = done.out.partition("rows below the titles")[0]
    assert told in first and ("reads like" in first or "read like" in first) == bool(told)
    assert "makes a day" in first or "makes days" in first or not told
    assert values(desk, "Hips") == cells
    assert "like a day" not in desk.take(dogs("Hips", cells)).out


def test_days_of_workbooks_among_texts(desk: Desk) -> None:
    """As spreadsheets show what they made of 5/4 themselves."""
    cells: list[tuple[object, str]] = [(FIFTH, "d-mmm"), ("14/12", "General"), ("6/6", "General")]
    done = desk.good("import", workbook(desk, cells), "--own", "Score=text")
    assert "1 cell of the column 'Score' reads like a day: '5-Apr' in line 2; a spreadsheet makes a day of" in done.out
    # of a column of days none is told
    assert "reads like" not in desk.good("import", "sheet.xlsx", "--own", "Score=day", "--book", "other").out


def test_what_a_look_has_of_each_animal(desk: Desk, program: str, monkeypatch: pytest.MonkeyPatch) -> None:
    """It has all values that change, and not which of them are told: that hangs on those of other animals."""
    monkeypatch.setenv("HERDBOOK", program)
    count = MOST_NAMED + 1
    desk.take(dogs("Hips", [f"{at}/1" for at in range(count)]), "--own", "Hips=text")
    path = desk.room / desk.write("sheet.csv", dogs("Hips", [f"{at}/2" for at in range(count)]))

    def looked() -> dict[str, bytes]:
        outcome, _ = Import(path, ImportOptions(desk.room / "book", preview=True)).made(BookProgram())
        return changes_by_animal(outcome, False)

    before = looked()
    desk.good("own", "a01", "Hips=0/2")
    now = looked()
    assert {id for id in before if before[id] != now.get(id)} == {"a01"} and len(before) == count
