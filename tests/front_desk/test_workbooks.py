"""`.xlsx` files: which worksheet, formulas without a value, numbers as ids, and days that show less."""
from __future__ import annotations

import datetime
import pathlib

import openpyxl
import openpyxl.comments
import openpyxl.styles
import pytest

from front_desk.desk import Desk

TITLES = ["Ohrmarke", "Geschlecht", "Geburtsdatum", "Vater", "Mutter"]
ROWS = [["B1", "m", "01.03.2001", None, None], ["C2", "w", datetime.date(2004, 3, 2), "B1", None]]


@pytest.fixture
def workbook() -> openpyxl.Workbook:
    """A workbook whose second worksheet has animals."""
    found = openpyxl.Workbook()
    found.active.title = "Deckblatt"
    found.active.append(["Zuchtverein", "Stand"])
    sheet = found.create_sheet("Tiere")
    for row in [TITLES, *ROWS]:
        sheet.append(row)
    return found


def save(desk: Desk, workbook: openpyxl.Workbook) -> pathlib.Path:
    path = desk.room / "sheet.xlsx"
    workbook.save(path)
    return path


def test_worksheet_whose_titles_fit(desk: Desk, workbook: openpyxl.Workbook) -> None:
    save(desk, workbook)
    done = desk.good("import", "sheet.xlsx")
    assert "the worksheet 'Tiere' of an .xlsx file; not read: 'Deckblatt'" in done.out
    assert desk.parents()["C2"] == ("B1", "")


def test_two_worksheets_fit(desk: Desk, workbook: openpyxl.Workbook) -> None:
    """Which one is taken isn't guessed."""
    other = workbook.create_sheet("Stand 2019")
    for row in [TITLES, ROWS[0]]:
        other.append(row)
    save(desk, workbook)
    told = "2 worksheets have titles that fit ('Tiere', 'Stand 2019'): say which one is taken by --worksheet; if others "
    done = desk.wrong(told, "import", "sheet.xlsx")
    assert len(done.commands()) == 2
    lacks = "has no worksheet 'Schafe', which --worksheet names: it has 'Deckblatt', 'Tiere', 'Stand 2019'"
    done = desk.wrong(lacks, "import", "sheet.xlsx", "--worksheet", "Schafe")
    assert "1 animal" in desk.typed(done.commands()[2]).last
    # the one that was named is taken again, and told, unless another one came that fits
    done = desk.good("import", "sheet.xlsx")
    assert "as last time: --worksheet 'Stand 2019' (the book remembers these)" in done.out
    assert " 0 changed" in done.last
    assert "the worksheet 'Stand 2019' of an .xlsx file; not read: 'Deckblatt', 'Tiere'" in done.out
    done = desk.good("import", "sheet.xlsx", "--worksheet", "Tiere")
    assert "--worksheet" not in done.out and " 1 new" in done.last
    assert "as last time: --worksheet Tiere" in desk.good("import", "sheet.xlsx").out
    another = workbook.create_sheet("Stand 2020")
    for row in workbook["Tiere"].values:
        another.append(row)
    save(desk, workbook)
    desk.wrong("3 worksheets have titles that fit ('Tiere', 'Stand 2019', 'Stand 2020')", "import", "sheet.xlsx")
    workbook.remove(workbook["Stand 2020"])
    workbook.remove(workbook["Stand 2019"])
    save(desk, workbook)
    assert "--worksheet" not in desk.good("import", "sheet.xlsx").out


def test_formula_without_value(desk: Desk, workbook: openpyxl.Workbook) -> None:
    workbook["Tiere"]["D3"] = "=A2"
    save(desk, workbook)
    told = "the worksheet 'Tiere' has 1 formula without a value, the first in the cell D3: open the file in the spreadsheet"
    desk.wrong(told, "import", "sheet.xlsx")


def test_numbers_as_ids(desk: Desk, workbook: openpyxl.Workbook) -> None:
    """They keep their digits, also zeros that a format shows."""
    sheet = workbook["Tiere"]
    sheet["A2"], sheet["D3"] = 276001234567801, 276001234567801.0
    sheet["A3"] = 17
    sheet["A3"].number_format = "00000"
    save(desk, workbook)
    desk.good("import", "sheet.xlsx")
    assert desk.parents() == {"276001234567801": ("", ""), "00017": ("276001234567801", "")}
    sheet["A2"] = 9_276_001_234_567_801
    save(desk, workbook)
    desk.wrong("has 1 number of more than 15 digits, of which a spreadsheet loses the last, the first in the cell A2",
               "import", "sheet.xlsx", "--book", "other")  # fmt: skip


@pytest.mark.parametrize(
    "number_format, id",
    [('"DE 01 "0000000', "DE 01 0000017"), ('"DE "00\\ 00\\ 000', "DE 00 00 017"), ("\\D\\E #", "DE 17"),
     ('0" kg"', "17"), ('"A"0.00', "17"), ("000 000", "17")],
)  # fmt: skip
def test_text_of_a_format(desk: Desk, workbook: openpyxl.Workbook, number_format: str, id: str) -> None:
    """A number is shown with the text before it; an amount, or a unit behind it, is no part of an id."""
    workbook["Tiere"]["A3"] = 17
    workbook["Tiere"]["A3"].number_format = number_format
    save(desk, workbook)
    desk.good("import", "sheet.xlsx")
    assert id in desk.parents()


def test_days_that_show_less(desk: Desk, workbook: openpyxl.Workbook) -> None:
    """A day whose format shows the year alone is no full day."""
    sheet = workbook["Tiere"]
    sheet["C2"], sheet["C3"] = datetime.date(2001, 1, 1), datetime.date(2004, 3, 1)
    sheet["C2"].number_format, sheet["C3"].number_format = "yyyy", "mmm yyyy"
    save(desk, workbook)
    desk.good("import", "sheet.xlsx")
    assert [row["birth"] for row in desk.table("book/ids.csv")] == ["from the year 2001", "from the month 2004-03"]


def test_what_cells_show_besides(desk: Desk, workbook: openpyxl.Workbook) -> None:
    """Notes at cells and text that is struck through are told, since neither is read."""
    sheet = workbook["Tiere"]
    sheet["D3"].comment = openpyxl.comments.Comment("laut Probe\nnicht der Vater", "Huber")
    sheet["A1"].font = openpyxl.styles.Font(bold=True)
    save(desk, workbook)
    done = desk.good("import", "sheet.xlsx")
    done.tells(
        "to look at: 1 cell has a note, which isn't read: 'laut Probe nicht der Vater' at D3; write in cells what the "
        "book is to have"
    )
    assert "struck through" not in done.told
    for cell in sheet[3]:
        cell.font = openpyxl.styles.Font(strike=True)
    sheet["E2"].font = openpyxl.styles.Font(strike=True)
    sheet["A2"].comment = openpyxl.comments.Comment("neu", "Huber")
    save(desk, workbook)
    desk.good("import", "sheet.xlsx").tells(
        "to look at: 2 cells have a note, which isn't read, the first 'neu' at A2; write in cells what the book is to "
        "have",
        "to look at: text is struck through in 1 row, line 3, which is taken like all others: if its animal has left, "
        "write an exit",
    )
    for at in range(4, 30):
        for column, text in enumerate((f"X{at}", "f", "2010-01-01", "B1", ""), 1):
            sheet.cell(at, column, text).font = openpyxl.styles.Font(strike=at % 2 or at > 18)
    save(desk, workbook)
    lines = ", ".join(map(str, [*range(3, 19, 2), *range(19, 30)]))
    told = f"to look at: text is struck through in 19 rows, in the lines {lines}, which are taken like all others: "
    desk.good("import", "sheet.xlsx").tells(f"{told}if their animals have left, write exits")
    for cell in (*sheet[4][1:], *sheet[6]):
        cell.font = openpyxl.styles.Font(strike=True)
    save(desk, workbook)
    assert "in 21 rows, in the lines 3, 4, 5, 6, 7, 9," in (last := desk.good("import", "sheet.xlsx").told)
    assert ", 27, 28 and 1 more, which are taken like all others" in last


def test_struck_cells(desk: Desk, workbook: openpyxl.Workbook) -> None:
    """A cell that is struck through is told as that, where most of its row isn't; one of a title too."""
    sheet = workbook["Tiere"]
    sheet["F1"], sheet["F3"], sheet["G3"], sheet["H3"] = "Besitzer", "Huber", "Meier", datetime.date(2020, 5, 1)
    sheet["F3"].font = openpyxl.styles.Font(strike=True)
    save(desk, workbook)
    advice = "no longer right, write what is, or nothing; if"
    done = desk.good("import", "sheet.xlsx")
    done.shows(
        "to look at: the text of 1 cell is struck through, 'Huber' in line 3 of the column 'Besitzer', and is read like "
        f"all others: if it is {advice} the animal has left, write an exit"
    )
    assert "in 1 row" not in done.told
    assert {"id": "C2", "owner": "Huber"} in desk.listed("list", "--columns", "id,owner")
    for place in ("D1", "F2", "H3", "A4", "A7"):
        sheet[place].font = openpyxl.styles.Font(strike=True)
    sheet["A4"], sheet["B4"], sheet["C4"], sheet["A7"] = "D3", "w", "2005", "--- Bestand 2019 ---"
    save(desk, workbook)
    desk.good("import", "sheet.xlsx").shows(
        "to look at: the texts of 4 cells are struck through, 'Vater' in line 1 of the column 'Vater', 'Huber' in line "
        "3 of the column 'Besitzer', '2020-05-01' in line 3 of the column 'H' and 1 more, and are read like all others: "
        f"if one is {advice} an animal has left, write an exit"
    )


GREYS = (
    openpyxl.styles.Color(rgb="FFB2B2B2"), openpyxl.styles.Color(theme=0, tint=-0.25),
    openpyxl.styles.Color(theme=2), openpyxl.styles.Color(indexed=22),
)  # fmt: skip


@pytest.mark.parametrize("grey", GREYS)
def test_grey_rows(desk: Desk, workbook: openpyxl.Workbook, grey: openpyxl.styles.Color) -> None:
    """Animals' rows that are filled grey are told once, however the colour is written; grey titles, headings and
    columns are none, and nor is every second row."""
    sheet, fill = workbook["Tiere"], openpyxl.styles.PatternFill("solid", fgColor=grey)
    for at in range(4, 30):
        for column, text in enumerate((f"X{at}", "f", "2010-01-01", "B1", ""), 1):
            sheet.cell(at, column, text)
    for cell in sheet[5]:
        cell.value = "--- Jahrgang 2010 ---" if cell.column == 1 else None
    for cell in [*sheet[1], *sheet["B"], *sheet[5], *sheet[7], *sheet[9][1:], sheet["C12"]]:
        cell.fill = fill
    for cell in sheet[11]:
        cell.fill = openpyxl.styles.PatternFill("solid", fgColor="FFFFCC00")
    save(desk, workbook)
    said = (
        "2 rows have a grey fill, the first is line 7: nothing is read from it; if that marks animals that have left, "
        "write exits"
    )
    done = desk.good("import", "sheet.xlsx")
    assert done.out.count("a grey fill") == 1 and f"to look at: {said}" in done.out
    for cell in (one for row in (*range(2, 9), *range(10, 30)) for one in sheet[row] if row % 2):
        cell.fill = fill
    save(desk, workbook)
    assert "grey fill" not in desk.good("import", "sheet.xlsx", "--book", "striped").out


RED = openpyxl.styles.PatternFill("solid", fgColor="FFFF0000")
COLORS = (
    openpyxl.styles.Color(rgb="FF92D050"), openpyxl.styles.Color(theme=5, tint=0.6), openpyxl.styles.Color(indexed=5),
)  # fmt: skip


@pytest.mark.parametrize("color", COLORS)
def test_colored_rows(desk: Desk, workbook: openpyxl.Workbook, color: openpyxl.styles.Color) -> None:
    """The few animals' rows that have a colour are told once, also where all others have another one; titles, columns
    and single cells are none, and nor are rows that are many, or have many colours."""
    sheet, fill = workbook["Tiere"], openpyxl.styles.PatternFill("solid", fgColor=color)
    for at in range(4, 40):
        for column, text in enumerate((f"X{at}", "f", "2010-01-01", "B1", ""), 1):
            sheet.cell(at, column, text)
    for cell in [*sheet[1], *sheet["B"], *sheet[7], *sheet[9][1:], sheet["C12"]]:
        cell.fill = fill
    save(desk, workbook)
    told = "a fill of another colour than the others"
    said = f"2 rows have {told}, the first is line 7: nothing is read from it; if it means something, as that animals have"
    done = desk.good("import", "sheet.xlsx")
    assert done.out.count(told) == 1 and f"to look at: {said} left, enter that in a column" in done.out
    for at in range(1, 40):
        for cell in sheet[at]:
            cell.fill = RED if at == 8 else fill
    save(desk, workbook)
    assert f"1 row has {told}, line 8: nothing" in desk.good("import", "sheet.xlsx", "--book", "green").out
    for at in range(9, 16):
        for cell in sheet[at]:
            cell.fill = RED
    save(desk, workbook)
    assert f"8 rows have {told}, the first is line 8" in desk.good("import", "sheet.xlsx", "--book", "red").out
    for at in range(1, 40):
        for cell in sheet[at]:
            cell.fill = openpyxl.styles.PatternFill("solid", fgColor=f"FF00{at // 3:02}FF")
    save(desk, workbook)
    assert told not in desk.good("import", "sheet.xlsx", "--book", "of-owners").out


def test_hidden_rows(desk: Desk, workbook: openpyxl.Workbook) -> None:
    """Animals' rows that are hidden are told once, however they are, and taken; empty rows are none."""
    sheet = workbook["Tiere"]
    for at in range(4, 12):
        for column, text in enumerate((f"X{at}", "f", "2010-01-01", "B1", ""), 1):
            sheet.cell(at, column, text)
    sheet.row_dimensions[7].hidden = sheet.row_dimensions[20].hidden = True
    sheet.row_dimensions.group(9, 10, hidden=True)
    save(desk, workbook)
    said = (
        "to look at: 3 rows are hidden, the first is line 7: they are taken like all others; if their animals have "
        "left, write exits"
    )
    done = desk.good("import", "sheet.xlsx")
    assert done.out.count("hidden") == 1 and said in done.out and {"X7", "X9", "X10"} <= desk.born().keys()


def test_names_like_truth_values(desk: Desk, workbook: openpyxl.Workbook) -> None:
    """A name that a spreadsheet took for a truth value is kept as that shows it, and told."""
    sheet = workbook["Tiere"]
    for at, (name, embryo) in enumerate([("Name", "ET"), (True, True), ("True Love", False)], 1):
        sheet.cell(at, 6, name)
        sheet.cell(at, 7, embryo)
    save(desk, workbook)
    done = desk.good("import", "sheet.xlsx")
    made = "which spreadsheets make of some words: if something else is meant, write that as text"
    done.tells(f"line 2: B1: to look at: its name is TRUE, {made}")
    assert sum(made in sentence for sentence in done.report) == 1
    assert [row["name"] for row in desk.table("book/ids.csv")] == ["TRUE", "True Love"]
    done = desk.take("id;name;sex;birth;sire;dam;owner\nB1;VRAI;m;2001-03-01;;;FALSCH\nC2;True;f;2004-03-02;B1;;Huber\n")
    done.tells(f"line 2: B1: to look at: its name is VRAI, {made}", f"line 2: B1: to look at: its owner is FALSCH, {made}")
    assert sum(made in sentence for sentence in done.report) == 2


def test_animals_of_two_worksheets(desk: Desk, workbook: openpyxl.Workbook) -> None:
    """Those of the second are added by the word that the refusal says."""
    tiere, gone = workbook["Tiere"], workbook.create_sheet("Abgänge")
    gone.append(TITLES)
    rows = [[f"X{at}", "w", f"{1 + at % 28}.02.2010", None, None] for at in range(30)]
    for sheet, its in (tiere, rows), (gone, rows[:4]):
        for row in its:
            sheet.append(row)
    save(desk, workbook)
    desk.good("import", "sheet.xlsx", "--worksheet", "Tiere")
    count = len(desk.ids())
    refused = desk.run("import", "sheet.xlsx", "--worksheet", "Abgänge")
    assert refused.status == 1 and "say --append, by which the others stay" in refused.err
    desk.good("import", "sheet.xlsx", "--worksheet", "Abgänge", "--append")
    assert len(desk.ids()) == count


def test_worksheet_with_other_animals(desk: Desk, workbook: openpyxl.Workbook) -> None:
    """One that isn't read is told where it has animals that neither the other one nor the book has, with the command
    that takes them; one that has the same ones isn't, nor one of other things."""
    gone, people = workbook.create_sheet("Abgänge"), workbook.create_sheet("Mitglieder")
    for row in [TITLES, ROWS[0], ["X7", "w", "1.2.2005", None, None], ["X8", "m", "1.3.2005", None, "X7"]]:
        gone.append(row)
    workbook["Tiere"]["F1"] = "Name"
    for row in [["Nr", "Name", "Besitzer"], [7, "Huber", "ja"], [8, "Meier", "ja"]]:
        people.append(row)
    save(desk, workbook)
    done = desk.good("import", "sheet.xlsx")
    told = (
        "to look at: the worksheet 'Abgänge' isn't read, and has 2 animals that are neither on this one nor in the book, "
        "the first is X7: one worksheet is read at a time; to take them too, import the file again for that one"
    )
    done.shows(told)
    assert "'Mitglieder' isn't read, and" not in done.told
    [command] = [one for one in done.commands() if "--append" in one]
    assert "4 animals, 2 new" in desk.typed(command.partition(" && ")[2] or command).last
    assert "neither on this one" not in desk.good("import", "sheet.xlsx", "--worksheet", "Tiere", "--append").told


def test_worksheet_that_is_part(desk: Desk, workbook: openpyxl.Workbook) -> None:
    """A second worksheet that lacks most animals of the book is refused, with the command that adds it."""
    part = workbook.create_sheet("Abgänge")
    part.append(TITLES)
    for sheet, count in (workbook["Tiere"], 30), (part, 4):
        for at in range(count):
            sheet.append([f"X{at}", "w", f"{1 + at % 28}.02.2010", None, None])
    save(desk, workbook)
    desk.good("import", "sheet.xlsx", "--worksheet", "Tiere")
    refused = desk.run("import", "sheet.xlsx", "--worksheet", "Abgänge")
    [command] = [one for one in refused.commands() if "--append" in one]
    assert "32 animals, 0 new" in desk.typed(command).last
