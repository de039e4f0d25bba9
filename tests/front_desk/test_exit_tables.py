"""Exits that stand below a list, beside it or on another worksheet: they are read where that is sure, and told once."""
from __future__ import annotations

import datetime
import io

import openpyxl
import pytest

from front_desk.desk import Desk

TITLES = "Ohrmarke;Name;Geschlecht;Geburt;Vater;Mutter;Besitzer"
ROWS = (
    "CH01;Ann;w;01.03.2015;;;Meier", "CH02;Ben;m;02.03.2015;;;Meier", "CH03;Cal;w;03.03.2018;CH02;CH01;Meier",
    "CH04;Dan;m;04.03.2018;CH02;CH01;Huber", "CH05;Eva;w;05.03.2019;CH02;CH03;Huber", "CH06;Fee;w;06.03.2019;CH02;CH03;Huber",
)  # fmt: skip


def listed(below: list[str], exits: bool = True) -> str:
    """A list with rows below it, and with a column of exits or without."""
    rows = [TITLES + ";Abgang" * exits, *(row + ";" * exits for row in ROWS)]
    width = rows[0].count(";")
    return "".join(f"{row}{';' * (width - row.count(';'))}\n" for row in [*rows, *below])


BELOW = {
    "own column": ["Abgänge 2025:", "CH03;;;;;;;12.03.2025", "CH04;;;;;;;15.04.2025"],
    "behind the id": ["Abgänge 2025:", "CH03;12.03.2025", "CH04;15.04.2025"],
    "behind the name": ["Abgänge 2025:", "CH03;Cal;12.03.2025", "CH04;Dan;15.04.2025"],
    "without a heading": ["CH03;;;;;;;12.03.2025", "CH04;;;;;;;15.04.2025"],
    "titles of its own": ["Verstorben", "Ohrmarke;Name;Datum;Grund", "CH03;Cal;12.03.2025;Alter", "CH04;Dan;15.04.2025;Wolf"],
    "titles alone": ["Ohrmarke;gestorben am;Ursache", "CH03;12.03.2025;Alter", "CH04;15.04.2025;Wolf"],
}  # fmt: skip


@pytest.mark.parametrize("below", BELOW.values(), ids=BELOW)
def test_exits_below(desk: Desk, below: list[str]) -> None:
    done = desk.take(listed(below))
    line = 8 + len(below) - 2
    assert f"2 rows, the first in line {line}, have the ids of animals above and say no more than exits, as CH03" in done.out
    assert "left out: " not in done.out and "2025-03-12" in desk.text("book/commands.csv")
    assert len([one for one in desk.commands() if one.startswith("exit")]) == 2


def test_words_below(desk: Desk) -> None:
    done = desk.take(listed(["Abgänge 2025:", "CH03;verkauft", "CH04;geschlachtet"]), "--preview")
    assert "2 rows, the first in line 9" in done.out and "an exit without a day stands in 2 of 2 cells" in done.out


def test_no_column_for_exits(desk: Desk) -> None:
    """It is told in one line that they are left out."""
    done = desk.take(listed(["Abgänge 2025:", "CH03;12.03.2025", "CH04;15.04.2025"], exits=False), "--preview")
    assert done.out.startswith("2 rows are left out, the first in line 9, that have the ids of animals above and look like")
    assert "has this id too" not in done.out and "2 left out (2 rows)" in done.out


OTHERS = {
    "day that is told already": ["CH03;Cal;;03.03.2018"], "weights": ["CH03;12.03.2025;47 kg", "CH04;12.03.2025;51 kg"],
    "heading of vaccinations": ["Geimpft 2025:", "CH03;;;12.03.2025", "CH04;;;15.04.2025"],
    "another owner": ["CH03;;;;;;Huber", "CH04;;;;;;Meier"], "whole rows": ["CH03;Cal;w;03.03.2018;CH02;CH01;Huber;"],
}  # fmt: skip


@pytest.mark.parametrize("below", OTHERS.values(), ids=OTHERS)
def test_other_rows_again(desk: Desk, below: list[str]) -> None:
    """Rows that say anything else are told one by one, as before."""
    done = desk.take(listed(below), "--preview")
    assert "say no more than exits" not in done.out and "look like their exits" not in done.out
    assert "CH03: the row is left out" in done.out


def test_another_exit_below(desk: Desk) -> None:
    """An exit that contradicts that of the row above isn't taken."""
    text = listed(["CH03;;;;;;;12.03.2025"]).replace("CH01;Meier;\n", "CH01;Meier;01.01.2024\n", 1)
    done = desk.take(text, "--preview")
    assert "line 8: CH03: the row is left out: line 4 has this id too" in done.out


def beside(titles: str, cells: list[str], exits: bool = False) -> str:
    """A list with a table beside it."""
    rows = [TITLES + ";Abgang" * exits + titles]
    places = [*cells, *[";" * titles.count(";")] * (len(ROWS) - len(cells))]
    rows += [row + ";" * exits + cell for row, cell in zip(ROWS, places)]
    return "".join(f"{row}\n" for row in rows)


BESIDE = {
    "behind an empty column": (";;Tote;Todestag;Ursache", [";;CH03;12.03.2025;Alter", ";;CH04;15.04.2025;Wolf"]),
    "with the title of the ids": (";;Ohrmarke;Todestag", [";;CH03;12.03.2025", ";;CH04;15.04.2025"]),
    "without a gap": (";Verstorben;Todestag", [";CH03;12.03.2025", ";CH04;15.04.2025"]),
    "of animals of before": (";;Ohrmarke;Todestag", [";;CH91;12.03.2025", ";;CH92;15.04.2025"]),
}  # fmt: skip


@pytest.mark.parametrize("exits", [True, False])
@pytest.mark.parametrize("titles, cells", BESIDE.values(), ids=BESIDE)
def test_table_beside(desk: Desk, titles: str, cells: list[str], exits: bool) -> None:
    """Its days are no exits of the animals in the rows beside them."""
    done = desk.take(beside(titles, cells, exits), "--preview")
    assert "aren't read: they look like a table of its own, with 2 animals that left, the first is CH" in done.out
    assert "'Todestag' has exits" not in done.out and "exit from 'Todestag'" not in done.out


def test_columns_that_are_no_table(desk: Desk) -> None:
    """A day of death in the rows of the animals is one of theirs, whatever stands before it."""
    done = desk.take(beside(";;tot;Todestag", [";;ja;12.03.2025", ";;ja;15.04.2025"]))
    assert "a table of its own" not in done.out
    assert len([one for one in desk.commands() if one.startswith("exit")]) == 2


def workbook(title: str, rows: list[list[object]], exits: bool = False) -> bytes:
    book = openpyxl.Workbook()
    book.active.title = "Tiere"
    for row in listed([], exits).splitlines():
        book.active.append([cell or None for cell in row.split(";")])
    if exits:
        book.active.cell(4, 8, datetime.date(2025, 3, 12))
    other = book.create_sheet(title)
    for cells in rows:
        other.append(cells)
    file = io.BytesIO()
    book.save(file)
    return file.getvalue()


@pytest.mark.parametrize("title", ["Abgänge", "Verstorben", "Décès", "Abgänge 2025", "Sold"])
def test_worksheet_of_exits(desk: Desk, title: str) -> None:
    name = desk.write("sheet.xlsx", workbook(title, [["Ohrmarke", "Datum"], ["CH03", "12.03.2025"], ["CH04", "15.04.2025"]]))
    done = desk.good("import", name, "--preview")
    told = f"the worksheet '{title}' isn't read, and has 2 animals that count as living, the first is CH03 in its line 2"
    assert done.out.startswith(f"to look at: {told}")


@pytest.mark.parametrize("title, ids", [("Abgänge", ["CH03"]), ("Abgänge", ["CH91"]), ("Notizen", ["CH04"])])
def test_worksheets_of_others(desk: Desk, title: str, ids: list[str]) -> None:
    """Nothing is told of animals whose exit the list has, or which it hasn't, nor of other worksheets."""
    rows: list[list[object]] = [["Ohrmarke", "Datum"]]
    rows += [[id, "12.03.2025"] for id in ids]
    name = desk.write("sheet.xlsx", workbook(title, rows, exits=True))
    assert "count as living" not in desk.good("import", name, "--preview").out


@pytest.mark.parametrize("title, titles", [("Tote 2025", ["Mutter", "Anzahl"]), ("Tote Lämmer", ["Ohrmarke", "Anzahl"])])
def test_worksheets_of_young(desk: Desk, title: str, titles: list[object]) -> None:
    """They name the dams, who live."""
    name = desk.write("sheet.xlsx", workbook(title, [titles, ["CH03", 1], ["CH04", 2]]))
    assert "count as living" not in desk.good("import", name, "--preview").out
