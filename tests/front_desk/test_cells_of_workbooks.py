"""Cells of `.xlsx` files whose text is struck through in part, and names and ids that a spreadsheet made a day of; the
latter also in CSV files, and ids that say that there is none yet."""
from __future__ import annotations

import datetime
import io
import re
import zipfile
from collections.abc import Callable

import openpyxl
import pytest

from front_desk.desk import Desk
from gudokeyi.ingest.struck_texts import StruckText, struck_texts

TITLES = ["N° SIRE", "Nom", "Sexe", "Né(e) le", "Père", "Mère", "Propriétaire"]
Row = list[object]
ROWS: list[Row] = [
    ["101", "Amiral", "M", "21/02/2010", None, None, "GAEC des Bruyères"],
    ["102", "Bichette", "F", "05/06/2011", None, None, "@owner"],
    ["103", "Jockey", "M", "27/06/2019", "101", "102", "EARL du Pré Fleuri"],
]
STRUCK = "<r><rPr><strike/><sz val='11'/></rPr><t xml:space='preserve'>{}</t></r>"
PLAIN = "<r><rPr><sz val='11'/></rPr><t xml:space='preserve'>{}</t></r>"
SPOKEN = "<rPh sb='0' eb='1'><t>spoken</t></rPh>"
OWNER = STRUCK.format("Moreau frères") + PLAIN.format(" Mlle Garnier ") + "<r><t>Anaïs</t></r>" + SPOKEN


def workbook(rows: list[Row], **texts: str) -> bytes:
    """A workbook of these rows, with another text by runs in place of each `@name`."""
    found, file = openpyxl.Workbook(), io.BytesIO()
    for row in [TITLES, *rows]:
        found.active.append(row)
    found.save(file)
    return with_runs(file.getvalue(), texts)


def parts_of(data: bytes) -> dict[str, str]:
    with zipfile.ZipFile(io.BytesIO(data)) as archive:
        return {name: archive.read(name).decode() for name in archive.namelist()}


def made_of(parts: dict[str, str]) -> bytes:
    made = io.BytesIO()
    with zipfile.ZipFile(made, "w") as archive:
        for name, text in parts.items():
            archive.writestr(name, text)
    return made.getvalue()


def with_runs(data: bytes, texts: dict[str, str]) -> bytes:
    parts = parts_of(data)
    for word, runs in texts.items():
        parts = {name: text.replace(f"<t>@{word}</t>", runs) for name, text in parts.items()}
    return made_of(parts)


STRINGS = "xl/sharedStrings.xml"
IN_CELL, TOGETHER = re.compile(r't="inlineStr"([^>]*)><is>(.*?)</is>'), re.compile(r't="s"([^>]*)><v>(\d+)</v>')
OF_STRINGS = (
    '<Override PartName="/xl/sharedStrings.xml" ContentType="application/vnd.openxmlformats-officedocument.'
    'spreadsheetml.sharedStrings+xml"/></Types>'
)


def together(data: bytes) -> bytes:
    """The same with the texts in a part of their own, each once, as spreadsheets write them."""
    parts, numbers = parts_of(in_cells(data)), dict[str, int]()
    for name in [name for name in parts if "worksheets/" in name]:
        parts[name] = IN_CELL.sub(
            lambda one: f't="s"{one[1]}><v>{numbers.setdefault(one[2], len(numbers))}</v>', parts[name]
        )
    texts = "".join(f"<si>{text}</si>" for text in numbers)
    parts[STRINGS] = f'<sst xmlns="http://schemas.openxmlformats.org/spreadsheetml/2006/main">{texts}</sst>'
    types = parts["[Content_Types].xml"]
    parts["[Content_Types].xml"] = types if STRINGS in types else types.replace("</Types>", OF_STRINGS)
    return made_of(parts)


def in_cells(data: bytes) -> bytes:
    """The same with the texts within the cells, as some programs write them."""
    parts = parts_of(data)
    texts = re.findall(r"<si>(.*?)</si>", parts.get(STRINGS, ""), re.DOTALL)
    for name in [name for name in parts if "worksheets/" in name and texts]:
        parts[name] = TOGETHER.sub(lambda one: f't="inlineStr"{one[1]}><is>{texts[int(one[2])]}</is>', parts[name])
    return made_of(parts)


def take(desk: Desk, data: bytes) -> str:
    (desk.room / "sheet.xlsx").write_bytes(data)
    return desk.good("import", "sheet.xlsx").told


def owners(desk: Desk) -> dict[str, str]:
    return {one["id"]: one["owner"] for one in desk.listed("list", "--columns", "id,owner")}


@pytest.mark.parametrize("written", [together, in_cells])
def test_struck_within(desk: Desk, written: Callable[[bytes], bytes]) -> None:
    """What is struck through is told, and is no part of what the cell says."""
    told = take(desk, written(workbook(ROWS, owner=OWNER)))
    assert owners(desk)["102"] == "Mlle Garnier Anaïs"
    assert (
        "to look at: a part of the text is struck through in 1 cell, G3: 'Moreau frères Mlle Garnier Anaïs' is read as "
        "'Mlle Garnier Anaïs'"
    ) in told.splitlines()
    assert "write an exit" not in told


def test_several_and_all_of_a_text(desk: Desk) -> None:
    """A text that is struck through as a whole stays, as where the cell itself is so, and is told."""
    rows: list[Row] = [*ROWS, ["104", "@name", "F", "01/02/2020", "@sire", "102", "@owner"]]
    name, sire = STRUCK.format("Lola"), STRUCK.format("103") + PLAIN.format("101")
    told = take(desk, workbook(rows, owner=OWNER, name=name, sire=sire))
    [animal] = [one for one in desk.table("book/ids.csv") if one["id"] == "104"]
    assert animal["name"] == "Lola" and desk.parents()["104"] == ("101", "102")
    assert owners(desk)["104"] == "Mlle Garnier Anaïs"
    assert {
        "to look at: a part of the text is struck through in 3 cells: 'Moreau frères Mlle Garnier Anaïs' at G3 is read "
        "as 'Mlle Garnier Anaïs', and the others alike",
        "to look at: the text of 1 cell is struck through, 'Lola' in line 5 of the column 'Nom', and is read like all "
        "others: if it is no longer right, write what is, or nothing; if the animal has left, write an exit",
    } <= {*told.splitlines()}


def test_runs_that_are_not_struck(desk: Desk) -> None:
    runs = "<r><rPr><b/><strike val='0'/></rPr><t>Moreau</t></r>" + PLAIN.format(" frères")
    told = take(desk, workbook(ROWS, owner=runs))
    assert owners(desk)["102"] == "Moreau frères" and "struck" not in told


def test_of_that_worksheet_alone() -> None:
    """Each of several worksheets has its own cells, of which some have one text together."""
    found, file = openpyxl.Workbook(), io.BytesIO()
    found.active.title = "One"
    for title, places in ("One", ["B2"]), ("Two", ["A1", "AB3"]):
        sheet = found["One"] if title == "One" else found.create_sheet(title)
        for place in places:
            sheet[place] = "@text"
        sheet["C9"] = "plain"
    found.save(file)
    for written in together, in_cells:
        data = written(with_runs(file.getvalue(), {"text": STRUCK.format("a") + PLAIN.format("b")}))
        assert struck_texts(data, "One") == {(2, 2): StruckText("ab", "b")}
        assert struck_texts(data, "Two") == {(1, 1): StruckText("ab", "b"), (3, 28): StruckText("ab", "b")}
        assert struck_texts(data, "Three") == {}


def test_days_for_texts(desk: Desk) -> None:
    """A spreadsheet's day as an id or a name is told; a text that reads so, and a day in another column aren't."""
    found, day = openpyxl.Workbook(), datetime.date(2019, 6, 5)
    for row in [TITLES, *ROWS, ["2019-05", "05-Apr", "F", day, None, None, "Huber"]]:
        found.active.append(row)
    sheet = found.active
    sheet["A2"], sheet["B4"], sheet["D3"] = datetime.datetime(2026, 12, 3), datetime.date(1968, 5, 1), day
    sheet["B4"].number_format, sheet["G3"] = "mmm-yy", "Huber"
    found.save(desk.room / "sheet.xlsx")
    told = desk.good("import", "sheet.xlsx").told
    made = "which spreadsheets make of texts such as 3/12: if something else is meant, write that as text"
    assert {one for one in told.splitlines() if made in one} == {
        f"line 2: 2026-12-03: to look at: its id is the day 2026-12-03, {made}",
        f"line 4: 103: to look at: its name is the day 1968-05, {made}",
    }


@pytest.mark.parametrize(
    "place, day, shown, dam, meant",
    [("F4", datetime.date(2026, 12, 3), "d/m", "2026-12-03", "3/12"),
     ("F4", datetime.date(2012, 3, 1), "mmm\\ yy", "2012-03", "3/12"),
     ("A3", datetime.date(2026, 12, 3), "d/m", "3/12", "2026-12-03"),
     ("A9", None, "General", "", "")],
)  # fmt: skip
def test_days_for_ids(
    desk: Desk, place: str, day: datetime.date | None, shown: str, dam: str, meant: str
) -> None:
    """An id such as 3/12 is linked where both cells are texts; where one of them is a day it is told which is meant."""
    found, born = openpyxl.Workbook(), datetime.date(2014, 3, 1)
    for row in (
        ["id", "name", "sex", "birth", "sire", "dam"], ["1/12", "Anton", "M", "2012-03-01", None, None],
        ["3/12", "Cora", "F", "2012-05-01", None, None], ["1/14", "Dora", "F", born, "1/12", "3/12"],
    ):  # fmt: skip
        found.active.append(row)
    found.active[place], found.active[place].number_format = day, shown
    found.save(desk.room / "sheet.xlsx")
    done = desk.good("import", "sheet.xlsx")
    told = f"line 4: {dam}: added: the dam of 1/14 has no row: added without parents (is {meant} meant?)"
    assert (told in done.out) == bool(dam) and (", 0 added" in done.last) == (day is None)


IN_GERMAN = "Ohrmarke;Name;Geschlecht;geb;Vater;Mutter\n"
SHOWN = ("05-Apr", "3-Dez", "avr.-68", "mai-68", "03. Dez", "Mrz-07")
NOT_SHOWN = ("Mai 68", "5 April", "Apr-2007", "12-Max", "05-April-9", "May", "1968-05", "Sun-99")


def test_days_for_texts_in_csv(desk: Desk) -> None:
    """As spreadsheets show in a text file that they made a day of a text."""
    named = "".join(f"1{at};{name};m;1.2.2019;;\n" for at, name in enumerate((*SHOWN, *NOT_SHOWN), 11))
    told = desk.take(f"{IN_GERMAN}{named}03-Dec;Eva;w;1.2.2019;;\n").told
    assert {*re.findall("its (?:name|id) is the day ([^,]*), which", told)} == {*SHOWN, "03-Dec"}
    assert "line 16: 03-Dec: to look at: its id is the day 03-Dec, which spreadsheets make of texts" in told


TO_COME = (
    "EN COURS", "in Arbeit", "pending", "tba", "(beantragt)", "à venir", "neu", "En attente…", "Ohne", "verloren",
    "keine", "nachtragen", "sans", "PERDUE", "Lost",
)  # fmt: skip
IDS = ("Pending Star", "Neuling", "Neu 7", "En Cours de Route", "X-17", "Sans Souci", "Ohneland", "Lost Star")


def test_ids_to_come(desk: Desk) -> None:
    """An id that says that there is none yet is taken, and told at each take; among many it is told once."""
    rows = "".join(f"{id};A{at};m;1.2.2019;;\n" for at, id in enumerate((*TO_COME, *IDS)))
    for _ in range(2):
        lines = desk.take(IN_GERMAN + rows).report
        found = [one for one in lines if "doesn't read like an id, but as if the animal had none yet" in one]
        assert len(found) == len(TO_COME) and all(any(f"'{id}' doesn't read" in one for one in found) for id in TO_COME)
    # words for an unknown animal are no ids either
    done = desk.take(f"{IN_GERMAN}{rows}fehlt;Q;m;1.2.2019;;\nNone;Q;m;1.2.2019;;\n")
    assert sum("is a word for an unknown animal: give it another id" in one for one in done.report) == 2
    others = "".join(f"DE {at};B{at};w;1.2.2018;;\n" for at in range(100, 130))
    done = desk.take(f"{IN_GERMAN}{others}EN COURS;Q;m;1.2.2019;;\n", "--book", "other")
    assert len({one for one in done.out.splitlines() if ": EN COURS: " in one}) == 1
    assert done.commands()[0].endswith("--no-animal 'EN COURS'")


def test_marks_for_the_cell_above(desk: Desk) -> None:
    """An id and a name that are such marks are taken, and told at each take."""
    rows = '"""";A;m;1.2.2019;;\nDito;B;m;1.2.2019;;\n1;"""";m;1.2.2019;;\n2;dito;m;1.2.2019;;\n3;Dita;m;1.2.2019;;\n'
    others = "".join(f"DE {at};B{at};w;1.2.2018;;\n" for at in range(100, 130))
    for _ in range(2):
        done = desk.take(IN_GERMAN + rows + others)
        told = "which in other columns stands for the cell above, and is taken as it is written"
        found = [one.partition(f", {told}")[0] for one in done.report if told in one]
        assert [one.split("its ")[1] for one in found] == ["id is '\"'", "id is 'Dito'", "name is '\"'", "name is 'dito'"]
        assert "unlike nearly all others" not in done.told
