"""Notes on an animal and the society's own columns, as a secretary keeps them: written, found, brought back, and never
lost by two who write at once."""
from __future__ import annotations

import pathlib
import re
from collections.abc import Iterator

import openpyxl
import pytest
from selenium import webdriver

from front_desk.desk import Desk
from front_desk.test_corrections import SHEET
from web.screen import Screen
from web.sent_forms import corrected, written_in
from web.server import Server
from web.site import Site, shown, site_of

ANNA = "HOLGBRF000000000004"
# two columns that a book doesn't know
KEPT = "".join(
    f"{line},{said}\n" for line, said in zip(SHEET.splitlines(), ["CAE,Gewicht", "negativ,12.5", "positiv,12", ",viel"])
) + "".join(f"{line},,\n" for line in SHEET.splitlines()[4:])


@pytest.fixture
def goats(desk: Desk) -> Desk:
    desk.take(SHEET)
    return desk


@pytest.fixture
def site(goats: Desk, program: str, tmp_path: pathlib.Path) -> Iterator[Site]:
    with site_of(goats.room / "book", program, tmp_path / "dropped") as found:
        found.get("/language/de")
        yield found


def note_of(site: Site, text: str, **more: str) -> str:
    """Sends the form of a note, and answers the page behind it."""
    form = written_in(site.page(f"/animal/{ANNA}/note" + (f"?note={more['note']}" if "note" in more else "")))
    shown_text = {"shown-text": more.pop("shown_text")} if "shown_text" in more else {}
    answer = site.post(f"/animal/{ANNA}/note", **corrected(form, text=text, **shown_text, **more))
    return site.page(f"/animal/{ANNA}") if answer.status_code == 302 else answer.get_data(as_text=True)


def test_notes(site: Site, goats: Desk) -> None:
    """A note has its day and author; it is found, changed, removed and brought back, and the history has each."""
    assert "CAE-Test angeordnet" in shown(note_of(site, "CAE-Test angeordnet", day="02.03.2024"))
    assert "1 Tier" in shown(site.page("/animals?words=cae-test"))
    assert "A1 CAE-Test angeordnet" in shown(site.page("/animals?words=angeord"))
    assert "CAE-Test" not in shown(site.page("/animals?words=A1"))
    page = shown(note_of(site, "CAE-Test: negativ", note="1"))
    assert "02.03.2024, " in page and "Notiz: CAE-Test: negativ (vorher: CAE-Test angeordnet" in page
    assert "Jemand hat diese Notiz inzwischen geändert" in shown(note_of(site, "x", note="1", shown_text="alt"))
    assert "höchstens 2000" in shown(note_of(site, "lang " * 1_000)).replace(".", "")
    page = shown(note_of(site, "CAE-Test: negativ", note="1", remove="1"))
    assert "Die Notiz ist entfernt: Änderung 4." in page and "Notiz: – (vorher: CAE-Test: negativ" in page
    assert "schrieb eine Notiz : A1" in shown(site.page("/history/4"))
    goats.good("undo")
    assert "1" == re.findall(r"Notizen (\d)", shown(site.page(f"/animal/{ANNA}")))[0]
    goats.good("undo", "--to", "1")
    goats.good("verify")
    assert "angeordnet" not in shown(site.page(f"/animal/{ANNA}")).partition("Verlauf")[0]


def test_columns_of_a_sheet(site: Site, goats: Desk) -> None:
    """A sheet's other columns are asked for once, kept, shown, searched, filtered and listed; an older cell doesn't
    override what somebody wrote."""
    address = site.drop("kept.csv", KEPT.encode())
    page = site.page(address)
    assert "Andere Spalten Das" not in page and "Diese kennt das Herdbuch nicht." in shown(page)
    titles = dict(re.findall(r'name="(other-title-\d+)" value="([^"]+)"', page))
    kinds = {"CAE": "choice", "Gewicht": "number"}
    said = {name.replace("title", "kind"): kinds[title] for name, title in titles.items()}
    site.post(f"{address}/columns", **titles, **said)
    page = shown(site.page(address))
    assert "die Spalte „CAE“ (Auswahl) hat 2 neue Werte" in page
    assert "seine Zelle in „Gewicht“ ist ausgelassen: „viel“ lässt sich nicht als Zahl lesen" in page
    site.take(address)
    ids = [line.split(",")[0] for line in SHEET.splitlines()]
    assert [row["id"] for row in goats.listed("export") if row["CAE"] == "negativ"] == [ids[1]]
    assert [row["Gewicht"] for row in goats.listed("export") if row["id"] in ids[1:4]].count("12.5") == 1
    with site.desk.opened() as book:
        assert book
        number = book.society_records[ids[1]].registration_number
    page = shown(site.page(f"/animal/{number}"))
    assert "CAE negativ Gewicht 12,5" in page and "CAE: negativ (vorher: –" in page
    form = written_in(site.page(f"/animal/{number}/own"))
    wrong = site.post(f"/animal/{number}/own", **corrected(form, **{"own-1": "positiv", "own-2": "schwer"}))
    assert wrong.status_code == 400 and "Gewicht: „schwer“ ist keine Zahl" in shown(wrong.get_data(as_text=True))
    assert written_in(wrong.get_data(as_text=True))["own-2"] == "schwer"
    assert site.post(f"/animal/{number}/own", **corrected(form, **{"own-1": "positiv"})).status_code == 302
    second = site.post(f"/animal/{number}/own", **corrected(form, **{"own-1": "negativ", "own-2": "13"}))
    assert second.status_code == 302
    third = site.post(f"/animal/{number}/own", **corrected(form, **{"own-2": "14"}))
    assert third.status_code == 400 and "inzwischen „13“ geschrieben" in shown(third.get_data(as_text=True))
    # the sheet's cell is as it was
    assert "Diese kennt das Herdbuch nicht." in shown(site.page(site.drop("again.csv", KEPT.encode())))
    goats.take(KEPT)
    assert {row["id"]: row["Gewicht"] for row in goats.listed("export")}[ids[1]] == "13"
    assert f"{ids[1]} Sultan" in shown(site.page("/animals?own=2&own-value=13"))
    assert "2 Tiere" in shown(site.page("/animals?own=1&own-value=posi"))
    assert "CAE" in site.get("/animals.csv").get_data(as_text=True).splitlines()[0]
    goats.good("undo", "--to", "1")
    goats.good("verify")
    assert "CAE" not in goats.listed("export")[0]


def test_values_of_a_sheet(site: Site, goats: Desk) -> None:
    """A look and the history tell of values that are new, changed, emptied or cut what a terminal tells."""
    ids = [line.split(",")[0] for line in SHEET.splitlines()]
    sheets = []
    for said in (["a,5/4", "b,981020001544265", "c,981020001544266"], [",5/4", "bb,9.8102E+14", "c,05-Apr"]):
        rows = zip(SHEET.splitlines()[1:], [*said, *[","] * len(ids)])
        sheets.append("".join(f"{line},{own}\n" for line, own in [(SHEET.splitlines()[0], "Farbe,Chip"), *rows]))
    goats.take(sheets[0], "--own", "Farbe=text", "--own", "Chip=text")
    address = site.drop("second.csv", sheets[1].encode())
    looks = dict[str, str]()
    for language in "de", "fr", "en":
        site.get(f"/language/{language}")
        looks[language] = shown(site.page(address))
    site.take(address)
    told = {
        "de": ["die Spalte „Farbe“ (Text) hat 1 geänderten Wert", "die Spalte „Farbe“ (Text) hat 1 geleerten Wert",
               "Farbe: bb; vorher: b", "Farbe: keine; vorher: a", "die Spalte „Chip“ (Text) hat 1 geänderten Wert",
               "1 Zelle der Spalte „Chip“ ist ausgelassen, in Zeile 3: „9.8102E+14“ ist eine lange Zahl",
               "1 Zelle der Spalte „Chip“ liest sich wie ein Tag: „05-Apr“ in Zeile 4"],
        "fr": ["la colonne « Farbe » (texte) a 1 valeur changée", "la colonne « Farbe » (texte) a 1 valeur vidée",
               "1 cellule de la colonne « Chip » est laissée de côté, à la ligne 3 : « 9.8102E+14 »",
               "1 cellule de la colonne « Chip » se lit comme un jour : « 05-Apr » à la ligne 4"],
        "en": ["the column 'Farbe' (text) has 1 changed value", "the column 'Farbe' (text) has 1 emptied value",
               "Farbe: bb; before: b",
               "1 cell of the column 'Chip' is left out, in line 3: '9.8102E+14' is a long number",
               "1 cell of the column 'Chip' reads like a day: '05-Apr' in line 4"],
    }  # fmt: skip
    for language, sentences in told.items():
        site.get(f"/language/{language}")
        made = shown(site.page("/history/3"))
        for sentence in sentences:
            assert sentence in looks[language], (sentence, looks[language])
            assert sentence in made, (sentence, made)
    assert "3 changed" in made


def test_rows_of_a_workbook(site: Site, goats: Desk) -> None:
    """The first rows of a look have what the spreadsheet shows, where a column of the society's own may be, and what is
    read of it elsewhere."""
    book = openpyxl.Workbook()
    book.active.append(["id", "sex", "birth", "sire", "dam", "Farbe"])
    book.active.append([17, "f", "2012-05-13", None, None, 123])
    for cell, number_format in ("A2", '0" kg"'), ("F2", '0000"CK"'):
        book.active[cell].number_format = number_format
    book.save(goats.room / "sheet.xlsx")
    page = shown(site.page(site.drop("sheet.xlsx", (goats.room / "sheet.xlsx").read_bytes())))
    assert "2 17 f 13.05.2012 0123CK" in page and "17 kg" not in page


def test_columns_set_up(site: Site, goats: Desk) -> None:
    """A column is set up without a sheet, changed, shown on certificates, and let go; what can't be is said."""
    form = written_in(site.page("/own-columns"))
    said = {"title-new": "G6PD", "kind-new": "yes-no", "choices-new": "", "certified-new": "1"}
    assert site.post("/own-columns", **corrected(form, **said)).status_code == 302
    wrong = site.post("/own-columns", **said)
    assert "Eine Spalte „G6PD“ gibt es schon" in shown(wrong.get_data(as_text=True))
    form = written_in(site.page(f"/animal/{ANNA}/own"))
    assert site.post(f"/animal/{ANNA}/own", **corrected(form, **{"own-1": "yes"})).status_code == 302
    assert "G6PD ja" in shown(site.page(f"/animal/{ANNA}"))
    certificate = site.get(f"/animal/{ANNA}/certificate").get_data(as_text=True)
    assert re.search(r"G6PD.{0,40}ja", re.sub(r"\s+", " ", certificate))
    both = {"title-1": "G6PD", "kind-1": "number", "choices-1": ""}
    refused = site.post("/own-columns", **both)
    assert "G6PD: „yes“ ist keine Zahl" in shown(refused.get_data(as_text=True))
    assert site.post("/own-columns", **{**both, "title-1": ""}).status_code == 302
    assert "G6PD" not in shown(site.page(f"/animal/{ANNA}")).partition("Verlauf")[0]


def test_in_browser(chromium: webdriver.Chrome, goats: Desk, program: str) -> None:
    """A note at a desk, and on a telephone."""
    server = Server(goats.room, program)
    screen = Screen(chromium, server.base)
    screen.opens(server.link)
    screen.opens("/language/de?to=/")
    screen.opens(f"/animal/{ANNA}")
    screen.leaves_by(f"//a[@href='/animal/{ANNA}/note']")
    screen.writes("//textarea[@id='text']", "trägt zum ersten Mal")
    screen.leaves_by("//main//form//button[not(@name)]")
    screen.sees("trägt zum ersten Mal")
    screen.becomes_small()
    assert screen.reads("document.documentElement.scrollWidth <= 390")
    screen.opens("/own-columns")
    assert screen.reads("document.documentElement.scrollWidth <= 390")
