"""Sheets that are dropped, looked at, and taken or left."""
from __future__ import annotations

import io
import pathlib
import re
import zipfile

import pytest

from web.site import HOST, Site, form_in, looked_in, shown
from front_desk.desk import TOP, Desk
from gudokeyi.services.folder_files import refresh
from gudokeyi.web.sheet_work import Chosen, import_options_of
from gudokeyi.web.workers import TAKING, Job

EXAMPLE = (TOP / "examples/society.csv").read_bytes()
FLOCK = b"Tag,Geschlecht,geb,V,M\na,m,2001-01-01,,\nb,w,2001-02-01,,\nc,w,2003-01-01,a,b\n"
GROWN = FLOCK + b"d,m,2005-01-01,a,c\n"


def files_of(folder: pathlib.Path) -> dict[str, bytes]:
    return {path.name: path.read_bytes() for path in folder.iterdir()} if folder.exists() else {}


def test_first_sheet(empty_site: Site, program: str, tmp_path: pathlib.Path) -> None:
    """From an empty folder to a book, which is that of `take`; nothing is written before it is taken."""
    site = empty_site
    assert "Take your first sheet" in shown(site.page("/animals"))
    address = site.post("/sheet/example").headers["Location"]
    look = shown(site.page(address))
    assert "Rows of the sheet 501 of these left out 1 Animals with a row 500 Parents without a row, added 2" in look
    assert "The book would have 502 animals." in look
    assert "Left out 2" in look and "Added as parents 2" in look
    # births that are near one another are one line, which says whether something need be done
    assert "22 births came less than 100 days after the same dam's one before, from 8 to 95 days." in look
    assert look.index("May be wrong 2") < look.index("Left out 2") < look.index("Inferred 4")
    assert "276 GK-12/351b its sire GK-12/341c (line 148) is left out: it isn't male (refusal 5)" in look
    assert not site.desk.folder.exists()
    page = site.take(address)
    assert "society.csv is taken." in shown(page)
    by_word = Desk(tmp_path / "by word", program)
    by_word.good("import", str(TOP / "examples/society.csv"))
    by_page = Desk(site.desk.folder.parent, program)
    # the files beside the database may not be written yet
    assert refresh(site.desk.folder, 60) == ""
    assert by_page.commands() == by_word.commands()
    assert by_page.ids() == by_word.ids()
    assert by_page.good("history", "1").out.splitlines()[2:] == by_word.good("history", "1").out.splitlines()[2:]
    assert not any(site.desk.uploads.room.iterdir())


def test_letters_are_asked_once(empty_site: Site, monkeypatch: pytest.MonkeyPatch) -> None:
    """Breed and country are asked on the page of the first sheet, which isn't taken before, and never again."""
    monkeypatch.delenv("GUDOKEYI_NUMBERS")
    site, flock = empty_site, b"id,sex,born,sire,dam\na,m,2001-01-01,,\nb,f,2001-02-01,,\n"
    address = site.drop("sheet.csv", flock)
    page = site.page(address)
    assert "Breed and country Each animal gets a number that begins with both." in shown(page)
    assert "Take it into the book" not in shown(page) and 'name="breed"' in page
    site.post(f"{address}/columns", breed="sku", country="D")
    assert "Take it into the book" not in shown(site.page(address))
    site.post(f"{address}/columns", breed="sku", country="deu")
    assert "is taken." in shown(site.take(address))
    assert "SKUDEUM000000000001" in shown(site.page("/animal/SKUDEUM000000000001"))
    assert "Breed and country" not in shown(site.page(site.drop("grown.csv", flock + b"c,m,2003-01-01,a,b\n")))


def test_start_while_the_first_is_taken(empty_site: Site) -> None:
    """While the first sheet is taken the start page says that the book is being made, and leads to the page that
    waits."""
    site, job = empty_site, Job((TAKING, "a form"))
    job.address = "/sheet/a-token/taking/a-form"
    site.desk.jobs.jobs[job.key] = job
    page = site.page("/")
    assert "The book is being made: it is here when that is done." in shown(page) and f'href="{job.address}"' in page
    assert "There is no book in this folder yet." not in shown(page)
    job.is_over.set()
    page = site.page("/")
    assert "There is no book in this folder yet." in shown(page) and job.address not in page
    address = site.drop("first.csv", EXAMPLE)
    to = site.post(f"{address}/take", **looked_in(site.page(address))).headers["Location"]
    taking = site.desk.jobs.found((TAKING, to.rpartition("/")[2]))
    assert taking and taking.address == to and "first.csv" in shown(site.page(to))


def test_left(site: Site) -> None:
    """A sheet that is left leaves the book as it was, and goes."""
    before = files_of(site.desk.folder)
    address = site.drop("sheet.csv", EXAMPLE + b"Lower Mill,NEW-1,f,2019-01-01,,,\n")
    assert "501" not in before
    look = shown(site.page(address))
    assert (
        "Animals with a row 501 of these new 1 of these in the book already 500 Animals of the book without a row 2"
        in look
    )
    assert "The book would have 503 animals." in look
    assert "sheet.csv is left, and nothing is changed." in shown(
        site.page(site.post(f"{address}/leave").headers["Location"])
    )
    answer = site.get(address)
    assert (
        answer.status_code == 404
        and "This file isn't here any more: it was taken or left, or its hour is over. Drop it again."
        in shown(answer.get_data(as_text=True))
    )
    assert files_of(site.desk.folder).keys() >= before.keys()
    assert files_of(site.desk.folder)["commands.csv"] == before["commands.csv"]
    assert not any(site.desk.uploads.room.iterdir())


def test_columns(empty_site: Site) -> None:
    """The columns are shown as they were understood with the first rows; others are chosen from lists, also titles with
    commas and quotation marks."""
    site = empty_site
    address = site.drop("flock.csv", FLOCK.replace(b",V,M", b',"Vater, ""der""",x'))
    page = site.page(address)
    assert re.search(r"<option selected>Tag</option>", page) and re.search(r"<option selected>geb</option>", page)
    assert "2 a m 2001-01-01" in shown(page)
    assert "no column is found for: Sire, Dam. Choose below which it is" in shown(page)
    assert "/take" not in page
    chosen = {"column-sire": 'Vater, "der"', "understood-sire": "", "column-dam": "x", "understood-dam": ""}
    understood = {"column-id": "Tag", "understood-id": "Tag"}
    page = site.page(site.post(f"{address}/columns", **chosen, **understood).headers["Location"])
    # what was understood isn't chosen
    assert [one.columns for one in site.desk.uploads.found.values()] == [{"sire": 'Vater, "der"', "dam": "x"}]
    assert "The book would have 3 animals." in shown(page)
    site.take(address)
    with site.desk.opened() as book:
        assert book
        record = book.records[book.society_records["c"].registration_number]
        assert (record.sire, record.dam) == (
            book.society_records["a"].registration_number,
            book.society_records["b"].registration_number,
        )


def test_options(empty_site: Site) -> None:
    """Words for unknown parents and sexes, breed and country are said on the page; a wrong one is told."""
    site = empty_site
    address = site.drop("flock.csv", FLOCK.replace(b",a,b", b",Leihbock,b").replace(b"c,w", b"c,Zibbe"))
    page = site.page(site.post(f"{address}/columns", breed="sk", youngest="30").headers["Location"])
    assert "'sk' isn't three letters" in shown(page)
    said = {"unknown": "Leihbock", "sexes": "Zibbe=f", "breed": "SKU", "country": "DEU"}
    columns = {"column-sire": "V", "column-dam": "M"}
    page = site.page(site.post(f"{address}/columns", **said, **columns).headers["Location"])
    # a field that was emptied says nothing any more
    assert [one.options.keys() for one in site.desk.uploads.found.values()] == [said.keys()]
    assert "The book would have 3 animals" in shown(page)
    site.take(address)
    with site.desk.opened() as book:
        assert book
        assert book.society_records["c"].registration_number == "SKUDEUF000000000003"
        assert book.records[book.society_records["c"].registration_number].sire == ""
    for first in ("month_first", "day_first"):
        wishes = import_options_of(site.desk.folder, Chosen.of({}, {first: "1"}))
        assert (wishes.month_first, wishes.day_first) == (first == "month_first", first == "day_first")


def test_book_changed_between(site: Site, society_desk: Desk) -> None:
    """A command in a terminal between the look and `take` on an animal that the sheet changes too: the page says so,
    and asks about this one alone."""
    address = site.drop("sheet.csv", EXAMPLE + b"Lower Mill,NEW-1,f,2019-01-01,,,\n")
    looked = looked_in(site.page(address))
    society_desk.good("birth", "NEW-1", "--sex", "f", "--day", "2019-01-01", "--owner", "Lower Mill")
    again = site.page(site.post(f"{address}/take", **looked).headers["Location"])
    assert "Somebody changed 1 animal meanwhile that the sheet changes too." in shown(again)
    findings = again.partition('id="findings"')[2].partition("Take it or leave it")[0]
    assert {id for id in re.findall(r"<bdi>([^<]*)</bdi>", findings) if id.startswith(("GK", "NEW"))} <= {"NEW-1"}
    assert "Animals with a row 501 of these in the book already 501 Animals" in shown(again)
    assert looked_in(again) != looked
    assert len(society_desk.good("history").out.splitlines()) == 2
    site.take(address)
    assert len(society_desk.good("history").out.splitlines()) == 3


def test_filed_between(site: Site, society_desk: Desk) -> None:
    """What others file on animals that the sheet doesn't change, before it is taken and while it is, keeps it from
    nothing, and nothing of that is lost."""
    address = site.drop("sheet.csv", EXAMPLE + b"Lower Mill,NEW-1,f,2019-01-01,,,\n")
    looked = looked_in(site.page(address))
    society_desk.good("birth", "OTHER-1", "--sex", "f", "--day", "2024-01-01", "--owner", "Lower Mill")
    assert looked_in(site.page(address)) == looked
    assert "sheet.csv is taken." in shown(site.page(site.post(f"{address}/take", **looked).headers["Location"]))
    with site.desk.opened() as book:
        assert book and {"NEW-1", "OTHER-1"} <= book.society_records.keys()
    society_desk.good("verify")


def test_read_otherwise_between(site: Site, society_desk: Desk) -> None:
    """Where settings, or what was chosen, are others than on the page that takes a sheet that is told, and it is looked
    at anew; what else a society says of itself is no matter of sheets."""
    address = site.drop("sheet.csv", EXAMPLE + b"Lower Mill,NEW-1,f,2019-01-01,keiner,,\n")
    page, told = (
        site.page(address),
        "The settings, or what was chosen for this sheet, changed meanwhile. This is what it would change now.",
    )
    assert "keiner" in shown(page)
    for to, given in ("/settings", {"unknown": "keiner"}), (f"{address}/columns", {"drop_gone": "1"}):
        site.post(to, **given)
        before, page = page, site.page(site.post(f"{address}/take", **looked_in(page)).headers["Location"])
        assert told in shown(page) and shown(page).replace(told, "") != shown(before)
    site.post("/settings", unknown="keiner", name="Goats")
    assert "sheet.csv is taken." in shown(
        site.page(site.post(f"{address}/take", **looked_in(page)).headers["Location"])
    )
    assert len(society_desk.good("history").out.splitlines()) == 2


def test_sent_twice(site: Site, society_desk: Desk) -> None:
    """A form that is sent again takes its sheet once: meanwhile, afterwards, and by a desk that was opened anew,
    whoever sends it sees what the first one changed."""
    address = site.drop("sheet.csv", EXAMPLE + b"Lower Mill,NEW-1,f,2019-01-01,,,\n")
    page = site.page(address)
    form, looked = form_in(page), looked_in(page)
    first, second = (site.post(f"{address}/take", **looked, form=form).headers["Location"] for _ in range(2))
    assert first == second
    assert "sheet.csv is taken." in shown(site.page(first))
    site.desk.jobs.forget((TAKING, form))
    for again in second, site.post(f"{address}/take", **looked, form=form).headers["Location"]:
        assert site.get(again).headers["Location"] == "/history/2"
    assert len(society_desk.good("history").out.splitlines()) == 2
    assert site.post(f"{address}/take", **looked).status_code == 404


def test_another_sheet(site: Site) -> None:
    """A sheet that looks like another one is taken only where somebody says that it is the right one."""
    address = site.drop(
        "other.csv", b"id,name,sex,birth,sire,dam\n" + b"".join(b"X-%d,,f,2001-01-01,,\n" % at for at in range(30))
    )
    page = site.page(address)
    assert "It isn't taken so:" in shown(page) and "/take" not in page
    assert f'<button class="second"><bdi>{"It is the right sheet: take it though it looks like another one"}' in page
    page = site.page(site.post(f"{address}/suggested", option="--anyway", word="").headers["Location"])
    assert "It isn't taken so:" not in shown(page) and f"{address}/take" in page


def workbook_of(size: int) -> bytes:
    """A small file that becomes a large one: `.xlsx` by its names, with so many blanks."""
    text = io.BytesIO()
    with zipfile.ZipFile(text, "w", zipfile.ZIP_DEFLATED) as archive:
        archive.writestr("[Content_Types].xml", "<Types/>")
        with archive.open("xl/worksheets/sheet1.xml", "w", force_zip64=True) as sheet:
            for _ in range(size // 1_000_000):
                sheet.write(b" " * 1_000_000)
    return text.getvalue()


@pytest.mark.parametrize(
    "name, text, told",
    [
        ("bomb.xlsx", workbook_of(600_000_000), "more than"),
        ("none.xlsx", b"PK\x03\x04 no workbook", "can't be read as an .xlsx file"),
        ("sheet.ods", b"PK\x03\x04", "save the sheet as CSV"),
        ("photo.csv", b"\x89PNG\r\n\x1a\n\x00\x00", "is no text"),
        ("empty.csv", b"", "is empty"),
        ("titles.csv", b"id,sex,birth,sire,dam\n", "has no row"),
    ],
    ids=["bomb", "no workbook", "ods", "photo", "empty", "titles"],
)
def test_wrong_files(empty_site: Site, name: str, text: bytes, told: str) -> None:
    """What is no sheet is told, and no folder is made."""
    page = empty_site.page(empty_site.drop(name, text))
    assert told in shown(page) and "/take" not in page
    assert str(empty_site.desk.uploads.room) not in page
    assert not empty_site.desk.folder.exists()


def test_second_sheet_and_undo(empty_site: Site) -> None:
    """A grown sheet changes what it says; undo asks, and brings back the state before as a new change."""
    site = empty_site
    columns = {"column-sire": "V", "column-dam": "M"}
    earlier = ""
    for text in (FLOCK, GROWN.replace(b"2003-01-01", b"2003-01-02")):
        earlier = site.looked()
        address = site.drop("flock.csv", text)
        site.page(address)
        site.post(f"{address}/columns", **columns)
        page = site.take(address)
    assert "Changed 1" in shown(page) and "New 1" in shown(page)
    question = site.page("/history/1/undo")
    assert "Bring back the book as it was after change 1?" in shown(question) and 'class="more"' not in question
    assert "nothing" not in shown(site.page(site.post("/history/1/undo", looked=earlier).headers["Location"]))[:1]
    assert len(re.findall("<tr>", site.page("/history"))) == 3
    page = site.page(site.post("/history/1/undo", **looked_in(question)).headers["Location"])
    assert "The state after change 1 is brought back." in shown(page)
    assert "d isn't in the book any more" in shown(page)
    assert "Animals 3 " in shown(site.page("/"))
    # the state of now isn't brought back
    assert site.post("/history/3/undo", looked=site.looked()).headers["Location"] == "/history"
