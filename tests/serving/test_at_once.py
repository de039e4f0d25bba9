"""Several people at one book: each sees what the others did, nothing is filed twice, and the history names who did
what."""
from __future__ import annotations

import contextlib
import datetime
import functools
import html
import io
import pathlib
import re
import sqlite3
import threading
import time

import pytest

from web.said import SENTENCES
from web.site import HOST, looked_in, shown
from front_desk.desk import Desk
from gudokeyi.background import Background
from gudokeyi.store.accounts import A_DAY
from gudokeyi.store.messages import BackupFault
from gudokeyi.web import changing, sheet_work, verification
from gudokeyi.web.forms import new_form
from gudokeyi.web.sheet_work import Asked, Chosen, imported, looked_at as looked_at_sheet
from gudokeyi.web.workers import TAKING, Job
from serving.visitor import Served, Visitor

DAM = "GK-17/472c"
SHEET = b"id,name,sex,birth,sire,dam\nNEW-%d,,f,2024-01-01,,\n"


def names(visitor: Visitor) -> list[str]:
    """Who made the changes, from the first on."""
    with visitor.desk.opened() as book:
        assert book and book.connection
        return [name for (name,) in book.connection.execute("SELECT login FROM change ORDER BY change")]


def looked_at(visitor: Visitor, at: int) -> str:
    """Drops a sheet of one new animal that is to be taken anyway, and looks at it; answers its address."""
    address = visitor.drop(f"{at}.csv", SHEET % at)
    visitor.post(f"{address}/columns", anyway="1")
    visitor.page(address)
    return address


def test_two_sheets(served: Served) -> None:
    """The second clerk's sheet is taken though the first one's came between, and nothing of that is undone; where both
    change an animal the second is asked about it anew."""
    carl, clara = Visitor(served, "Carl"), Visitor(served, "Clara")
    first, second = looked_at(carl, 1), looked_at(clara, 2)
    same = looked_at(clara, 1)
    looked = looked_in(clara.page(same))
    carl.take(first)
    page = clara.page(clara.post(f"{same}/take", **looked).headers["Location"])
    assert "Somebody changed 1 animal meanwhile that the sheet changes too." in shown(page) and looked_in(page) != looked
    assert names(clara)[1:] == ["Carl"]
    clara.take(second)
    assert names(clara)[1:] == ["Carl", "Clara"]
    with served.desk.opened() as book:
        assert book and {"NEW-1", "NEW-2"} <= book.society_records.keys()


def file_births(visitor: Visitor, at: int, is_over: threading.Event, waits: list[float]) -> list[str]:
    """Files one birth after the other; answers where each led."""
    token, found = visitor.token(), list[str]()
    while not is_over.wait(0.4):
        born = {"id": f"OTHER-{at}-{len(found)}", "sex": "F", "day": "2024-02-01"}
        began = time.monotonic()
        data = {"csrf_token": token, "form": new_form(), **born}
        found.append(visitor.client.post("/file/birth", data=data, headers={"Host": HOST}).headers["Location"])
        waits.append(time.monotonic() - began)
    return found


def test_sheet_beside_clerks(served: Served, monkeypatch: pytest.MonkeyPatch) -> None:
    """A sheet comes through where eight file without a pause: nobody waits long for it, each of what they filed stands
    once, and a book that was whole before isn't seen anew, for which they would wait."""
    carl, is_over, waits = Visitor(served, "Carl"), threading.Event(), list[float]()
    carl.post("/file/birth", id="FIRST", sex="F", day="2024-02-01")
    seen = list[object]()
    for module, name in (changing, "verified"), (verification, "see"):
        monkeypatch.setattr(module, name, lambda *values: seen.append(values))
    clerks = [Visitor(served, name) for name in ("Clara", "Kim") * 4]
    files = [functools.partial(file_births, one, at, is_over, waits) for at, one in enumerate(clerks)]
    filing, began = [Background(file) for file in files], time.monotonic()
    # one at least is filed before the sheet
    while not waits and time.monotonic() < began + 60:
        time.sleep(0.05)
    address = looked_at(carl, 1)
    carl.take(address)
    took = time.monotonic() - began
    # each of them files at most one birth at this moment, so one of these is filed behind the sheet
    enough = len(waits) + len(clerks) + 1
    while len(waits) < enough and time.monotonic() < began + 60:
        time.sleep(0.05)
    is_over.set()
    answers = [answer for one in filing for answer in one.value()]
    with served.desk.opened() as book:
        assert book
        kinds = [kind for (kind,) in book.connection.execute("SELECT kind FROM change ORDER BY change")]
        ids = {row.id for row in book.all_rows if row.id.startswith("OTHER-")}
    # the sheet isn't the last: others went on
    assert kinds.count("take") == 2 and kinds[2] == kinds[-1] == "birth" and took < 60
    assert len(waits) == len({*answers}) == len(ids) == kinds.count("birth") - 1 and max(waits) < 3 and not seen
    Desk(served.desk.folder.parent, str(served.desk.program.path)).good("verify")


def test_filing_behind_a_sheet(served: Served, tmp_path: pathlib.Path, monkeypatch: pytest.MonkeyPatch) -> None:
    """Who files behind a sheet that a process beside took at this moment waits for what that tells of the book, and
    not for seeing anew whether it is whole."""
    carl, form, folder, path = Visitor(served, "Carl"), new_form(), served.desk.folder, tmp_path / "one.csv"
    path.write_bytes(SHEET % 1)
    chosen = Chosen(options=(("anyway", "1"),))
    # a look is for a process of its own
    monkeypatch.setattr(sheet_work, "bound_look", lambda: None)
    look = looked_at_sheet(folder, path, chosen, (), lambda _: None)
    job = served.desk.jobs.jobs[TAKING, form] = Job((TAKING, form))
    made = imported(folder, path, chosen, Asked(look.seen, look.by_animal, form), lambda _: None)
    monkeypatch.setattr(changing, "verified", lambda *_: pytest.fail("it is seen anew"))
    filing = Background(lambda: carl.post("/file/exit", id=DAM, day="2024-05-01"))
    filing.thread.join(1)
    assert filing.thread.is_alive() and made.whole
    served.desk.trusted = made.whole
    job.is_told.set()
    assert filing.value().headers["Location"] == "/answer/3"
    job.over()


def test_own_sheets(served: Served) -> None:
    """What one clerk dropped no other sees, takes or leaves, though the address be known."""
    carl, clara, kim = (Visitor(served, name) for name in ("Carl", "Clara", "Kim"))
    address = looked_at(carl, 1)
    for other in clara, kim:
        assert other.get(address).status_code == 404
        for way in "import", "leave", "columns", "suggested":
            assert other.post(f"{address}/{way}", looked=carl.looked()).status_code == 404
    assert carl.get(address).status_code == 200


def test_one_animal(served: Served) -> None:
    """Commands on one animal at once are answered in an order, as the replies say: one is accepted, the others see
    it."""
    people = [Visitor(served, name) for name in ("Carl", "Clara", "Kim", "Carl", "Clara")]
    tokens = [one.token() for one in people]
    ready, found = threading.Barrier(len(people)), [""] * len(people)

    def file(at: int) -> None:
        fields = {"csrf_token": tokens[at], "form": new_form(), "id": DAM, "day": f"2024-05-0{at + 1}"}
        ready.wait()
        found[at] = people[at].client.post("/file/exit", data=fields, headers={"Host": HOST}).headers["Location"]

    threads = [threading.Thread(target=file, args=(at,)) for at in range(len(people))]
    for one in threads:
        one.start()
    for one in threads:
        one.join()
    assert sorted(found) == [f"/answer/{number}" for number in range(2, 7)]
    pages = {address: shown(people[0].page(address)) for address in found}
    assert "Accepted." in pages["/answer/2"]
    assert all("it has left already" in pages[f"/answer/{number}"] for number in range(3, 7))
    assert len(served.desk.program.desks) == 3
    Desk(served.desk.folder.parent, str(served.desk.program.path)).good("verify")


def test_names(served: Served, society_desk: Desk) -> None:
    """The history names who filed, took, undid and restored; what a terminal does has the system's name."""
    carl, kim = Visitor(served, "Carl"), Visitor(served, "Kim")
    carl.post("/file/exit", id=DAM, day="2024-05-01")
    copy = kim.get("/book.sqlite").get_data()
    carl.take(looked_at(carl, 1))
    kim.post("/history/2/undo", looked=kim.looked())
    society_desk.good("birth", "NEW-9", "--sex", "f", "--day", "2024-06-01")
    # a backup is looked at, and restored by a keeper
    data = {"csrf_token": kim.token(), "backup": (io.BytesIO(copy), "../copy.sqlite")}
    address = kim.client.post("/restore", data=data, headers={"Host": HOST}).headers["Location"]
    page = kim.page(address)
    assert "Restore copy.sqlite?" in shown(page) and "502" in shown(page)
    assert "Somebody changed the book meanwhile. This is what is there now." in shown(
        kim.page(kim.post(address, looked="4-1").headers["Location"])
    )
    page = kim.page(kim.post(address, **looked_in(page)).headers["Location"])
    assert "The backup copy.sqlite is restored." in shown(page)
    own = names(kim)
    assert own[1:] == ["Carl", "Kim"]
    assert "<bdi>Carl</bdi>" in kim.page("/history") and society_desk.good("history").out.count("Carl:") == 1
    # the book of before is kept, and the session answers for the one of now
    assert len(list((served.desk.folder / "old").glob("book-*.sqlite"))) == 1
    assert "Accepted." in shown(
        carl.page(carl.post("/file/exit", id="GK-16/433c", day="2024-05-01").headers["Location"])
    )
    society_desk.good("verify")


@pytest.mark.parametrize("kind, fields", [("exit", {"id": DAM, "day": "2024-05-01"}),
                                          ("birth", {"id": 'NEW-1 "<b>', "sex": "F", "day": "2024-05-01", "name": "Ä & Ö"})])  # fmt: skip
def test_login_over(served: Served, clerk: Visitor, kind: str, fields: dict[str, str]) -> None:
    """A login that runs out in the middle of a form keeps what was written: it is sent after logging in, and filed
    once."""
    token = clerk.token()
    served.clock.now += A_DAY + 1
    answer = clerk.client.post(f"/file/{kind}", data={"csrf_token": token, **fields}, headers={"Host": HOST})
    page = answer.get_data(as_text=True)
    assert (
        answer.status_code == 401
        and "You aren't logged in any more. Log in: what you wrote is kept, and nothing was filed yet." in shown(page)
    )
    kept = {name: html.unescape(text) for name, text in re.findall(r'name="(kept[- ][^"]*)" value="([^"]*)"', page)}
    assert kept == {"kept to": f"/file/{kind}"} | {f"kept-{name}": text for name, text in fields.items()}
    # a wrong password keeps it too
    page = clerk.log_in("Carl", "wrong", **kept).get_data(as_text=True)
    assert all(f'value="{text}"' in html.unescape(page) for text in kept.values())
    page = clerk.log_in("Carl", **kept).get_data(as_text=True)
    assert "You are logged in again. Nothing was filed yet." in shown(page) and names(clerk) == names(clerk)[:1]
    again = {
        name: html.unescape(text) for name, text in re.findall(r'type="hidden" name="([^"]*)" value="([^"]*)"', page)
    }
    again.pop("csrf_token")
    assert re.findall(r'<form class="line" method="post" action="([^"]*)"', page) == [f"/file/{kind}"]
    assert {name: again[name] for name in fields} == fields
    assert clerk.post(f"/file/{kind}", **again).headers["Location"] == "/answer/2"
    assert names(clerk)[1:] == ["Carl"]


def test_login_over_elsewhere(served: Served) -> None:
    """What is kept is sent to a form of this desk alone, and no password is kept."""
    visitor = Visitor(served)
    for path in (
        "http://evil.example/",
        "//evil.example/file/exit",
        "/nothing",
        "/animals",
        "/login",
        "javascript:alert(1)",
    ):
        assert visitor.log_in("Carl", **{"kept to": path, "kept-id": "x"}).status_code == 302
        visitor.post("/logout")
    # who has another role meanwhile isn't asked whether to send it, nor shown what is no text of his own
    assert visitor.log_in("Ines", **{"kept to": "/file/exit", "kept-id": DAM}).headers["Location"] == "/"
    assert "Your role doesn't allow this: ask a keeper of the book." in shown(visitor.page("/"))
    visitor.post("/logout")
    kept = {"kept to": "/file/exit", "kept-id": DAM, "kept-form": new_form()}
    asked = shown(visitor.log_in("Carl", **kept).get_data(as_text=True))
    assert DAM in asked and kept["kept-form"] not in asked
    visitor.post("/logout")
    page = visitor.post("/accounts", name="Eve", role="keeper", password="one secret word", again="one secret word")
    assert page.status_code == 401 and "secret word" not in page.get_data(as_text=True)


def test_login_over_much(served: Served) -> None:
    """Of a form so many fields are kept, each with so many letters, and of a very large one nothing."""
    visitor = Visitor(served)
    for count, length, kept in ((100, 10, 60), (3, 3_000, 3), (40, 3_000, 0)):
        written = {f"field{at}": "x" * length for at in range(count)}
        page = visitor.post("/file/birth", **written).get_data(as_text=True)
        found = re.findall(r'name="kept-field\d+" value="(x*)"', page)
        assert kept - 2 <= len(found) <= kept and all(len(text) == min(length, 2_000) for text in found)
    sent = {"kept to": "/file/birth"} | {f"kept-field{at}": "x" for at in range(100)}
    assert len(re.findall(r'name="field\d+"', visitor.log_in("Carl", **sent).get_data(as_text=True))) == 60


def test_backup(served: Served, society_desk: Desk) -> None:
    """Backups are made while others work, and the page says when the last one was made; the accounts aren't in it."""
    carl, ines = Visitor(served, "Carl"), Visitor(served, "Ines")
    assert "No copy is known that has the book as it is now." in shown(ines.page("/history"))
    with served.desk.opened():
        society_desk.good("backup", "copy.sqlite")
    first = shown(ines.page("/history"))
    assert "The last backup was made on {}, after change {}.".partition("{}")[0] in first and "after change 1." in first
    carl.post("/file/exit", id=DAM, day="2024-05-01")
    copy = carl.get("/book.sqlite").get_data()
    assert "after change 2." in shown(ines.page("/history"))
    assert b"scrypt" not in copy and b"account" not in copy and b"Ines" not in copy


# what somebody may have done to a backup: it would do something where it is written to, or has what no book has
CHANGED = {
    BackupFault.ACTS: ["CREATE TRIGGER own AFTER INSERT ON change BEGIN DELETE FROM animal; END"],
    BackupFault.OTHER_TABLES: ["CREATE TABLE own (one)", "CREATE INDEX own ON change (abs(time))"],
    BackupFault.NO_TIME: [
        "UPDATE change SET time = 9000000000000000000", "UPDATE change SET time = 7258118400000000", "UPDATE change SET time = 0",
    ],
    BackupFault.ODD_NAMES: [
        "UPDATE change SET login = char(27) || '[2J'", "UPDATE change SET login = ' '", "UPDATE animal SET name = char(10, 0)",
        "UPDATE owner SET name = printf('%.*c', 5000, 'x') WHERE herd = (SELECT min(herd) FROM owner)",
        "INSERT OR REPLACE INTO setting VALUES ('language', '../..')",
        "INSERT OR REPLACE INTO setting VALUES ('breed', 'four')",
    ],
}  # fmt: skip


def changed(copy: bytes, room: pathlib.Path, statement: str) -> bytes:
    path = room / "changed.sqlite"
    path.write_bytes(copy)
    with contextlib.closing(sqlite3.connect(path)) as connection:
        connection.execute(statement)
        connection.commit()
    return path.read_bytes()


@pytest.mark.parametrize("kind, told", [
    ("text", BackupFault.DAMAGED), ("torn", BackupFault.DAMAGED), ("empty", BackupFault.NO_BOOK),
    *((statement, told) for told, statements in CHANGED.items() for statement in statements),
])  # fmt: skip
def test_hostile_backups(served: Served, tmp_path: pathlib.Path, kind: str, told: BackupFault) -> None:
    """A file that is no backup, or one that does something, is refused; nothing is changed, and no path is told."""
    kim = Visitor(served, "Kim")
    copy = kim.get("/book.sqlite").get_data()
    files = {"text": b"no database", "torn": copy[: len(copy) // 2], "empty": b""}
    file = files[kind] if kind in files else changed(copy, tmp_path, kind)
    kim.get("/language/de")
    data = {"csrf_token": kim.token(), "backup": (io.BytesIO(file), "../../x.sqlite")}
    page = kim.page(kim.client.post("/restore", data=data, headers={"Host": HOST}).headers["Location"])
    assert SENTENCES[told][1].replace("{path}", "x.sqlite").replace("{change}", "1") in shown(page)
    assert str(served.desk.uploads.room) not in page and names(kim) == names(kim)[:1]


@pytest.mark.parametrize("year", [1970, 1989, 2036, 2199])
def test_backup_of_a_wrong_clock(served: Served, tmp_path: pathlib.Path, year: int) -> None:
    """A backup is restored also where the clock was wrong as something was filed, long behind the time or before it."""
    kim = Visitor(served, "Kim")
    moment = int(datetime.datetime(year, 1, 2, tzinfo=datetime.timezone.utc).timestamp()) * 1_000_000
    copy = changed(kim.get("/book.sqlite").get_data(), tmp_path, f"UPDATE change SET time = {moment}")
    assert "is restored." in shown(kim.restore(copy)) and f"{year}-01-02" in shown(kim.page("/history"))
