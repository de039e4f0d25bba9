"""Commands of another program, filed by `file`: each is answered, and what was filed before isn't filed again."""
from __future__ import annotations

import contextlib
import datetime
import json
import signal
import sqlite3
from typing import Any

import pytest

from front_desk.desk import Desk
from gudokeyi import process
from gudokeyi.services import batches
from gudokeyi.services.batches import file_lines
from gudokeyi.services.book_session import BookSession

DAY = "2012-03-04"


def birth(request: str, id: str, **values: object) -> dict[str, object]:
    return {"request": request, "kind": "birth", "id": id, "sex": "f", "day": DAY, **values}


def answers(desk: Desk, *lines: dict[str, object], status: int = 0) -> list[dict[str, Any]]:
    desk.write("commands.jsonl", "".join(f"{json.dumps(line)}\n" for line in lines))
    done = desk.run("file", "commands.jsonl")
    assert done.status == status and not done.err, done
    return [json.loads(line) for line in done.out.splitlines()]


LINES: list[dict[str, object]] = [
    birth("1", "new", sire="a0", dam="a9", owner="Nord"),
    # its dam is filed by a line before, and so is the owner
    birth("2", "of new", sex="M", dam="new", day="2015-01-01", owner="Nord"),
    {"request": "3", "kind": "litter", "day": "2016-01-01", "dam": "new", "owner": "Süd",
     "offspring": [{"id": "l1", "sex": "f"}, {"id": "l2", "sex": "m", "name": "Max"}]},
    {"request": "4", "kind": "transfer", "id": "l2", "day": "2016-02-01", "to": "Ost"},
    {"request": "5", "kind": "exit", "id": "l2", "day": "2016-03-01"},
    {"request": "6", "kind": "parents", "id": "l1", "sire": "of new", "dam": None},
    {"request": "7", "kind": "correction", "id": "new", "name": "Berta", "born": "2012-01-01", "castrated": "no"},
    {"request": "8", "kind": "correction", "id": "of new", "new_id": "renamed", "owners": [{"owner": "West"}]},
]  # fmt: skip


def test_batch(flock_desk: Desk) -> None:
    """All kinds of commands are one change, which an undo takes back; another call answers them as before."""
    before = flock_desk.good("list").out
    found = answers(flock_desk, *LINES)
    assert [one["request"] for one in found] == list("12345678")
    assert {one["answer"] for one in found} == {"accepted"} and {one["change"] for one in found} == {2}
    listed = {row["id"]: row for row in flock_desk.listed("list", "--columns", "+sire,dam,owner,name")}
    for one in [*found[:2], *found[2]["offspring"], found[6]]:
        row = listed.get(one["id"], listed["renamed"])
        assert (row["number"], row["coefficient"]) == (one["registration_number"], one["coefficient"])
    assert listed["new"]["name"] == "Berta" and listed["renamed"]["owner"] == "West"
    assert (listed["l1"]["sire"], listed["l1"]["dam"]) == ("renamed", "") and listed["l1"]["owner"] == "Süd"
    assert "\n  exit          2016-03-01\n" in flock_desk.good("show", "l2").out
    assert "is whole: 2 changes" in flock_desk.good("verify").out
    assert answers(flock_desk, *LINES) == found
    flock_desk.good("undo")
    assert flock_desk.good("list").out == before and "3 changes" in flock_desk.good("verify").out


def test_younger_first(flock_desk: Desk) -> None:
    """Coefficients stand in age order, one behind the other, whichever of the newborns is filed first."""
    answers(flock_desk, birth("1", "late", day="2019-01-01"), birth("2", "early", day="2013-01-01"))
    with contextlib.closing(sqlite3.connect(flock_desk.room / "book/book.sqlite")) as connection:
        places = [place for (place,) in connection.execute("SELECT place FROM coefficient ORDER BY place")]
    assert places == [*range(1, len(places) + 1)] and "is whole" in flock_desk.good("verify").out


def test_notes(flock_desk: Desk) -> None:
    """A note is of the same change as other commands, also on an animal that is born by it, and is taken back with it;
    asked for again it isn't written twice."""
    day = datetime.date.today().isoformat()
    lines: list[dict[str, object]] = [
        {"request": "1", "kind": "note", "id": "a9", "text": "limps\nleft hind leg", "day": "2012-03-01"},
        birth("2", "new", dam="a9"), {"request": "3", "kind": "note", "id": "new", "text": "weak"},
        {"request": "4", "kind": "note", "id": "new", "text": "well again"},
    ]  # fmt: skip
    found = answers(flock_desk, *lines)
    assert {(one["answer"], one["change"]) for one in found} == {("accepted", 2)} and found[2]["coefficient"] == "0"
    assert answers(flock_desk, *lines) == found
    assert notes(flock_desk) == [
        ("2012-03-01", "limps\nleft hind leg"), (day, "weak"), (day, "well again"),
    ]  # fmt: skip
    assert "is whole: 2 changes" in flock_desk.good("verify").out
    assert "weak" in flock_desk.good("history", "2").out
    flock_desk.good("undo")
    assert notes(flock_desk) == [] and "is whole" in flock_desk.good("verify").out


def notes(desk: Desk) -> list[tuple[str, str]]:
    with contextlib.closing(sqlite3.connect(desk.room / "book/book.sqlite")) as connection:
        return connection.execute("SELECT day, text FROM note WHERE until IS NULL ORDER BY day, note").fetchall()


def test_stopped_between_lines(flock_desk: Desk, monkeypatch: pytest.MonkeyPatch) -> None:
    """With `--each` Ctrl-C stops a call before the next line begins; what was filed and answered stays."""
    monkeypatch.setenv("HERDBOOK", flock_desk.program)
    before, text = signal.getsignal(signal.SIGINT), "\n".join(json.dumps(birth(id, id)) for id in ("one", "two"))
    monkeypatch.setattr(process, "ignores_stops", True)
    program = BookSession.for_one()
    try:
        some = file_lines(flock_desk.room / "book", program, text.encode(), each=True)
        assert next(some).answer == "accepted" and signal.getsignal(signal.SIGINT) is signal.SIG_IGN
        with pytest.raises(KeyboardInterrupt):
            monkeypatch.setattr(batches, "to_file", lambda *_: signal.raise_signal(signal.SIGINT))
            next(some)
    finally:
        program.close()
        signal.signal(signal.SIGINT, before)
    assert [row["id"] for row in flock_desk.listed("list", "--born", DAY[:4])] == ["one"]


def test_refused_and_faulty(flock_desk: Desk) -> None:
    """The register's refusals have number, name and sentence, and stay in the history; what is faulty files nothing."""
    refused, twice, faulty, again = answers(
        flock_desk, birth("1", "new", sire="a9"), birth("1", "new", sire="a9"), birth("2", "newer", sire="nobody"),
        birth("3", "newest", dam="a0"), status=1,
    )  # fmt: skip
    assert refused == twice and (refused["answer"], refused["change"], refused["id"]) == ("refused", 2, "new")
    assert (refused["refusal"], refused["name"]) == (5, "SIRE_NOT_MALE") and "isn't male" in refused["sentence"]
    assert (faulty["answer"], faulty["line"], faulty["field"]) == ("faulty", 3, "sire")
    assert "'nobody'" in faulty["sentence"]
    assert again["answer"] == "refused"
    told = flock_desk.good("history", "2").out
    assert "(2 refused)" in told and "line 1: new: left out: the birth on 2012-03-04 is refused" in told
    assert len(flock_desk.commands()) == 18 and "is whole" in flock_desk.good("verify").out
    # mended it may come again by the same request; a refused one may not be another one
    mended, other = answers(flock_desk, birth("2", "newer", sire="a0"), birth("1", "new", sire="a0"), status=1)
    assert mended["answer"] == "accepted" and (other["answer"], other["field"]) == ("faulty", "request")
    assert answers(flock_desk, birth("1", "new", sire="a9"), status=3) == [refused]


@pytest.mark.parametrize(("line", "field"), [
    ({"kind": "birth"}, "request"), ({"request": "x" * 101, "kind": "exit"}, "request"), ({"request": "1"}, "kind"),
    ({"request": "1", "kind": "sale"}, "kind"), ({"request": "1", "kind": "exit", "id": "a0"}, "day"),
    ({"request": "1", "kind": "exit", "id": "a0", "day": "never"}, "day"),
    ({"request": "1", "kind": "exit", "id": "a0", "day": "2999-01-01"}, "day"),
    ({"request": "1", "kind": "exit", "id": "a0", "day": DAY, "why": "sold"}, "why"),
    ({"request": "1", "kind": "transfer", "id": "a0", "day": DAY, "to": ""}, "to"),
    ({"request": "1", "kind": "transfer", "id": "a0", "day": DAY, "to": "x", "from": "nobody"}, "from"),
    ({"request": "1", "kind": "parents", "id": "a0"}, "sire"),
    ({"request": "1", "kind": "correction", "id": "a0", "owners": "x; y=never"}, "owners"),
    (birth("1", "x" * 61), "id"), (birth("1", "new", sex="x"), "sex"), (birth("1", "new", embryo="perhaps"), "embryo"),
    (birth("1", "new", name=["Berta"]), "name"),
    ({"request": "1", "kind": "litter", "day": DAY, "offspring": [{"id": "l", "sex": "f"}] * 2}, "offspring"),
    ({"request": "1", "kind": "note", "id": "a0", "text": " "}, "text"),
    ({"request": "1", "kind": "note", "id": "a0", "text": "x", "day": "2999-01-01"}, "day"),
])  # fmt: skip
def test_fields(flock_desk: Desk, line: dict[str, object], field: str) -> None:
    before = flock_desk.files()
    found = answers(flock_desk, line, status=1)
    assert [(one["answer"], one["line"], one["field"]) for one in found] == [("faulty", 1, field)]
    assert {name: text for name, text in flock_desk.files().items() if name in before} == before


def test_lines_of_csv_one_by_one(flock_desk: Desk) -> None:
    """A line without an end, or of another kind, doesn't keep others from being filed; each is a change of its own."""
    flock_desk.write("commands.csv", (
        "request;kind;id;sex;day;dam;name;offspring\n"
        f"1;birth;new;f;{DAY};a9;Berta;\n"
        "2;exit;new;;2014-01-01;;;\n"
        "3;sale;new;;;;;\n"
        f"4;litter;;;{DAY};a9;;l1=f; l2=m=Max\n"
        f"5;litter;;;{DAY};a9;;\"l1=f; l2=m=Max\""
    ))  # fmt: skip
    done = flock_desk.run("file", "commands.csv", "--each")
    found = [json.loads(line) for line in done.out.splitlines()]
    assert [(one["answer"], one.get("change")) for one in found] == [
        ("accepted", 2), ("accepted", 3), ("faulty", None), ("faulty", None), ("accepted", 4),
    ]  # fmt: skip
    assert done.status == 1 and len(found[4]["offspring"]) == 2
    assert "is whole: 4 changes" in flock_desk.good("verify").out


def test_not_whole(flock_desk: Desk) -> None:
    """A book that somebody else wrote into isn't changed, also where a batch saw it whole before."""
    answers(flock_desk, birth("1", "new"))
    with contextlib.closing(sqlite3.connect(flock_desk.room / "book/book.sqlite")) as connection, connection:
        connection.execute("UPDATE coefficient SET percent = '1.00' WHERE place = 1")
    done = flock_desk.run("file", "commands.jsonl")
    assert done.status == 1 and "the book isn't whole: nothing is changed" in done.err and not done.out
