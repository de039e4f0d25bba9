"""Certificates of many animals in one file, with the society's name, the day of issue and common ancestors."""
from __future__ import annotations

import collections
import contextlib
import itertools
import re
import sqlite3
import subprocess
import xml.etree.ElementTree as xml
from collections.abc import Collection

import pytest

from front_desk.desk import Desk
from gudokeyi.render.certificates import lines_of
from gudokeyi.render.pedigree_boxes import letters, letters_named

NOT_KNOWN = "not known"
XHTML = "{http://www.w3.org/1999/xhtml}"


def pages(desk: Desk, name: str = "page.html") -> list[xml.Element]:
    return list(desk.page(name).iter(f"{XHTML}main"))


def classed(page: xml.Element, name: str) -> list[xml.Element]:
    return [one for one in page.iter() if name in one.get("class", "").split()]


def words(page: xml.Element) -> str:
    return " ".join(" ".join(page.itertext()).split())


def titles(desk: Desk) -> list[str]:
    return [words(next(page.iter(f"{XHTML}h1"))) for page in pages(desk, "book/certificates.html")]


def test_many(society_desk: Desk) -> None:
    """One page each, in the order that they are named, or in age order."""
    society_desk.write("some.txt", "GK-11/332b\nGK-17/472c\n")
    done = society_desk.good("certificate", "GK-17/472c", "GK-02/119b", "--among", "some.txt")
    assert done.last.startswith("book/certificates.html is written, 3 pages: ")
    assert titles(society_desk) == ["GK-17/472c", "GK-02/119b", "GK-11/332b"]
    society_desk.good("certificate", "--owner", "Lower Mill", "--living")
    wanted = society_desk.listed("list", "--owner", "Lower Mill", "--living")
    assert titles(society_desk) == [row["id"] for row in wanted] and len(wanted) > 30
    society_desk.wrong("certificate needs animals", "certificate")
    society_desk.wrong("not both", "certificate", "GK-17/472c", "--living")


def certified(desk: Desk, numbers: Collection[str]) -> dict[str, dict[str, str]]:
    """What the program itself writes of the book's journal: each certificate's words, by the animals' numbers."""
    text = subprocess.run(
        [desk.program, "certificate", *numbers], input=desk.text("book/commands.csv"), capture_output=True, text=True,
        check=True,
    ).stdout  # fmt: skip
    facts = [dict(line.split(" ", 1) for line in f"animal {one}".splitlines()) for one in text.split("animal ")[1:]]
    return {one["animal"]: one for one in facts}


@pytest.mark.parametrize("generations", [3, 4, 5])
def test_each_line_is_the_programs(society_desk: Desk, generations: int) -> None:
    """Each fact of an animal on a certificate that the register knows is one that the program writes."""
    society_desk.good("transfer", "GK-17/472c", "--to", "Upper Mill", "--day", "2023-05-01")
    society_desk.good("exit", "GK-18/486b", "--day", "2024-01-01")
    listed = {row["number"]: row for row in society_desk.listed("list", "--columns", "+owner")}
    numbers = {row["id"]: number for number, row in listed.items()}
    told, ids = certified(society_desk, listed), ["GK-17/472c", "GK-18/486b", *list(numbers)[::40]]
    society_desk.good("certificate", *dict.fromkeys(ids), "--out", "page.html", "--generations", str(generations))
    counts = collections.Counter[str]()
    for id, page in zip(dict.fromkeys(ids), pages(society_desk), strict=True):
        own = told[numbers[id]]
        check_facts(page, own, listed[numbers[id]]["owner"], counts)
        drawn = [letters for line in lines_of(generations) for letters in line]
        for letters, cell in zip(drawn, page.iter(f"{XHTML}td"), strict=True):
            number, counts[letters] = own["animal"], counts[letters] + 1
            for letter in letters:
                number = told[number][letter] if number != "0" else "0"
            assert bool(classed(cell, "unknown")) == (number == "0")
            if number != "0":
                check_ancestor(cell, told[number], listed[number]["id"], counts, generations < 5 or len(letters) <= 3)
    assert counts["left"] and counts["since"] and counts["inbred"] > 5 and counts["ancestor"] > 40


def check_facts(page: xml.Element, own: dict[str, str], owner: str, counts: collections.Counter[str]) -> None:
    """The animal's own lines, each behind its term."""
    terms, facts = ([words(one) for one in page.iter(f"{XHTML}{name}")] for name in ("dt", "dd"))
    shown = dict(zip(terms, facts, strict=True))
    assert shown["Number"] == own["animal"] and shown["Owner"] == (owner or NOT_KNOWN)
    assert shown["Sex"].startswith(own["sex"]) and shown["Born"].startswith(own["born"])
    nothing = ("has not left", "has left, day unknown")
    for word, term, none in ("left", "Left", nothing), ("since", "Owner since", (NOT_KNOWN,)):
        is_said = shown[term] not in none
        assert shown[term].startswith(own[word]) if is_said else word == "since" or own[word] == "-"
        counts[word] += is_said
    (coefficient,) = classed(page, "coefficient")
    fraction, percent = own["inbreeding"].split()
    assert words(next(coefficient.iter(f"{XHTML}b"))) == f"{percent}%"
    assert words(next(coefficient.iter(f"{XHTML}small"))).split(" = ")[0] == fraction


def check_ancestor(
    cell: xml.Element, told: dict[str, str], id: str, counts: collections.Counter[str], has_day: bool
) -> None:
    """The lines of an ancestor that stand in its cell: its birth day, or the year alone, and its coefficient."""
    assert words(next(cell.iter(f"{XHTML}b"))).startswith(id)
    (line,) = classed(cell, "line")
    fraction, percent = told["inbreeding"].split()
    assert words(line).startswith(told["born"] if has_day else told["born"][:4]) or "inferred" in words(cell)
    assert words(line).endswith(f"F {percent}%" if fraction != "0" else "F 0%")
    assert [words(one) for one in classed(cell, "inbred")] == [f"F {percent}%"] * (fraction != "0")
    counts["ancestor"] += 1
    counts["inbred"] += fraction != "0"


def test_one_run(society_desk: Desk) -> None:
    """The program is run once for certificates, of however many animals."""
    script = f'#!/bin/sh\necho "$1" >> "{society_desk.room}/runs"\nexec {society_desk.program} "$@"\n'
    counting = society_desk.room / society_desk.write("counting", script)
    counting.chmod(0o755)
    done = society_desk.run("certificate", "--living", program=str(counting))
    assert done.status == 0 and len(titles(society_desk)) > 300
    assert society_desk.text("runs").split().count("certificate") == 1


def edit(desk: Desk, text: str) -> None:
    """Somebody writes something else of an animal into the database."""
    with contextlib.closing(sqlite3.connect(desk.room / "book/book.sqlite")) as connection:
        connection.execute(f"UPDATE animal SET {text} WHERE id = 'GK-17/472c' AND until IS NULL")
        connection.commit()


def test_not_of_the_database(society_desk: Desk) -> None:
    """What the database has otherwise of an animal isn't printed, and an ancestor that it lacks is told."""
    society_desk.good("certificate", "GK-17/472c", "--out", "before.html")
    edit(society_desk, "born = '2017-11-20', departed = '2024-01-01', embryo = 1")
    society_desk.good("certificate", "GK-17/472c", "--out", "after.html")
    assert society_desk.text("before.html") == society_desk.text("after.html")
    edit(society_desk, "sire = NULL")
    told = "as an ancestor, and the book doesn't"
    society_desk.wrong(told, "certificate", "GK-17/472c", "--out", "wrong.html")


def test_society(society_desk: Desk) -> None:
    """What `settings` keeps stands on each page, with the day; it stays after other changes, and can be taken away."""
    society_desk.good("certificate", "GK-17/472c", "--out", "bare.html")
    assert not classed(pages(society_desk, "bare.html")[0], "letterhead")
    told = society_desk.good("settings", "--name", "Goats <of> the Vale", "--address", "Church Lane\n  UV1 2AB ").out
    assert told.startswith("name: Goats <of> the Vale\naddress: Church Lane, UV1 2AB\n")
    society_desk.good("exit", "GK-18/486b", "--day", "2021-01-01")
    society_desk.good("undo")
    assert society_desk.good("settings", "--address", "Church Lane 1").out.startswith("name: Goats <of> the Vale\n")
    society_desk.good("certificate", "GK-17/472c", "GK-02/119b", "--day", "2026-03-01", "--language", "de")
    for page in pages(society_desk, "book/certificates.html"):
        assert words(classed(page, "letterhead")[0]) == "Goats <of> the Vale Church Lane 1"
        assert "Ausgestellt am 01.03.2026" in words(page)
        assert "Unterschrift, für den Zuchtverband: Goats <of> the Vale" in words(page)
        assert not re.search(r"\d{4}-\d\d-\d\d", words(page))
    shown = words(pages(society_desk, "book/certificates.html")[0])
    assert "1/32 = 0,03125" in shown and "21.11.2017" in shown
    assert society_desk.good("settings", "--name", "", "--address", "").out.startswith(
        "name: not said\naddress: not said\n"
    )


def test_common_ancestors(desk: Desk) -> None:
    """Each has a letter wherever it stands; one that is further back on the other side has one too, and none that is
    on one side alone."""
    rows = """
        id,sex,birth,sire,dam
        far,m,1990-01-01,,
        a,m,1995-01-01,far,
        b,f,1995-01-01,,
        s,m,2000-01-01,a,b
        d1,f,2000-01-01,a,b
        c,m,2001-01-01,,
        d,f,2003-01-01,c,d1
        x,m,2006-01-01,s,d
        own,f,2009-01-01,x,
        calf,f,2012-01-01,x,own
        e,m,1996-01-01,far,
        e1,m,2000-01-01,e,
        e2,f,2003-01-01,e1,
        y,m,2004-01-01,s,e2
    """
    desk.take(rows)
    lettered = {}
    for id in "x", "calf", "y", "d":
        desk.good("certificate", id, "--force", "--out", "page.html")
        boxes = [
            (classed(box, "letter"), words(next(box.iter(f"{XHTML}b")))) for box in classed(pages(desk)[0], "common")
        ]
        lettered[id] = [(words(letter), name) for (letter,), name in boxes]
    # in the order of the lines: the dam's sire and dam, with their own parents
    assert lettered["x"] == [("A", "a"), ("B", "far"), ("C", "b"), ("A", "a"), ("C", "b")]
    assert lettered["calf"][0] == ("A", "x") and lettered["calf"].count(("A", "x")) == 2
    assert lettered["y"] == [("A", "far")]
    assert lettered["d"] == []
    desk.good("certificate", "calf", "--force", "--out", "page.html")
    assert "is further back on the other side" in words(pages(desk)[0])


def test_places(desk: Desk) -> None:
    """Each ancestor stands in its place: those of the sire above those of the dam."""
    ancestors = ["".join(one) for count in (1, 2, 3) for one in itertools.product("SD", repeat=count)]
    rows = "".join(
        f"{id},{'m' if id[-1] == 'S' else 'f'},{2005 - 5 * len(id)}-01-01,{f'{id}S,{id}D' if len(id) < 3 else ','}\n"
        for id in ancestors
    )
    desk.take(f"id,sex,birth,sire,dam\n{rows}own,f,2005-01-01,S,D\n")
    desk.good("certificate", "own", "--out", "page.html")
    drawn = [words(one) for one in pages(desk)[0].iter(f"{XHTML}b")]
    wanted = "S SS SSS SSD SD SDS SDD D DS DSS DSD DD DDS DDD".split()
    assert [id for id in drawn if id in ancestors] == wanted


def test_text_of_a_grandsire(desk: Desk) -> None:
    """What the sheet writes for a parent that is left out stands in that parent's place."""
    desk.take("id,sex,birth,sire,dam\nx,f,1990-01-01,,\nd,f,1995-01-01,x,\nown,f,2000-01-01,,d\n")
    desk.good("certificate", "own", "--out", "page.html")
    assert words(pages(desk)[0]).count("(in the sheet: x)") == 1


def test_letters() -> None:
    """After Z there are two, and many are told by the first and the last."""
    assert list(itertools.islice(letters(), 25, 29)) == ["Z", "AA", "AB", "AC"]
    assert letters_named(dict(zip("123", "ABC"))) == "A, B, C" and letters_named(dict(zip("1234", "ABCD"))) == "A–D"


def test_large_percentage(mrode_desk: Desk) -> None:
    mrode_desk.good("certificate", "5", "--out", "page.html")
    (coefficient,) = classed(pages(mrode_desk)[0], "coefficient")
    assert words(next(coefficient.iter(f"{XHTML}b"))) == "12.50%"
    assert words(next(coefficient.iter(f"{XHTML}small"))) == "1/8 = 0.125"
    # its sire's, in its sire's place
    mrode_desk.good("certificate", "6", "--force", "--out", "page.html")
    assert words(pages(mrode_desk)[0]).count("F 12.50%") == 1
