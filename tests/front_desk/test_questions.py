"""What is asked about animals: those that a text finds, and lists of some."""
from __future__ import annotations

import contextlib
import csv
import io
import sqlite3
from collections.abc import Callable
from fractions import Fraction

from front_desk.desk import Desk
from front_desk.sheet import Secretary


def test_find(secretary_desk: Desk) -> None:
    """In ids, names, numbers and owners, with capitals or without; of several texts each."""

    def ids(*texts: str) -> set[str]:
        return {row["id"] for row in secretary_desk.listed("find", *texts)}

    rows = Secretary().rows
    assert ids("hof süd") == {row["Ohrmarke"] for row in rows if row["Besitzer"].startswith("Hof Süd")}
    assert ids("löw") == {row["Ohrmarke"] for row in rows if "Löw" in row["Name"] or "Löw" in row["Besitzer"]}
    assert ids("LÖWE", "groß") == {r["Ohrmarke"] for r in rows if "Löwe" in r["Name"] and "Groß" in r["Besitzer"]}
    assert ids("DE-98/00") == {row["Ohrmarke"] for row in rows if "DE-98/00" in row["Ohrmarke"]}
    numbers = secretary_desk.numbers()
    assert ids(numbers["DE-98/003"].lower()) == {"DE-98/003"}
    secretary_desk.wrong("has 'Bärbelo': is Bärbel", "find", "Bärbelo")


def test_list_of_some(society_desk: Desk) -> None:
    # it has two rows in the history, and is one offspring of each of its parents
    society_desk.good("exit", "GK-17/472c", "--day", "2021-01-01")
    every = society_desk.listed("list", "--columns", "+sex,birth,sire,dam,owner,exit,offspring")
    by_id = {row["id"]: row for row in every}
    added = ("GK-90/011c", "IMP-7 (imported)")
    choices: list[tuple[list[str], Callable[[dict[str, str]], bool]]] = [
        (["--sex", "f"], lambda row: row["sex"][0] == "F"),
        (["--owner", "lower mill"], lambda row: row["owner"] == "Lower Mill"),
        (["--born", "2010..2012-06"], lambda row: "2010-01-01" <= row["birth"] <= "2012-06-30"),
        (["--living", "--sex", "m"], lambda row: not row["exit"] and row["sex"] == "M" and row["id"] not in added),
    ]
    for words, is_in in choices:
        ids = [row["id"] for row in society_desk.listed("list", *words)]
        assert ids == [row["id"] for row in every if is_in(row)], words
        assert 5 < len(ids) < 400
    for row in every:
        assert row["offspring"] == str(sum(row["id"] in (one["sire"], one["dam"]) for one in every))
        assert not row["sire"] or by_id[row["sire"]]["sex"][0] == "M"
    society_desk.wrong("is Lower Mill meant?", "list", "--owner", "Lower Mil")
    society_desk.wrong("there is no column 'color'", "list", "--columns", "id,color")


def test_edges_of_choices(desk: Desk) -> None:
    """First and last days, days of which the year isn't known, exits without a day, animals that were filed, and
    parents without a row."""
    desk.take(
        """
        id,sex,birth,sire,dam,owner,exit
        first,m,2010-01-01,,,Low Mill,
        last,f,2012-12-31,,,Low Mill,
        after,f,2013-01-01,,,Low Mill,
        before,f,2009-12-31,,,Low Mill,
        in its year,f,2011,,,Low Mill,
        gone,f,2011-05-05,,,Low Mill,verkauft
        sold,m,2011-05-06,,,Low Mill,2015-01-01
        calf,f,2012-06-01,added,,Hill,
        """
    )
    desk.good("birth", "filed", "--sex", "f", "--day", "2012-07-01", "--owner", "Low Mill")
    rows = desk.listed("list", "--born", "2010..2012", "--columns", "id,birth,exit")
    assert [row["id"] for row in rows] == ["first", "gone", "sold", "in its year", "calf", "filed", "last"]
    assert (rows[1]["exit"], rows[2]["exit"], rows[3]["birth"]) == (
        "day unknown: 'verkauft'",
        "2015-01-01",
        "2011-07-02 (inferred)",
    )
    living = ["before", "first", "in its year", "filed", "last", "after"]
    assert [row["id"] for row in desk.listed("list", "--living", "--owner", "LOW mill")] == living
    assert desk.listed("find", "added")[0]["sex"] == "M (inferred)"
    assert "  in the book   filed by hand\n" in desk.good("show", "filed").out


def test_list_of_what_is_not_whole(mrode_desk: Desk) -> None:
    """No animal is left out for a coefficient that lacks."""
    with contextlib.closing(sqlite3.connect(mrode_desk.room / "book/book.sqlite")) as connection, connection:
        connection.execute("DELETE FROM coefficient WHERE place = 3")
    told = "keeps 5 coefficients of 6 animals, so it isn't whole: restore a backup"
    for words in ["list"], ["list", "--sex", "f"], ["export"]:
        mrode_desk.wrong(told, *words)


def test_computed_columns(mrode_desk: Desk) -> None:
    """Mrode's six animals: D of Henderson's rules, Maignel's generations, and means of the tabular matrix's rows, over
    those that live."""
    words = "id,equivalent-generations,full generations,sampling_variance,mean-kinship"
    rows = mrode_desk.listed("list", "--columns", words)
    assert [row["sampling_variance"] for row in rows] == ["1", "1", "0.5", "0.75", "0.5", "0.46875"]
    assert [row["equivalent_generations"] for row in rows] == ["0", "0", "1", "0.5", "1.75", "1.875"]
    assert [row["full_generations"] for row in rows] == ["0", "0", "1", "0", "1", "1"]
    matrix = list(csv.reader(io.StringIO(mrode_desk.good("kinship", *"123456", "--matrix", "kinship").out)))
    for living in 6, 5:
        for row, line in zip(mrode_desk.listed("list", "--columns", "mean_kinship"), matrix[1:]):
            mean = sum(map(Fraction, line[1 : living + 1]), Fraction(0)) / living
            assert abs(Fraction(row["mean_kinship"]) - mean) < Fraction(1, 10**9)
        mrode_desk.good("exit", str(living), "--day", "2001-01-01")
