"""What is inferred where a sheet doesn't give it."""
from __future__ import annotations

import datetime

from front_desk.desk import Desk
from gudokeyi.domain.findings import Report
from gudokeyi.domain.provenance import BirthBasis, BirthSource
from gudokeyi.ingest.animals import SheetAnimal
from gudokeyi.ingest.days import read_span, year_of
from gudokeyi.reconcile.birth_days import Days
from gudokeyi.reconcile.findings.animals import BirthDayInferred

NEAREST = BirthBasis(BirthSource.NEAREST)


def test_inferred_days(desk: Desk) -> None:
    """A day lies in its year or month, after the parents' and before the calves'."""
    done = desk.take(
        """\
        id,sex,born,sire,dam
        year,F,2001,,
        month,M,03.2002,,
        late,F,2001-12-30,,
        squeezed,F,2001,,late
        calves,F,,,
        calf,F,2010-05-06,,calves
        later,F,2013-01-01,,calves
        parents,F,,month,
        between,F,,,late
        child,M,2002-01-02,,between
        first,F,,,
        chain1,M,,,
        chain2,M,,chain1,
        chain3,M,2001-01-02,chain2,
        mate,F,,,
        theirs,F,,month,mate
        early,F,2005,,
        spring,F,2005-03-04,,early
        alike,F,2001,,year
        """
    )
    born = desk.born()
    wanted = {
        "year": "2001-07-02", "month": "2002-03-16", "squeezed": "2001-12-31", "calves": "2008-05-06",
        "parents": "2004-03-15", "between": "2001-12-31",
        "first": "1900-01-01", "chain1": "1997-01-03", "chain2": "1999-01-03", "mate": "2002-03-16",
        "theirs": "2004-03-15", "early": "2005-03-03", "alike": "2001-07-03",
    }  # fmt: skip
    assert wanted.items() <= born.items()
    assert " 13 inferred, 0 left out" in done.last
    marks = {row["id"]: row["birth"] for row in desk.table("book/ids.csv") if row["birth"]}
    assert marks.keys() == wanted.keys()
    assert marks["year"] == "from the year 2001"
    assert marks["calves"] == "from its offspring"
    listed = {row["id"]: row["birth"] for row in desk.listed("list")}
    assert all(listed[id] == born[id] + (" (inferred)" if id in wanted else "") for id in born)


def found_days(*animals: SheetAnimal, kept: dict[str, str] | None = None) -> dict[str, tuple[str, bool]]:
    """The days that are found for those that have none, of which parents stand before their offspring, and whether
    each is told as the book's; `kept` are those that were found for the book."""
    before = {id: (datetime.date.fromisoformat(day).toordinal(), NEAREST) for id, day in (kept or {}).items()}
    report, undated = Report(), [one.id for one in animals if not one.has_day()]
    Days({one.id: one for one in animals}, undated, before).infer(report)
    told = [(one.id, one.finding) for one in report.entries if isinstance(one.finding, BirthDayInferred)]
    return {id: (str(one.day), one.is_kept) for id, one in told}


def test_days_that_cells_and_the_book_leave_open() -> None:
    """A cell's month or year holds whatever calves and the book say, and so its reason does; a stored embryo may be
    born behind its dam's exit."""
    day = datetime.date.fromisoformat
    calf = SheetAnimal("calf", 2, birth=read_span("2004-03-04"), dam="cow")
    assert found_days(SheetAnimal("cow", 3, birth=year_of(2005)), calf) == {"cow": ("2005-01-01", False)}
    one = SheetAnimal("one", 2, birth=year_of(2003))
    assert found_days(one, kept={"one": "2003-04-05"}) == {"one": ("2003-04-05", False)}
    assert found_days(one, kept={"one": "2004-04-05"}) == {"one": ("2003-07-02", False)}
    assert found_days(SheetAnimal("one", 2), kept={"one": "2004-04-05"}) == {"one": ("2004-04-05", True)}
    dam = SheetAnimal("dam", 2, birth=read_span("2001-01-01"), left=day("2006-03-04"))
    later = SheetAnimal("later", 4, birth=read_span("2010-01-01"), sire="bull")
    for embryo, born in (True, "2008-01-02"), (False, "2006-03-04"):
        assert found_days(dam, SheetAnimal("bull", 3, dam="dam", embryo=embryo), later) == {"bull": (born, False)}


def test_inferred_days_of_those_that_left(desk: Desk) -> None:
    """A day that isn't known is none behind the exit of its animal or of its sire."""
    done = desk.take(
        "id,sex,born,sire,dam,exit\ncow,F,2001-01-01,,,2006-03-04\ncalf,F,,,cow,\nown,F,,,cow,2002-01-01\n"
        "later,F,2010-01-01,,calf,\n"
    )
    assert desk.born()["calf"] == "2006-03-04"
    assert desk.born()["own"] == "2002-01-01"
    assert " 0 left out" in done.last


def test_days_that_come(desk: Desk) -> None:
    """A day that becomes known is taken over, numbers stay, and an inferred day stays where it can."""
    desk.take("id,sex,born,sire,dam\nmother,F,,,\ncalf,M,2005-06-07,,mother\nyear,F,2003,,\n")
    before, numbers = desk.born(), desk.numbers()
    done = desk.take(
        "id,sex,born,sire,dam\nmother,F,,,\ncalf,M,2005-06-07,,mother\nyear,F,02.02.2003,,\n"
        "elder,M,2004-08-08,,mother\n"
    )
    after = desk.born()
    assert (before["mother"], after["mother"], after["year"]) == ("2003-06-08", "2003-06-08", "2003-02-02")
    assert desk.numbers().items() >= numbers.items()
    done.tells("line 4: year: changed: birth day: 2003-02-02, before 2003-07-02")
    done = desk.take(
        "id,sex,born,sire,dam\nmother,F,,,\ncalf,M,2005-06-07,,mother\nyear,F,,,\nelder,M,2004-08-08,,mother\n"
        "eldest,M,2003-01-01,,mother\n"
    )
    assert desk.born()["mother"] == "2002-12-31"
    assert desk.born()["year"] == "2003-02-02"
    done.tells("line 4: year: inferred: birth day 2003-02-02, as in the book, since its cell gives none")


def test_reasons_that_stay(desk: Desk) -> None:
    """An inferred day that stays has the reason by which it was inferred, whether its animal has a row or is gone;
    one that has to change gets another."""
    rows = "id,sex,born,sire,dam,exit\nbull,M,2001-01-01,,,\ncalf,M,2009-06-07,,mother,\n"
    earliest = "the earliest that it can be, since no parent and no offspring has one"
    undated = {
        "year": ("year,F,2003,,,", "birth day 2003-07-02, from the year 2003"),
        "mother": ("mother,F,,,,", "birth day 2007-06-08, from its offspring"),
        "young": ("young,F,,bull,,", "birth day 2003-01-01, from its parents"),
        "alone": ("alone,F,,,,", f"birth day 1900-01-01, {earliest}"),
    }

    def sheet(*more: str) -> str:
        return rows + "".join(row + "\n" for row in more)

    told = [f"line {at}: {id}: inferred: {day}" for at, (id, (_, day)) in enumerate(undated.items(), 4)]
    desk.take(sheet(*(row for row, _ in undated.values()))).tells(*told)
    # all are gone, and then what their days were inferred from is another: it isn't told as if it held today
    as_in_book = ", as in the book, where it was inferred: "
    in_book = {id: day.replace(", ", as_in_book, 1) for id, (_, day) in undated.items()}
    for now in sheet(), sheet(), rows.replace("mother", "").replace("2001-01-01", "2000-01-01"):
        named = {"mother": " (line 3 names it)"} if "mother" in now else {}
        done = desk.take(now)
        done.tells(*(f"{id}: inferred: {day}{named.get(id, '')}" for id, day in in_book.items()))
        reasons = {row["id"]: row["birth"] for row in desk.table("book/ids.csv") if row["birth"]}
        found = {id: f"birth day {desk.born()[id]}, {why}" for id, why in reasons.items()}
        assert found == {id: day for id, (_, day) in undated.items()}, f"{found}"
    desk.good("trend")
    words = "".join(desk.page("book/trend.svg").itertext())
    assert "2003: " in words
    assert "3 more have no known birth year" in words
    # they have rows again, whose cells for the day are empty; one is a parent now
    again = [row.replace("2003", "") for row, _ in undated.values()]
    told = [f"line {at}: {id}: inferred: {day}" for at, (id, day) in enumerate(in_book.items(), 4)]
    desk.take(sheet(*again, "late,F,2020-01-01,,alone,")).tells(*told)
    done = desk.take(sheet(*again, "late,F,2002-01-01,,year,"))
    done.tells("line 4: year: inferred: birth day 2001-12-31, from its offspring")
    again[1] += "2005-01-01"
    done = desk.take(rows.replace("mother", "") + "".join(row + "\n" for row in again))
    why = "the nearest to the book's that an exit leaves open"
    done.tells(f"line 5: mother: inferred: birth day 2005-01-01, {why}")


def test_listed(desk: Desk) -> None:
    """A list that is taken back says nothing new of a day that it marks; with another day its cell has a year."""
    desk.take("id,sex,born,sire,dam\nmonth,F,2006-03,,\nyear,F,2007,,\ncalf,F,2012-03-16,,month\n")
    before = desk.ids()
    columns = ["--columns", "id,birth,sire,dam"]
    listed = desk.good("list", *columns).out
    assert "2006-03-16 (inferred)" in listed and "2007-07-02 (inferred)" in listed
    done = desk.take(listed)
    assert " 0 changed, 2 inferred" in done.last and desk.ids() == before
    done.tells(
        "line 2: month: inferred: birth day 2006-03-16, as in the book, where it was inferred: from the month 2006-03"
    )
    done = desk.take(listed.replace("2006-03-16", "2006-04-16"))
    done.tells("line 2: month: inferred: birth day 2006-03-16, from the year 2006 of '2006-04-16 (inferred)'")
    # days that were invented stay that too
    desk.good("import", "--pedigree", desk.write("p.txt", "x 0 0\ny x 0\n"), "--book", "p")
    listed = desk.good("list", "--book", "p", *columns).out
    desk.take(listed, "--book", "p")
    assert desk.good("list", "--book", "p", *columns).out == listed and "(invented)" in listed


def test_year_of_an_animal_that_is_gone(desk: Desk) -> None:
    """A year that an earlier sheet said holds, whatever offspring other parts of the flock have."""
    desk.take("id,sex,born,sire,dam\ndam,F,2015,,\nc1,F,2018-01-01,,dam\n")
    later = "id,sex,born,sire,dam\nc2,F,2014-06-03,,dam\nc1,F,2018-01-01,,dam\n"
    for _ in range(2):
        done = desk.take(later)
        assert desk.born()["dam"].startswith("2015-") and desk.parents()["c1"] == ("", "dam")
        assert (
            "line 2: c2: its dam dam (born 2015-01-01 (inferred)) is left out: it isn't at least a day older"
            in done.told
        )


def test_invented_days(desk: Desk) -> None:
    """A day that was invented for a pedigree stays marked as that once the animal is gone, or has a row without
    a day."""
    desk.good("import", "--pedigree", desk.write("pedigree.txt", "x 0 0\ny x 0\n"))
    done = desk.take("id,born,sire,dam\nz,2020-01-01,x,\n")
    in_book = "as in the book, where it was invented"
    done.tells(
        f"x: inferred: birth day 1900-01-01, {in_book} (line 2 names it)",
        f"y: inferred: birth day 1900-01-02, {in_book}",
    )
    listed = {row["id"]: row["birth"] for row in desk.listed("list")}
    assert all(listed[id].endswith(" (invented)") for id in "xy")
    # the parents of a sheet aren't swapped: one that is refused is shown with the sheet's text
    done = desk.take("id,sex,born,sire,dam\nx,M,,,\ny,F,,x,x\n")
    done.tells(
        f"line 3: y: inferred: birth day 1900-01-02, {in_book}",
        "line 3: y: its dam x (line 2) is left out: it isn't female (refusal 6)",
    )
    desk.good("certificate", "y", "--force", "--out", "page.html")
    words = " ".join("".join(desk.page("page.html").itertext()).split())
    assert "unknown (in the sheet: x)" in words
    assert "(in sheet)" not in words


def test_sexes(desk: Desk) -> None:
    """Without a column of sexes a sire is male and a dam female; what is corrected keeps its digits."""
    for _ in range(2):
        done = desk.take("id,born,sire,dam\na,2001-01-01,,\nb,2001-02-01,,\nc,2003-01-01,a,b\nd,2004-01-01,,\n")
        done.tells("line 5: d: inferred: sex female, since nothing else is known")
    assert [number[6] for number in desk.numbers().values()] == ["M", "F", "F", "F"]
    assert " 4 inferred" in done.last
    desk.take("id,born,sire,dam\na,2001-01-01,,\nb,2001-02-01,,\nc,2003-01-01,a,b\nd,2004-01-01,,\ne,2008-01-01,d,c\n")
    assert desk.numbers()["d"] == "HOLGBRM000000000004"
    done = desk.take(
        "id,sex,born,sire,dam\na,M,2001-01-01,,\nb,F,2001-02-01,,\nc,M,2003-01-01,a,b\nd,M,2004-01-01,,\n"
        "e,F,2008-01-01,d,c\n"
    )
    assert desk.numbers()["c"] == "HOLGBRM000000000003"
    done.tells("line 6: e: its dam c (line 4) is left out: it isn't female (refusal 6)")
    done.tells(
        "line 4: c: changed: sex: male, before female",
        "line 4: c: changed: number: HOLGBRM000000000003, before HOLGBRF000000000003",
        "line 6: e: changed: dam: none, before c",
    )


def test_sire_and_dam_without_a_sex(desk: Desk) -> None:
    """An animal that is a sire and a dam is male, as the first of the two says."""
    done = desk.take("id,born,sire,dam\na,2001,,\nb,2003,a,\nc,2004,,a\n")
    done.tells(
        "line 4: c: its dam a (line 2) is left out: it isn't female (refusal 6); its sex is inferred: male,"
        " since it is a sire"
    )
    # what the book has is preferred to what it is more often
    desk.take("id,born,sire,dam\na,2001,,\nb,2003,,a\n", "--book", "dam")
    again = desk.take("id,born,sire,dam\na,2001,,\nb,2003,,a\nc,2004,a,\nd,2005,a,\n", "--book", "dam")
    assert "2 left out (2 parents)" in again.last and "number" not in again.out
