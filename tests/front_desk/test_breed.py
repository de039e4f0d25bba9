"""The words on the breed as a whole: the page and the tables of its state, and plans of matings."""
from __future__ import annotations

import csv
import datetime
import io
import itertools
import re
import unicodedata
from fractions import Fraction

import pytest

import reference
from front_desk.desk import Desk
from gudokeyi.genetics.measures import Name

TITLES = {
    "years.csv": "year,animals,sires,",
    "completeness.csv": "generation,known,exact",
    "intervals.csv": "path,pairs,years,exact",
    "founders.csv": "id,is,contribution,exact,contribution_so_far",
    "ancestors.csv": "id,is,contribution,exact,contribution_so_far",
    "animals.csv": "id,name,number,sex,birth,coefficient,mean_kinship,",
}


def measured(desk: Desk, *words: str) -> dict[str, str]:
    """The exact values of the measures."""
    desk.good("breed", *words, "--csv", "tables", "--force")
    return {row["measure"]: row["exact"] for row in desk.table("tables/measures.csv")}


def test_tables(secretary_desk: Desk) -> None:
    """The measures beside the list, and beside the relationships of all pairs by the reference."""
    desk = secretary_desk
    found = measured(desk)
    assert set(found) <= {name.value for name in Name}
    numbers = {row["number"]: Fraction(row["coefficient"]) for row in desk.table("tables/animals.csv")}
    assert found["animals"] == str(len(numbers))
    assert Fraction(found["mean_inbreeding"]) == sum(numbers.values()) / len(numbers)
    assert int(found["inbred_animals"]) == sum(coefficient > 0 for coefficient in numbers.values())
    entry = reference.filed(desk.text("book/commands.csv"))[0].relationships()
    total = sum((entry(one, other) for one, other in itertools.product(numbers, repeat=2)), Fraction(0))
    assert Fraction(found["mean_kinship"]) == total / 2 / len(numbers) ** 2
    for name, titles in TITLES.items():
        assert desk.text(f"tables/{name}").startswith(titles)
    kinships = [Fraction(row["mean_kinship_exact"]) for row in desk.table("tables/animals.csv")]
    assert kinships == sorted(kinships)
    assert float(desk.table("tables/founders.csv")[-1]["contribution_so_far"]) == pytest.approx(1)


def test_populations(secretary_desk: Desk) -> None:
    desk = secretary_desk
    all_animals = desk.listed("list")
    born = [row["id"] for row in all_animals if "2005" <= row["birth"][:4] <= "2007" and "(" not in row["birth"]]
    assert measured(desk, "--born", "2005..2007")["animals"] == str(len(born))
    assert int(measured(desk, "--born", "..2007-12-31")["animals"]) > len(born)
    kept = desk.write("some.txt", "id\n" + "\n".join(born[:7]))
    assert measured(desk, "--among", kept)["animals"] == "7"
    owner = next(name for _, name in desk.owners() if not name.isascii())
    assert 0 < int(measured(desk, "--owner", owner)["animals"]) < len(all_animals)
    # as other programs write its letters
    apart = unicodedata.normalize("NFD", owner)
    assert apart != owner and measured(desk, "--owner", f" {apart}") == measured(desk, "--owner", owner)


@pytest.mark.parametrize(("words", "told"), [
    (["--owner", "nobody"], "the book has no owner 'nobody'"),
    (["--born", "1900..1901"], "the book has none of the animals born 1900-01-01 – 1901-12-31"),
    (["--born", "lately"], "'lately' isn't written as 2010..2019"),
    (["--csv", "absent/tables"], "absent/tables can't be made: there is no folder absent: make it first"),
    (["--csv", "sheet.csv"], "sheet.csv is a file: name a folder"),
    (["--among", "none.txt"], "there is no file none.txt: write the ids into one"),
])  # fmt: skip
def test_mistakes(secretary_desk: Desk, words: list[str], told: str) -> None:
    secretary_desk.wrong(told, "breed", *words)


@pytest.mark.parametrize(("language", "title"), [
    ("en", "The state of the breed"), ("de", "Der Zustand der Rasse"), ("fr", "L'état de la race"),
])  # fmt: skip
def test_page(desk: Desk, language: str, title: str) -> None:
    """Ids of any letters are escaped; of founders alone no rate can be had, and the page says why."""
    desk.take('id,sex,birth,sire,dam\n<b>&,m,2001,,\n"a ""b""",f,2001,,\n')
    done = desk.good("breed", "--language", language)
    assert done.out == "book/breed.html is written, of 2 animals: open it in a browser\n"
    page = " ".join(desk.page("book/breed.html").itertext())
    assert title in page and "<b>&" in page and "– (" in page


def test_tables_of_a_pedigree_without_days(desk: Desk) -> None:
    """What needs birth days can't be had, and the other measures can."""
    desk.good("import", "--pedigree", desk.write("pedigree.txt", "a 0 0\nb 0 0\nc a b\nd a b\ne c d\n"))
    desk.wrong("the book is of a pedigree without exits, so that each animal would count as living", "breed")
    found = measured(desk, "--living")
    assert found["mean_inbreeding"] == "1/20" and found["generation_interval"] == ""
    assert desk.table("tables/years.csv") == []


def planned(desk: Desk, *words: str) -> list[dict[str, str]]:
    return list(csv.DictReader(io.StringIO(desk.good("plan", *words).out)))


def test_plan(secretary_desk: Desk) -> None:
    """Each dam has a sire, no sire has too many, the coefficients are those of `mating`, and the sum is least."""
    desk = secretary_desk
    ids = {sex: [row["id"] for row in desk.listed("list") if row["number"][6] == sex][-12:] for sex in "MF"}
    dams, sires = desk.write("dams.txt", "\n".join(ids["F"])), desk.write("sires.txt", "\n".join(ids["M"][-3:]))
    words = ["--dams", dams, "--sires", sires]
    pairs = planned(desk, *words, "--table")
    assert len(pairs) == 36
    for dam in ids["F"][:3]:
        advised = {row["id"]: row["coefficient"] for row in desk.listed("mating", "--dam", dam, *ids["M"][-3:])}
        assert {row["sire"]: row["coefficient"] for row in pairs if row["dam"] == dam} == advised
    plan = planned(desk, *words, "--most-for-a-sire", "5")
    assert [row["dam"] for row in plan] == [dam for dam in dict.fromkeys(row["dam"] for row in pairs)]
    used = [row["sire"] for row in plan]
    assert max(map(used.count, used)) <= 5
    free = planned(desk, *words, "--most-for-a-sire", "any")
    least = {dam: min(Fraction(row["coefficient"]) for row in pairs if row["dam"] == dam) for dam in ids["F"]}
    assert sum(Fraction(row["coefficient"]) for row in free) == sum(least.values())


def test_plan_with_bounds(secretary_desk: Desk) -> None:
    desk = secretary_desk
    done = desk.good("plan", "--at-most", "0", "--most-for-a-sire", "1")
    assert all(row["coefficient"] == "0" for row in csv.DictReader(io.StringIO(done.out)))
    assert "gudokeyi: not mated, since " in done.err
    assert " matings: the mean coefficient of the offspring is 0.00%" in done.err
    old = {row["id"] for row in desk.listed("list") if row["birth"] < "1999"}
    assert {row["dam"] for row in planned(desk, "--minimum-age", "9999")} <= old
    desk.wrong("'2' isn't a fraction or a decimal from 0 to 1", "plan", "--at-most", "2")
    males = desk.write("males.txt", next(row["id"] for row in desk.listed("list") if row["number"][6] == "M"))
    desk.wrong("no dam can be male", "plan", "--dams", males)


def test_plan_assumes(secretary_desk: Desk) -> None:
    """Where nothing is said no sire has more than twice the even share, and an age is assumed, which is told."""
    desk = secretary_desk
    done = desk.good("plan")
    plan = list(csv.DictReader(io.StringIO(done.out)))
    sires = {row["sire"] for row in planned(desk, "--table", "--minimum-age", "0")}
    said = re.search(r"no sire has more than ([\d,]+) dams, twice as many", done.err)
    assert said and int(said[1]) == -(-2 * len(plan) // len(sires))
    used = [row["sire"] for row in plan]
    assert max(map(used.count, used)) <= int(said[1]) < len(plan)


def test_plan_assumes_an_age(desk: Desk, today: datetime.date) -> None:
    """Young animals are left out: those of a year, or those that are younger than parents of the book were; animals
    that are named are taken, and so are those of which no birth year is known."""

    def before(days: int) -> datetime.date:
        return today - datetime.timedelta(days)

    rows = ["id,sex,birth,sire,dam", f"ram,m,{before(3000)},,", f"ewe,f,{before(3000)},,", f"lamb,f,{before(300)},ram,ewe",
            "nobody,f,,,"]  # fmt: skip
    desk.take("\n".join(rows))
    done = desk.good("plan")
    assert [row["dam"] for row in csv.DictReader(io.StringIO(done.out))] == ["nobody", "ewe"]
    assert "assumed: parents are 365 days old at least (left out: 1 younger animal)" in done.err
    assert "lamb" in desk.good("plan", "--minimum-age", "0").out
    assert "lamb" in desk.good("plan", "--dams", desk.write("dams.txt", "lamb\n")).out
    # dams of 280 days, and one of 100 that doesn't count among twenty
    early = [
        f"dam{at},f,{before(2000)},,\nkid{at},m,{before(2000 - (280 if at else 100))},ram,dam{at}" for at in range(40)
    ]
    desk.take("\n".join(rows + early))
    done = desk.good("plan")
    assert (
        "lamb" in done.out and "parents are 280 days old at least, as nineteen of twenty of the book's 42" in done.err
    )


def test_plan_of_days_after_today(desk: Desk) -> None:
    """Invented days of a long pedigree go on after today, and no age is asked unless that is wished."""
    text = "id sire dam sex birth\ns 0 0 M 2190-01-01\nd 0 0 F 2190-01-02\n"
    desk.good("import", "--pedigree", desk.write("ahead.txt", text))
    assert "1 mating" in desk.good("plan").err
