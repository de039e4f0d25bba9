"""What is taken as it stands, and told for somebody to look at."""
from __future__ import annotations

import datetime
from types import SimpleNamespace
from typing import cast

import pytest

from front_desk.desk import CALLED, Desk
from front_desk.replayed import replay
from gudokeyi.domain.animals import SocietyRecord
from gudokeyi.domain.commands import birth
from gudokeyi.domain.kinds import Remembered, Role
from gudokeyi.domain.provenance import BirthBasis, BirthSource
from gudokeyi.reconcile.findings.by_hand import YoungParent
from gudokeyi.reconcile.by_hand import young_parents
from gudokeyi.services.filing import with_parents
from gudokeyi.store.book import Book
from gudokeyi.store.state import Meaning

TITLES = "id;sex;birth;sire;dam;exit\n"
PARENTS = "s;M;2001-03-01;;;\nd;F;2001-03-02;;;\n"


def test_young_parents(desk: Desk) -> None:
    rows = PARENTS + "c;M;2001-07-29;s;d;\n"
    done = desk.take(TITLES + rows)
    done.shows(
        "line 4: c: to look at: its sire s (line 2) was 150 days old at its birth, less than 180",
        "line 4: c: to look at: its dam d (line 3) was 149 days old at its birth, less than 180",
    )
    assert desk.parents()["c"] == ("s", "d")
    assert "to look at" not in desk.take(TITLES + rows, "--youngest", "149").out
    # the limit stays with the book
    done = desk.take(TITLES + rows)
    assert "to look at" not in done.out
    done.shows("columns as last time")
    done = desk.take(TITLES + rows, "--youngest", "300")
    done.tells(
        "line 4: c: to look at: its dam d (line 3) was 149 days old at its birth, less than 300; if that can be, say "
        "--youngest 149"
    )
    # the one command is for both parents, and takes back what was said
    assert done.commands() == [f"{CALLED} import sheet.csv --youngest 149"]
    # a day that is inferred tells nothing
    assert "days old" not in desk.take(TITLES + "p;M;2001;;;\nq;F;2001-08-01;p;;\n", "--book", "inferred").out


def test_limit_of_a_later_row(desk: Desk) -> None:
    """The limit that is suggested behind the first row says that it is that of all."""
    first, second = "c;M;2001-07-29;s;;\n", "e;M;2001-06-29;s;;\n"
    for rows, case in ((first + second, "if all of these can be"), (second + first, "if that can be")):
        done = desk.take(TITLES + PARENTS + rows, "--preview")
        lines = done.out.splitlines()
        assert lines[1] == f"  {case}:" and lines[2].endswith("--youngest 120"), done.out


def test_old_parents(desk: Desk) -> None:
    """One that would be older than animals get; as old as semen may be is nothing odd, nor is an inferred day."""
    rows = "s;M;1905-06-26;;;\nd;F;1959-03-02;;;\nu;M;1910;;;\nc;M;2019-03-01;s;d;\ne;F;2019-03-02;u;d;\n"
    told = "its sire s (line 2) would have been 113 years old at its birth: is one of the birth days wrong?"
    done = desk.take(TITLES + rows)
    done.shows(f"line 5: c: to look at: {told}")
    assert done.told.count("would have been") == 2 and "its dam d" not in done.told and "its sire u" not in done.told
    assert desk.parents()["c"] == ("s", "d")


def test_young_parents_by_hand() -> None:
    """They are told where they are younger than the book says, at least a day old, and no day of theirs is inferred."""
    sire, dam, calf = (SocietyRecord(f"SKUDEU{'F' if at else 'M'}{at:012}", id) for at, id in enumerate("sdc"))
    day, inferred = datetime.date(2001, 7, 29), BirthBasis(BirthSource.NEAREST)
    ages = ((sire, 149), (dam, 150), (calf, 0))
    born = {one.registration_number: day - datetime.timedelta(days) for one, days in ages}
    records = replay(birth(number, one, "", "", 1, False) for number, one in born.items())
    number = calf.registration_number
    records[number] = records[number]._replace(sire=sire.registration_number, dam=dam.registration_number)
    remembered = [Meaning(Remembered.YOUNGEST, "150"), Meaning(Remembered.APART, "500")]
    book, other = (cast(Book, SimpleNamespace(records=records, remembered=its)) for its in (remembered, []))
    told = [YoungParent(Role.SIRE, "s", 0, 149, 150)]
    assert [*young_parents(book, day, sire, dam)] == [*with_parents(book, calf, sire, dam).findings] == told
    both = [YoungParent(Role.SIRE, "s", 0, 149, 180), YoungParent(Role.DAM, "d", 0, 150, 180)]
    assert [*young_parents(other, day, sire, dam)] == both and [*young_parents(other, day, None, dam)] == both[1:]
    assert [*young_parents(other, born[sire.registration_number], sire, dam._replace(birth=inferred))] == []
    assert with_parents(book, calf._replace(birth=inferred), sire, dam).findings == ()


FAMILY = (
    "id;name;sex;birth;sire;dam;owner;exit\ns;Sultan;M;2001-03-01;;;Oak;2004-01-01\nw;;wether;2001-03-01;;;Oak;\n"
    "d;;F;2002-03-02;;;Oak;\nc;Cora;F;2004-05-01;s;d;Oak;\ne;Zoe;F;2004-05-01;;;Oak;\nz;Zoé;F;2000-05-01;;;Oak;\n"
)
BIRTH = ("birth", "n", "--sex", "f", "--owner", "Oak")


@pytest.mark.parametrize("words, told", [
    (("--dam", "d", "--day", "2002-06-01"), "n: to look at: its dam d was 91 days old at its birth, less than 180"),
    (("--dam", "c", "--day", "2004-06-01"), "n: to look at: its dam c was 31 days old at its birth, less than 180"),
    (("--dam", "d", "--day", "2004-06-01"), "n: to look at: its dam d bore c 31 days before, less than 100"),
    (("--dam", "d", "--day", "2004-04-01"), "c: to look at: its dam d bore n 30 days before, less than 100"),
    (("--sire", "s", "--day", "2005-06-01"), "its sire s left on 2004-01-01, more than a year before its birth on 2005-06-01"),
    (("--sire", "w", "--day", "2005-06-01"), "w: to look at: it is the sire of n, and the book has it as castrated"),
    (("--name", "cora", "--day", "2004-05-01"), "n: to look at: c has its name and its birth day too"),
    (("--dam", "z", "--day", "2006-06-01"), "z: to look at: its name is 'Zoé', and e is called 'Zoe': is that one meant?"),
    (("--owner", "Oakk", "--day", "2006-06-01"), "n: to look at: the book had no owner 'Oakk' before: is 'Oak' meant?"),
])  # fmt: skip
def test_by_hand(desk: Desk, words: tuple[str, ...], told: str) -> None:
    """What may be wrong is said before a birth is filed, by the rules of sheets; then it is filed where somebody says
    so, and the history keeps both."""
    desk.take(FAMILY)
    desk.wrong(told, *BIRTH, *words)
    done = desk.wrong("say --anyway to file it all the same", *BIRTH, *words)
    assert done.err.count("to look at") == 1
    assert told.replace("to look at: ", "") in desk.good(*BIRTH, *words, "--anyway").err
    assert told in desk.good("history", "2").out
    # what is there already isn't told again
    desk.good("correct", "n", "--name", "Nora", *(["--anyway"] if "cora" in words else []))


def test_corrected_by_hand(desk: Desk) -> None:
    """A correction is looked at with all its offspring, and what the book has already isn't told."""
    desk.take(FAMILY)
    desk.wrong("c: to look at: its dam d was 30 days old at its birth", "correct", "d", "--born", "2004-04-01")
    desk.wrong("c: to look at: its sire s left on 2003-01-01, more than a year", "correct", "s", "--exit", "2003-01-01")
    desk.wrong("s: to look at: it is the sire of c, and the book has it as castrated", "correct", "s", "--castrated", "yes")
    desk.wrong("c: to look at: the book had no owner 'oak' before", "correct", "c", "--owner", "oak")
    desk.wrong("z: to look at: its name is 'Zoé', and e is called 'Zoe'", "parents", "c", "--dam", "z")
    desk.good("correct", "s", "--castrated", "yes", "--anyway")
    desk.good("correct", "s", "--name", "Sulla")
    desk.good("exit", "c", "--day", "2005-01-01")


def test_births_of_one_dam(desk: Desk) -> None:
    """Twins are born on one day or nearly; other births are months apart."""
    rows = PARENTS + "c1;M;2003-03-01;s;d;\nc2;F;2003-03-02;s;d;\nc3;F;2003-05-30;s;d;\n"
    done = desk.take(TITLES + rows)
    done.shows("line 6: c3: to look at: its dam d bore c2 (line 5) 89 days before, less than 100")
    assert done.commands() == [f"{CALLED} import sheet.csv --apart 89"]
    assert done.out.count("to look at") == 1
    assert "to look at" not in desk.take(TITLES + rows, "--apart", "60").out


def herd(*days: int, dams: int = 12) -> str:
    """Dams with a foal behind each of these days."""
    text = PARENTS
    for at in range(dams):
        born = datetime.date(2003, 3, 1) + datetime.timedelta(at)
        text += f"dam{at};F;2000-03-01;;;\nf{at}.0;M;{born};s;dam{at};\n"
        for place, day in enumerate(days, 1):
            born += datetime.timedelta(day + at % 3)
            text += f"f{at}.{place};M;{born};s;dam{at};\n"
    return text


LATE = "x0;M;2003-03-01;s;d;\nx1;M;2003-06-29;s;d;\n"


@pytest.mark.parametrize("days, more, told", [
    ((350, 420), LATE, "x1: to look at: its dam d bore x0 (line {line}) 120 days before, where nearly all births"),
    # two years are usual, and the next one comes within the half
    ((700, 730), LATE.replace("2003-06-29", "2004-02-01"), "x1: to look at: its dam d bore x0 (line {line}) 337 days"),
    ((350, 420), LATE.replace("06-29", "09-01"), ""),
    # two litters a year, thrice in two years, at most two a year of many
    ((185, 190), LATE.replace("06-29", "06-19"), ""), ((240, 250), LATE.replace("06-29", "07-10"), ""),
    ((365, 160, 365), "", ""),
])  # fmt: skip
def test_births_nearer_than_usual(desk: Desk, days: tuple[int, ...], more: str, told: str) -> None:
    """How far births of one dam are apart is seen by all that are there: one that is less than half as far from the
    one before is told, beside it, unless somebody says from how many days on."""
    text = herd(*days)
    done = desk.take(TITLES + text + more, "--preview")
    assert told.format(line=text.count("\n") + 2) in done.out and done.out.count(" bore ") == bool(told)
    few = herd(*days, dams=9)
    assert " bore " not in desk.take(TITLES + few + more, "--preview").out
    assert " bore " not in desk.take(TITLES + text + more, "--apart", "100").out


def test_birth_nearer_than_usual_by_hand(desk: Desk) -> None:
    desk.take(TITLES + herd(350, 420))
    born = ("birth", "n", "--sex", "f", "--dam", "dam0", "--sire", "s", "--day")
    told = "n: to look at: its dam dam0 bore f0.2 120 days before, where nearly all births of one dam are 350 days"
    desk.wrong(told, *born, "2005-08-07")
    desk.good(*born, "2006-08-08")


def test_sire_that_left(desk: Desk) -> None:
    done = desk.take(TITLES + "s;M;2001-03-01;;;2005-01-01\nc1;F;2005-12-31;s;;\nc2;F;2006-01-02;s;;\n")
    done.tells(
        "line 4: c2: to look at: its sire s (line 2) left on 2005-01-01, more than a year before its birth on "
        "2006-01-02: is it another sire, or frozen semen?"
    )
    assert done.out.count("to look at") == 1


def test_castrated_sire(desk: Desk) -> None:
    """It is told, and advice passes it over, also where a later sheet has no column for the sex."""
    rows = (
        "w;Hammel;2001-03-01;;;\nv;Bock "
        "(kastriert);2001-03-01;;;\nr;ram;2001-03-01;;;\nd;ewe;2001-03-02;;;\nc1;ram;2003-03-01;w;d;\nc2;ewe;2003-03-01;w;;\n"
    )
    done = desk.take(TITLES + rows)
    done.tells("line 2: w: to look at: it is the sire of c1 (line 6) and of 1 more, and its sex is 'Hammel'")
    for _ in range(2):
        assert [row["id"] for row in desk.listed("mating", "--dam", "d")] == ["r", "c1"]
        done = desk.take(
            "id;birth;sire;dam\nw;2001-03-01;;\nr;2001-03-01;;\nd;2001-03-02;;\nc1;2003-03-01;w;d\nc2;2003-03-01;w;\n"
        )
        done.shows(
            "line 2: w: to look at: it is the sire of c1 (line 5) and of 1 more, and the book has it as castrated"
        )
    desk.take(TITLES + rows.replace("r;ram", "r;wether")).tells("line 4: r: changed: castrated: yes, before none")
    assert "  r: castrated yes, before none\n" in desk.good("history", "4").out


def test_exits_withdrawn(desk: Desk) -> None:
    """Also one is told in a sentence, unless its cell says that it lives. Where the column tells of no exit any more
    the command that is suggested brings all back; a column that has others is the right one."""
    rows = [f"a{at};F;2001-03-0{at};;;{'sold' if at < 3 else '2010-01-01'}" for at in range(1, 7)]
    empty = [row.rpartition(";")[0] + ";" for row in rows]
    told = "to look at: {} that had left {} as living again, {}: {} missing in the sheet?"
    desk.take(TITLES + "\n".join(rows))
    done = desk.take(TITLES + "\n".join([empty[0], "a3;F;2001-03-03;;;lebt", *rows[1:2], *rows[3:]]))
    done.shows(told.format("1 animal", "counts", "a1 (line 2)", "is its exit"))
    assert not done.commands()
    desk.take(TITLES + "\n".join(rows))
    exits = [row["exit"] for row in desk.table("book/ids.csv")], desk.commands()
    first = told.format("{} animals", "count", "the first are a1 (line 2), a2 (line 3), a3 (line 4)", "are their exits")
    done = desk.take(TITLES + "\n".join(empty[:3] + rows[3:]))
    done.shows(first.format(3))
    assert not done.commands()
    desk.good("undo")
    done = desk.take(TITLES + "\n".join(empty), "--anyway")
    done.shows(first.format(6))
    desk.typed(done.commands()[0])
    assert ([row["exit"] for row in desk.table("book/ids.csv")], desk.commands()) == exits


def test_old_animal_as_living(desk: Desk) -> None:
    rows = "old;F;1981-03-01;;;\n" + "".join(f"a{at};F;20{at:02}-03-01;;;\n" for at in range(15))
    done = desk.take(TITLES + rows)
    done.tells(
        "line 2: old: to look at: born 1981-03-01, it counts as living; half of the living animals were born in 2006 or "
        "later, 25 years after it: has it left?"
    )
    assert done.out.count("to look at") == 1
    assert "25 years after" not in desk.take(TITLES + rows.partition("\n")[2]).out


def test_what_may_be_wrong_comes_first(desk: Desk) -> None:
    """A screen is printed, 24 rows of 80 letters: what does most harm stands first, then a sentence of each kind, and
    how many more there are. The rest is in the report."""
    rows = "".join(f"a{at};F;20{at % 20:02};;;sold\n" for at in range(60)) + PARENTS + "c;M;2001-07-29;s;d;\n"
    rows += "".join(f"n{at};F;2001-08-01;s;d;\n" for at in range(30)) + "s;M;2001-03-01;;;\n;M;2001;;;\nf;F;2062;;;\n"
    done = desk.take(TITLES + rows)
    lines = done.out.splitlines()
    kinds = [
        "line 95: s: the row is left out",
        "line 96: the row is left out",
        "line 64: c: to look at: its sire s (line 62)",
        "line 97: f: its birth day is left out",
    ]
    places = [next(at for at, line in enumerate(lines) if line.startswith(kind)) for kind in kinds]
    assert places == sorted(places) and places[0] == 0
    # exits that a sentence of all tells aren't told one by one
    assert "its exit is left out" not in done.out
    exits = next(at for at, line in enumerate(lines) if "an exit without a day stands in" in line)
    assert places[-2] < exits < places[-1]
    assert sum(row["what"] == "left out" for row in desk.table("book/report.csv")) == 63


def test_rows_that_sum_up_are_told_though_they_have_a_birth_day(desk: Desk) -> None:
    """By the first word of an id, also where that ends with a number."""
    rows = "".join(f"{id};F;2001-01-01;;\n" for id in ("a 1", "Summe 2", "Summe", "Total: 30", "Summe2", "b"))
    told = desk.take("id;sex;birth;sire;dam\n" + rows).told
    seen = {line.split(": ")[0] for line in told.splitlines() if "is this row an animal" in line}
    assert seen == {"line 3", "line 4", "line 5"}
