"""What is told before a sheet is taken: refused exits, the numbers of a first taking, and previews."""
from __future__ import annotations

import importlib
from dataclasses import is_dataclass

from front_desk.desk import Desk
from front_desk.test_owners import PARENTS, TITLES
from gudokeyi.domain.findings import KINDS, Severity
from gudokeyi.reconcile.kinds_of_findings import PLACES
from gudokeyi.reconcile.stored_findings import modules_of_findings
from gudokeyi.render.import_reports import IN_SHORT


def test_exit_that_is_refused(desk: Desk) -> None:
    """It costs that cell, and the rest is taken; `--strict` takes nothing."""
    calves = "b;F;2004-01-01;s;d;Meier;\nc;F;2005-01-01;s;d;Meier;\n"
    rows = PARENTS.replace("d;F;2001-03-02;;;Meier;", "d;F;2001-03-02;;;Meier;{}") + calves
    told = (
        "line 3: d: its exit on 2003-01-01 is left out: it has offspring born after the day (c in line 5) (refusal 16); "
        "the animal counts as gone"
    )
    for cell in "2003-01-01", "sold 01.01.2003":
        desk.wrong("1 left out (1 cell): with --strict nothing is taken", "import",
                   desk.write("strict.csv", TITLES + rows.format(cell)), "--strict", "--book", cell)  # fmt: skip
        done = desk.good("import", desk.write("sheet.csv", TITLES + rows.format(cell)), "--book", f"book of {cell}")
        done.tells(told)
        assert "4 animals, 4 new, " in done.last


def test_exit_against_the_book(desk: Desk) -> None:
    """An exit that contradicts what the book has costs no link; a new calf after an exit costs its own."""
    rows = PARENTS + "c;F;2004-01-01;s;d;Meier;\n"
    desk.take(TITLES + rows)
    done = desk.take(TITLES + rows.replace("d;F;2001-03-02;;;Meier;", "d;F;2001-03-02;;;Meier;2003-01-01"))
    assert "(c in line 4) (refusal 16)" in done.out
    assert desk.parents()["c"] == ("s", "d")
    # on the day of a birth a dam may leave
    for day in "2004-02-01", "2004-01-01":
        left = rows.replace("d;F;2001-03-02;;;Meier;", f"d;F;2001-03-02;;;Meier;{day}")
        done = desk.take(TITLES + left + "e;F;2005-01-01;s;d;Meier;\n")
        assert desk.parents()["e"] == ("s", "")
        assert desk.commands()[-1].split(",")[2] == day
    # an exit that is moved before a birth costs no link either
    done = desk.take(TITLES + left.replace("Meier;2004-01-01", "Meier;2003-01-01"))
    assert "(c in line 4) (refusal 16)" in done.out
    assert desk.parents()["c"] == ("s", "d")


def test_many_refusals_of_one_cause(desk: Desk) -> None:
    """An ewe that is a sire in some rows is told in one sentence, with its line first; the report has each."""
    rows = "s;F;2001-03-01;;;;\n" + "".join(f"c{at};F;2004-01-01;s;;;\n" for at in range(10))
    rows += "t;F;2001-03-01;;;;\n" + "".join(f"d{at};F;2004-01-01;t;;;\n" for at in range(3))
    # what more of its offspring say is what it is
    rows += "".join(f"e{at}{dam};F;{2003 + at}-02-01;;{dam};;\n" for at in range(10) for dam in "st")
    done = desk.take(TITLES + rows)
    done.tells(
        "line 2: s: it isn't male (refusal 5): it is left out as the sire of 10 animals (lines 3, 4, 5, 6, 7, 8, 9, "
        "10, 11 and 1 more): if it is, correct its sex",
        "line 13: t: it isn't male (refusal 5): it is left out as the sire of 3 animals (lines 14, 15, 16): if it is, "
        "correct its sex",
    )
    assert done.out.count("refusal 5") == 2
    assert sum(row["what"] == "left out" for row in desk.table("book/report.csv")) == 13


def test_numbers_of_a_first_taking(desk: Desk) -> None:
    """The first taking says which breed and country the numbers get; giving them later begins an edition."""
    done = desk.take(TITLES + PARENTS)
    assert (
        "the animals' numbers begin with HOLGBR (breed HOL, country GBR), since --breed and --country aren't both"
        in done.out
    )
    assert "the numbers begin" not in desk.take(TITLES + PARENTS).out
    done = desk.take(TITLES + PARENTS, "--breed", "SKU", "--country", "DEU")
    assert list(desk.numbers().values()) == ["SKUDEUM000000000001", "SKUDEUF000000000002"]
    assert "written anew" in done.out
    assert "edition 2" in desk.good("history", "3").out
    assert list(desk.numbers().values()) == ["SKUDEUM000000000001", "SKUDEUF000000000002"]
    # they keep their letters where all of it is undone, and that is told
    desk.good("undo", "--to", "0")
    assert "numbers begin with SKUDEU (breed SKU, country DEU)" in desk.take(TITLES + PARENTS).out
    assert list(desk.numbers().values()) == ["SKUDEUM000000000001", "SKUDEUF000000000002"]
    assert (
        "the numbers begin"
        not in desk.take(TITLES + PARENTS, "--breed", "A" * 3, "--country", "B" * 3, "--book", "o").out
    )


def test_preview(desk: Desk) -> None:
    """It tells what would change, by kind, and what may be wrong, and writes nothing."""
    sheet = desk.write("sheet.csv", TITLES + PARENTS)
    before = desk.files()
    assert "a preview, nothing is written: book: 2 animals, 2 new" in desk.good("import", sheet, "--preview").last
    assert desk.files() == before
    desk.good("import", sheet)
    history = desk.good("history").out
    changed = desk.write(
        "sheet.csv", TITLES + PARENTS.replace("d;F;2001-03-02", "d;F;2002-03-02") + "c;F;2002-05-01;s;d;;\n"
    )
    commands = desk.commands()
    done = desk.good("import", changed, "--preview")
    done.tells(
        "line 4: c: to look at: its dam d (line 3) was 60 days old at its birth, less than 180",
        "line 3: d: changed: birth day: 2002-03-02, before 2001-03-02",
    )
    assert "a preview, nothing is written: book: 3 animals, 1 new, 1 changed" in done.last
    assert (desk.commands(), desk.good("history").out) == (commands, history)


def test_preview_of_another_flock(desk: Desk) -> None:
    rows = "".join(f"a{at};F;2001-01-01;;;;\n" for at in range(20))
    desk.take(TITLES + rows)
    other = rows.replace("a", "b").replace("2001", "2002")
    done = desk.good("import", desk.write("other.csv", TITLES + other), "--preview")
    assert "it looks like the sheet of another flock" in done.out
    done.shows("nothing is taken", "  if it is right all the same:")
    assert "a preview, nothing is written: book: 40 animals, 20 new, " in done.last


MANY_KINDS = (
    "Ohrmarke;Name;Sex;geb;Vater;Mutter;Besitzer;Abgang am;Bemerkung;\n"
    "DE 01;Max;m;1.2.2010;;;Huber Hans;;;\nDE 02;Eva;w;1.2.2010;;;huber hans;;;\n"
    "DE 03;Ida;w;1.2.2010;;;Hubre Hans;;tot;x\n"
    + "".join(f"DE {at};A{at};{'Zmw'[at % 3]};{at}.3.2015;DE 01;DE 02;Huber Hans;;verkauft;x\n" for at in range(10, 22))
    + "DE 30;Ute †;w;1.3.2016;Weide;DE 03;Huber Hans;;;\nDE 31;Uwe;m;2.3.2016;Weide;DE 01;Huber Hans;Exitus;;\n"
    + "†DE 32;Leo;m;3.3.2099;NN?x;DE 03;Huber Hans;31.02.2020;;\nDE 32;Lea;w;4.3.2016;;DE 03;Huber Hans;1.2.2019;tot;\n"
    + "DE 33;Ina;w;4.5.2018;;DE 03;Huber Hans;1.2.2019;tot;\nSumme;;;;;;;;;\n"
)


def test_preview_in_short(desk: Desk) -> None:
    """A preview that is longer than a screen begins with how the sheet was read, and with a line for each kind of what
    may be wrong, under a heading of its own and the greatest harm first; all of it stands below, as in a shorter
    one."""
    lines = desk.take(MANY_KINDS, "--preview").out.splitlines()
    assert lines[0].startswith("sheet.csv: ") and lines[1].startswith("columns: ")
    heading, end = lines.index(IN_SHORT), lines.index("")
    assert sum(-(-len(line) // 80) for line in lines[:end]) <= 50 and "to look at: " in "\n".join(lines[end:])
    short = lines[heading + 1 : end]
    kinds = [(line[:6].strip(), line[6:].partition(" (")[0]) for line in short if line[6] != " "]
    places = [[place for _, place, one in PLACES.values() if one == heading][0] for _, heading in kinds]
    assert len(kinds) >= 10 and places == sorted(places)
    assert ("4", "Rows left out: the sex can't be read") in kinds
    assert "        if it means an unknown parent, say --unknown Weide" in short


def test_counts_of_kinds(desk: Desk) -> None:
    """A kind counts animals, also where one sentence tells of several of them."""
    titles, rows = "id;sex;born;sire;dam;exit\n", "".join(f"a{at};F;2001-01-01;;;\n" for at in range(9))
    desk.take(titles + "s;M;1999-01-01;;;\n" + rows.replace(";;;", ";s;;2010-01-01"))
    rows = rows.replace(";;;", ";s;;") + "".join(f"b{at};F;2001-13-01;Weide;;\n" for at in range(30))
    short = desk.take(titles + "s;M;1999-01-01;;;2005-01-01\n" + rows, "--preview").out.split("\n\n")[0]
    assert "   9  Animals that had left count as living again\n" in short
    assert "  30  Words that may stand for unknown parents\n" in short and "  30  Birth days aren't certain (line" in short


def test_each_kind_has_a_heading() -> None:
    """What may be wrong is summed up under a heading, whatever it is."""
    for module in modules_of_findings():
        importlib.import_module(module)
    kinds = {code for code, kind in KINDS.items() if kind.severity is not Severity.NONE and is_dataclass(kind)}
    assert kinds - PLACES.keys() == set()
    unknown = PLACES.keys() - KINDS.keys()
    assert [code for code in unknown if not any(code.startswith(f"{kind} ") for kind in KINDS)] == []


def test_preview_that_has_room(desk: Desk) -> None:
    done = desk.take(MANY_KINDS[:300].rpartition("\n")[0], "--preview")
    assert "differ only in case" in done.out and IN_SHORT not in done.out and done.out.startswith("to look at: ")
