"""What is left out, corrected or dropped."""
from __future__ import annotations

import reference
from front_desk.desk import Desk


FAULTY_PARENTS = """\
    id;sex;born;sire;dam;exit;embryo
    a;M;2001-01-01;;;;
    b;F;2001-02-01;;;2003-01-01;
    self;M;2002-01-01;self;;;
    young;F;2004-01-01;a;late;;
    late;F;2005-01-01;;;;
    after;F;2004-02-01;a;b;;
    frozen;F;2004-03-01;a;b;;1
    both;M;2006-01-01;b;a;;
    x;M;2007-01-01;z;;;
    y;M;;x;;;
    z;M;;y;;;
    q;M;2001-01-01;p;;;
    p;M;2003-01-01;q;;;
    """


def test_faulty_parents(desk: Desk) -> None:
    """Each parent that is refused is left out, alone, with the line and why; else nothing of the row."""
    done = desk.take(FAULTY_PARENTS)
    done.tells(
        "line 4: self: its sire self is left out: self would be its own ancestor (self > self)",
        (
            "line 5: young: its dam late (line 6, born 2005-01-01) is left out: it isn't at least a day older "
            "(refusal 8); young was born 2004-01-01"
        ),
        (
            "line 7: after: its dam b (line 3, left 2003-01-01) is left out: it left on a day before the birth "
            "(refusal 9); after was born 2004-02-01; offspring from a stored embryo needs 1 in the column embryo"
        ),
        (
            "line 9: both: its sire and dam may be swapped: b, which stands as its sire, is female, and a, which stands "
            "as its dam, is male: both are left out, and count as unknown; write each in its own column"
        ),
        "line 12: z: its sire y is left out: z would be its own ancestor (z > y > x > z)",
        "line 13: q: its sire p is left out: q would be its own ancestor (q > p > q)",
    )
    assert "13 animals, 13 new, 0 changed, 2 inferred, 7 left out (7 parents), 0 added, 0 gone" in done.last
    wanted = {
        "young": ("a", ""), "after": ("a", ""), "frozen": ("a", "b"), "both": ("", ""), "x": ("z", ""), "y": ("x", ""),
        "z": ("", ""), "self": ("", ""), "p": ("q", ""),
    }  # fmt: skip
    assert wanted.items() <= desk.parents().items()
    done = desk.take(FAULTY_PARENTS.replace("young;F;2004-01-01;a;late;;", "young;F;2004-01-01;a;late;;1"))
    done.tells("line 5: young: changed: stored embryo: yes, before none")
    assert [line[-2:] for line in desk.commands() if desk.numbers()["young"] in line] == [",1"]


def test_strict(desk: Desk) -> None:
    """With --strict nothing is taken where something is left out."""
    sheet = desk.write("sheet.csv", FAULTY_PARENTS)
    done = desk.wrong("7 left out (7 parents): with --strict nothing is taken", "import", sheet, "--strict")
    assert "gudokeyi: line 4: self: its sire self is left out: self would be its own ancestor" in done.err
    desk.take("id,born,sire,dam\na,2001,,\nb,2003-01-01,a,c\n", "--strict")


def test_faulty_rows(desk: Desk) -> None:
    """A row or a cell that can't be read is left out and told."""
    done = desk.take(
        """\
        id,name,sex,born,sire,dam,exit,embryo
        a,Anna,F,2001-01-01,,,,
        a,Berta,F,2002-01-01,NN,,,
        ,Clara,F,2002-01-01,,,,
        unknown,Dora,F,2002-01-01,,,,
        e,Emma,F,31.02.2002,,,,
        f,Fine,F,01.02.98,,,,
        g,Gret,cat,2003-01-01,,,sold,
        h,Hans, the small,M,2003-01-01,,,,
        i,Ida,F,2003-01-01,A,,,maybe
        j,Jan,M,2300-01-01,,,,
        k,Kai,M,2003-01-01,,,,?
        l,Lea,F,2003-01-01,,,,0
        m,Max,M,2003-01-01,,,,
        n,Nele,F,37800,,,,
        """
    )
    done.tells(
        (
            "line 3: a: the row is left out: line 2 has this id for another animal ('Anna', born 2001-01-01; here "
            "'Berta', born 2002-01-01), which is taken since it was born first: if the tag was used again, give this "
            "one an id of its own, also where its offspring name it"
        ),
        "line 4: the row is left out: it has no id; it says 'Clara | F | 2002-01-01'",
        "line 5: unknown: the row is left out: 'unknown' is a word for an unknown animal: give it another id",
        "line 6: e: inferred: birth day 2002-02-15, from the month 2002-02, since there is no day 31.02.2002",
        (
            "to look at: two digits of the year in 1 cell of the column 'born': '01.02.98' in line 7 is read as "
            "1998-02-01"
        ),
        "line 8: g: its sex is left out: 'cat' isn't known: write M or F, or name it by --sexes",
        "line 8: g: its exit is left out: 'sold' has no day; the animal counts as gone",
        "line 8: g: the row is left out: its sex can't be read, and no animal has it as a parent",
        (
            "to look at: 1 of 11 cells that say something in the column 'sex' can't be read, the first in line 8: "
            "'cat': write M or F, or say which sex each word is by --sexes; if 'cat' is male, say --sexes cat=m; if "
            "'cat' is female, say --sexes cat=f"
        ),
        "line 9: h: the row is left out: it has 9 cells, and there are 8 titles: is there one separator too many?",
        "line 10: i: its cell for a stored embryo is left out: 'maybe' isn't known: write 1 or nothing",
        (
            "to look at: 1 of 2 cells that say something in the column 'embryo' can't be read, the first in line 10: "
            "'maybe': write 1 or nothing; or name another column by --columns; if no column tells of stored embryos, "
            "say --columns embryo="
        ),
        (
            "to look at: a spreadsheet's number for a day in 1 cell of the column 'born': '37800' in line 15 is read "
            "as 2003-06-28"
        ),
        "line 11: j: its birth day is left out: the year 2300 isn't one of 1900 to 2199",
        "line 10: A: added: the sire of i has no row: added without parents (is a meant?)",
    )
    assert " 9 left out (5 rows, 4 cells), 1 added" in done.last


def test_corrections(desk: Desk) -> None:
    """An exit that changes or is withdrawn, and a parent added later as a row of its own."""
    desk.take("id,sex,born,sire,dam,owner,exit\na,F,2001-01-01,,,x,2010-01-01\nb,M,2003-01-01,c,a,y,2011\n")
    numbers = desk.numbers()
    done = desk.take(
        "id,sex,born,sire,dam,owner,exit\na,F,2001-01-01,,,z,2012-02-03\nb,M,2003-01-01,c,a,,\n"
        "c,M,2000-05-06,d,,y,\n",
        "--day",
        "2020-01-01",
    )
    assert desk.numbers().items() >= numbers.items()
    done.tells(
        "line 2: a: changed: exit: 2012-02-03, before 2010-01-01",
        "line 2: a: changed: owner: z, before x",
        "line 3: b: changed: exit: none, before 2011-12-31",
        "line 3: b: inferred: owner y, as in the book, since its cell gives none",
        "line 4: c: changed: birth day: 2000-05-06, before 2001-01-01",
        "book/commands.csv is written anew, since something in it was corrected or dropped",
    )
    lines = desk.commands()
    assert f"transfer,{numbers['a']},2012-02-03,,,1,3," in lines
    assert f"exit,{numbers['a']},2012-02-03,,,,," in lines
    assert reference.replies(desk.text("book/commands.csv")).count("accepted") == len(lines)
    # columns that a sheet doesn't have change nothing, and cells that can't be read neither
    before = desk.commands()
    done = desk.take("id,sex,born,sire,dam,exit\na,F,x,,,gone\nb,M,2003-01-01,c,a,\nc,x,2000-05-06,d,,\n")
    assert desk.commands() == before
    assert " 0 changed" in done.last
    assert " 3 left out" in done.last
    done = desk.take("id,born,sire,dam\na,2001-01-01,,\nb,2003-01-01,c,a\nc,2000-05-06,d,\n")
    assert desk.commands() == before
    assert " 0 changed" in done.last


def test_dropped(desk: Desk) -> None:
    """With --drop-gone animals without a row leave the book, unless one that has a row descends from them."""
    rows = [
        "a,M,2001-01-01,,,x",
        "b,F,2001-02-01,,,x",
        "c,F,2004-01-01,a,b,x",
        "wrong,M,2005-01-01,import,c,y",
        "d,F,2006-01-01,a,c,y",
    ]

    def sheet(*those: str) -> str:
        return "id,sex,born,sire,dam,owner\n" + "".join(row + "\n" for row in those)

    desk.take(sheet(*rows))
    desk.take(sheet(rows[0], rows[1][:-1] + "y", *rows[2:]), "--day", "2010-01-01")
    numbers = desk.numbers()
    without = sheet(rows[0], rows[2], rows[4])
    before = desk.commands()
    done = desk.take(without)
    gone = "gone: it has no row any more, and stays in the book as it is"
    done.tells(f"b: {gone}", f"wrong: {gone}")
    assert desk.commands() == before
    assert ", 2 gone: " in done.last
    done = desk.take(without, "--drop-gone")
    done.tells(
        f"b: {gone}",
        "wrong: gone: it has no row any more: it is dropped from the book",
        "import: gone: no animal has it as a parent any more: it is dropped from the book",
    )
    assert "book: 4 animals, 0 new, 0 changed, 0 inferred, 0 left out, 0 added, 3 gone (2 dropped): " in done.last
    assert desk.numbers() == {id: numbers[id] for id in "abcd"}
    assert desk.parents()["d"] == ("a", "c")
    assert sum(line.startswith("transfer") for line in desk.commands()) == 1
    assert reference.replies(desk.text("book/commands.csv")).count("accepted") == len(desk.commands())
    assert [row["id"] for row in desk.listed("mating", "--dam", "d")] == ["a"]
    done = desk.take(without, "--drop-gone")
    assert ", 0 changed, 0 inferred, 0 left out, 0 added, 1 gone: " in done.last
    assert "anew" not in done.out
    # no other animal gets the number of one that was dropped, which gets it again when it comes back
    done = desk.take(sheet(*rows[:3], rows[4], "e,F,2011-01-01,,,"))
    after = desk.numbers()
    assert after.items() >= {id: numbers[id] for id in "abcd"}.items()
    assert ", 1 new, " in done.last
    assert after["e"] == "HOLGBRF000000000007"
    assert len(numbers) == 6
    desk.take(sheet(*rows, "e,F,2011-01-01,,,"))
    assert desk.numbers() == numbers | {"e": after["e"]}
