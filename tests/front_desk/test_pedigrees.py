"""For geneticists: pedigrees of `id sire dam`, and the inverse."""
from __future__ import annotations

import pathlib

import pytest
import scipy.io

import reference
from front_desk.desk import Desk
from gudokeyi.domain.findings import Report
from gudokeyi.domain.provenance import SexSource
from gudokeyi.ingest.animals import SheetAnimal
from gudokeyi.reconcile.sexes import invent_sexes

MRODE = {
    "blanks": "1 0 0\n2 0 0\n3 1 2\n4 1 0\n5 4 3\n6 5 2\n",
    "titles": "ID,Sire,Dam\n1,NA,NA\n2,NA,NA\n3,1,2\n4,1,NA\n5,4,3\n6,5,2\n",
    "any order": "# a comment\n6\t5\t2\n5\t4\t3\n\n4\t1\t.\n3\t1\t2\n",
    "turned": "dam;id;sire\n0;1;0\n0;2;0\n2;3;1\n0;4;1\n3;5;4\n2;6;5\n",
}
DIAGONAL = [11 / 6, 61 / 30, 5 / 2, 11 / 6, 38 / 15, 32 / 15]
OFF_THE_DIAGONAL = {
    ("1", "2"): 0.5, ("1", "3"): -1, ("1", "4"): -2 / 3, ("2", "5"): 8 / 15, ("2", "6"): -16 / 15,
    ("3", "4"): 0.5, ("3", "5"): -1, ("1", "5"): 0, ("4", "6"): 0,
}  # fmt: skip


@pytest.mark.parametrize("form", MRODE)
def test_textbook(desk: Desk, form: str) -> None:
    """Mrode's six animals: F is 1/8 for two, and the inverse is as published."""
    founders = ["--anyway"] * (form == "any order")
    done = desk.good("import", "--pedigree", desk.write("mrode.txt", MRODE[form]), *founders)
    assert "6 animals, " in done.last
    assert " 0 left out" in done.last
    assert "are invented" in done.out
    found = {row["id"]: (row["coefficient"], row["decimal"]) for row in desk.listed("list")}
    assert found == dict.fromkeys("1234", ("0", "0")) | dict.fromkeys("56", ("1/8", "0.125"))
    desk.good("inverse", "--matrix-market", "inverse.mtx")
    ids, matrix = desk.text("inverse.mtx.ids").split(), matrix_of(desk.room / "inverse.mtx")
    at = {id: ids.index(id) for id in ids}
    diagonal = [matrix[at[id], at[id]] for id in "123456"]
    assert all(abs(one - other) < 1e-15 * 4 for one, other in zip(diagonal, DIAGONAL))
    assert all(abs(matrix.get((at[r], at[c]), 0) - value) < 1e-14 for (r, c), value in OFF_THE_DIAGONAL.items())
    assert form == "any order" or ids == list("123456")


def matrix_of(path: pathlib.Path) -> dict[tuple[int, int], float]:
    """A symmetric MatrixMarket file, by scipy and by a reader of its own."""
    first, *lines = [line for line in path.read_text().splitlines() if not line.startswith("% ")]
    rows, columns, count = map(int, lines[0].split())
    found, below = {}, []
    for line in lines[1:]:
        row, column, value = line.split()
        below.append(int(column) <= int(row) <= rows and (int(row) - 1, int(column) - 1) not in found)
        found[int(row) - 1, int(column) - 1] = found[int(column) - 1, int(row) - 1] = float(value)
    assert all(below)
    assert first == "%%MatrixMarket matrix coordinate real symmetric"
    assert rows == columns
    assert len(lines) == count + 1
    read = scipy.io.mmread(path).todok()
    assert {at: value for at, value in read.items()} == found
    return found


def test_inverse_of_many(secretary_desk: Desk) -> None:
    """The summed inverse of the secretary's book, times the relationships, is the identity."""
    desk = secretary_desk
    desk.good("inverse", "--matrix-market", "a.mtx")
    matrix = matrix_of(desk.room / "a.mtx")
    ids, numbers = desk.text("a.mtx.ids").splitlines(), desk.numbers()
    entry = reference.filed(desk.text("book/commands.csv"))[0].relationships()
    of_row: dict[int, list[tuple[int, float]]] = {}
    for (row, column), value in matrix.items():
        of_row.setdefault(row, []).append((column, value))
    worst = 0.0
    for column in range(0, len(ids), 10):
        relationships = [float(entry(numbers[id], numbers[ids[column]])) for id in ids]
        for row in range(len(ids)):
            worst = max(worst, abs(sum(value * relationships[at] for at, value in of_row[row]) - (row == column)))
    assert len(ids) == 201
    assert worst < 1e-12


def test_invented(desk: Desk) -> None:
    """A certificate says what a pedigree doesn't have."""
    desk.good("import", "--pedigree", desk.write("one.txt", "x 0 0\n"))
    desk.good("certificate", "x", "--out", "x.html")
    words = "".join(desk.page("x.html").itertext())
    assert words.count(" (invented)") == 2
    assert "(invented): the pedigree has neither" in words


def test_invented_sexes_stay_invented(desk: Desk) -> None:
    """After a sheet that says nothing of an animal, or not its sex; as a parent of a row it has that of one."""
    pedigree = "id sire dam\nA1 0 0\nA2 0 0\nA3 A2 A1\nA4 A2 A1\nA5 0 A4\nA6 0 A3\n"
    desk.good("import", "--pedigree", desk.write("p.txt", pedigree))
    done = desk.take("id,sex,birth,sire,dam\nA1,f,,,\nA3,,,A2,A1\n")
    done.tells("line 3: A3: inferred: sex female, since it is a dam")
    sexes = {"A1": "F", "A2": "M (inferred)", "A3": "F (invented)", "A4": "F (invented)", "A5": "F (invented)"}
    listed = desk.listed("list", "--columns", "id,sex")
    assert {row["id"]: row["sex"] for row in listed} == sexes | {"A6": "F (invented)"}


def test_nothing_is_invented_over_what_the_book_was_given(desk: Desk) -> None:
    """A pedigree without sexes and days is added to a book of a sheet: only what nobody gave is found."""
    desk.take("id,sex,birth,sire,dam,owner\na,f,2001-01-01,,,Nord\nb,m,2001-02-01,,,Nord\nc,m,,,,Nord\n")
    desk.good("birth", "e", "--sex", "m", "--day", "2012-05-05", "--sire", "b", "--dam", "a", "--owner", "Nord")
    before = desk.listed("list", "--columns", "id,sex,birth")
    done = desk.good("import", "--pedigree", desk.write("p.txt", "a x y\nb x z\n"), "--anyway")
    done.shows("p.txt: the sexes of 3 animals are invented so that parents are older than their offspring")
    assert "book: 7 animals, 0 new, 2 changed, 3 invented, 4 inferred, 0 left out, " in done.last
    listed = desk.listed("list", "--columns", "id,sex,birth")
    assert [row for row in listed if row["id"] in "abce"] == before
    sexes = {row["id"]: row["sex"] for row in listed if row["id"] in "xyz"}
    assert sexes == {"x": "M (invented)", "y": "F (invented)", "z": "F (invented)"}
    # a parent of the other sex is refused, and a sex is sought that fits those that are given
    both = "import", "--pedigree", desk.write("both.txt", "u a 0\nv b w\nt w s\n")
    done = desk.good(*both, "--leave-out")
    done.tells(
        "line 1: u: its sire a is left out: it isn't male (refusal 5)",
        "line 3: t: changed: taken with the sire s and the dam w, since w is a sire in line 3 and a dam in line 2",
    )
    assert desk.parents() | {"u": ("", ""), "v": ("b", "w"), "t": ("s", "w")} == desk.parents()


def test_animals_of_the_book_that_are_others(desk: Desk) -> None:
    """An id that the book has for another animal, many that have other birth days, sexes and parents than there, and a
    parent that is a name there: a pedigree isn't taken, unless that is wished."""
    rows = "".join(f"c{at};Cleo {at};f;2012-01-{at + 10};b;a\n" for at in range(9))
    desk.take(
        "id;name;sex;birth;sire;dam\n12;Berta;f;2015-01-01;;\na;Anna;f;2010-01-01;;\nb;Bob;m;2009-01-01;;\n" + rows
    )
    titles, take = "id sire dam sex birth\n", ("import", "--pedigree", "p.txt")
    desk.write("p.txt", titles + "12 0 0 M 1990-01-01\na 12 0 F 2010-01-01\n")
    done = desk.wrong("1 line has an id that the book has for another animal", *take, "--leave-out")
    assert "12: the line is left out: the book has this id for another animal ('Berta', born 2015-01-01" in done.err
    own = "if these are two animals, give this one an id of its own"
    assert own in done.err and "tag" not in done.err
    desk.typed(done.commands()[-1])
    desk.good("undo")
    desk.write("p.txt", titles + "a 0 0 F 2014-01-01\n")
    done = desk.wrong("a: the line is left out: born 2014-01-01, it would be younger than its offspring c0", *take)
    assert own in done.err.replace("this animal", "this one") and "tag" not in done.err
    desk.write("p.txt", titles + "".join(f"c{at} 0 0 M 2012-02-{at + 10}\n" for at in range(9)))
    done = desk.wrong("9 of 9 animals have other birth days than in the book, the first are c0 (line 2)", *take)
    assert "9 of 9 animals have other sexes" in done.err and "9 of 9 animals have other parents, or none," in done.err
    assert "9 of 9 animals have other birth days" in desk.good(*take, "--preview").out
    assert " 9 changed" in desk.typed(done.commands()[-1]).last
    desk.write("p.txt", "x 0 anna\n")
    done = desk.wrong(
        "1 parent has no line and is the name of an animal of the book: anna (of x in line 1; is a meant?)", *take
    )
    desk.typed(done.commands()[-1])
    assert desk.parents()["x"] == ("", "a")


BOTH = "a 0 0\nb 0 0\nc a b\nd c a\ne d c\nf 0 d\n"


def with_sexes(known: dict[str, str], *lines: str) -> tuple[str, list[tuple[str, str]]]:
    """The sexes of all animals of such a pedigree, where the book has some of them, and the parents in each line."""
    triples = [line.split() for line in lines]
    ids = sorted({id for triple in triples for id in triple if id != "0"})
    animals = {id: SheetAnimal(id, sex=known.get(id, "")) for id in ids}
    for at, (id, sire, dam) in enumerate(triples, 1):
        animals[id].line, animals[id].sire, animals[id].dam = at, sire.strip("0"), dam.strip("0")
    invent_sexes(animals, Report())
    assert {id for id, one in animals.items() if one.sex_source is SexSource.INVENTED} == animals.keys() - known.keys()
    return "".join(animals[id].sex for id in ids), [(animals[id].sire, animals[id].dam) for id, _, _ in triples]


def test_sexes_that_the_book_has() -> None:
    """They stay, and mates are of the other one, so that parents are swapped where that makes no sire a female; but one
    that no line fits, and that is left to the program, tells nothing of its mates."""
    lines = "a s d", "b t d", "c t e"
    parents = [("s", "d"), ("t", "d"), ("t", "e")]
    assert with_sexes({}, *lines) == with_sexes({"s": "M", "e": "F"}, *lines) == ("FFFFFMM", parents)
    assert with_sexes({"s": "F"}, *lines) == ("FFFFFFM", parents)
    assert with_sexes({"d": "M"}, *lines) == ("FFFMFMM", parents)
    # one that is a sire and a dam, of which one fits
    both = "a s d", "b d t"
    assert with_sexes({"d": "F"}, *both) == ("FFFMM", [("s", "d"), ("d", "t")])
    assert with_sexes({}, *both) == ("FFMFF", [("d", "s"), ("d", "t")])


def test_sires_that_are_dams(desk: Desk) -> None:
    done = desk.good("import", "--pedigree", desk.write("both.txt", BOTH), "--leave-out")
    assert " 0 left out" in done.last
    found = {row["id"]: row["coefficient"] for row in desk.listed("list")}
    assert found == {"a": "0", "b": "0", "c": "0", "d": "1/4", "e": "3/8", "f": "0"}
    done.tells(
        "line 4: d: changed: taken with the sire a and the dam c, since c is a sire in line 4 and a dam in line 5",
        "line 6: f: changed: taken with the sire d and the dam unknown, since d is a sire in line 5 and a dam "
        "in line 6",
    )
    desk.wrong(
        "no animal of the book has a known birth year, so there is no trend to draw: take a sheet with birth days",
        "trend",
    )


def test_odd_pedigree(desk: Desk) -> None:
    """Cycles, one parent twice, and couples that no choice of sexes fits."""
    done = desk.good(
        "import", "--pedigree", desk.write("odd.txt", "a b 0\nb a 0\nc a a\nd a b\ne b c\nf c a\n"), "--leave-out"
    )
    done.tells(
        "line 3: c: its dam a is left out: a is its sire too, and no animal has one parent twice",
        "line 2: b: its sire a is left out: b would be its own ancestor (b > a > b)",
        "line 5: e: its dam c is left out: no choice of sexes fits all of the couples b and a (line 4), a and c"
        " (line 6), c and b (line 5)",
    )
    assert " 3 left out (3 parents), " in done.last


def test_pedigree_that_grows_and_shrinks(desk: Desk) -> None:
    both = desk.write("both.txt", BOTH)
    desk.good("import", "--pedigree", both, "--leave-out")
    grown = desk.write("more.txt", "g f e\na 0 0\nb 0 0\nc a b\nd c a\ne d c\nf 0 d\n")
    assert ", 1 new, " in desk.good("import", "--pedigree", grown, "--leave-out").last
    done = desk.good("import", "--pedigree", both, "--leave-out", "--drop-gone")
    assert "book: 6 animals, 0 new, " in done.last
    assert ", 1 gone (1 dropped): " in done.last
    took = [line.partition(": took ")[2].partition(" (")[0] for line in desk.good("history").out.splitlines()]
    assert took == ["the pedigree both.txt", "the pedigree more.txt", "the pedigree both.txt"]


@pytest.mark.parametrize(("text", "told"), [
    ("a b\n", "line 1: 'a b' has 2 cells: write an id, its sire and its dam"),
    ("", "has no animals: write a line `id sire dam` for each"),
    ("a 0 0\n0 a a\n", "line 2: '0' is a word for an unknown parent"),
    ("kind,animal,day,sire,dam,from,to\nbirth,a,2001-01-01,b,c,,1\n", "is a command file, whose animals are numbers"),
    ("id,sire\na,b\n", "line 1: no title for the dam is found. The titles are 'id', 'sire'"),
])  # fmt: skip
def test_no_pedigree(desk: Desk, text: str, told: str) -> None:
    desk.wrong(told, "import", "--pedigree", desk.write("wrong.txt", text))


def test_words_for_no_pedigree(desk: Desk) -> None:
    desk.wrong("can't be read: No such file or directory", "import", "--pedigree", "absent.txt")
    both = desk.write("both.txt", BOTH)
    desk.wrong("name a sheet, or a pedigree", "import", both, "--pedigree", both)
