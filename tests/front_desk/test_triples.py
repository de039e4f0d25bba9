"""Pedigrees of `id sire dam`: lost links and swaps as the file has them, odd cells, and words for unknown parents."""
from __future__ import annotations

import random
import re

import pytest

from front_desk.desk import CALLED, TOP, Desk, Done

LOST = re.compile(r"line (\d+): (\S+): its (sire|dam) (\S+) is left out: ")
TAKEN = re.compile(
    r"line (\d+): (\S+): changed: taken with the sire (\S+) and the dam (\S+), since (\S+?)(?:, which couples join to "
    r"(\S+),)? is a sire in line (\d+) and a dam in line (\d+)"
)
COUPLE = re.compile(r"(\S+) and (\S+) \(line (\d+)\)")
Rows = list[list[str]]


def text_of(rows: Rows) -> str:
    return "".join(" ".join(row) + "\n" for row in rows)


def random_rows(seed: int) -> Rows:
    """Animals that are sires and dams, some of whose parents are younger or themselves."""
    chance = random.Random(seed)
    count = chance.randint(4, 14)
    rows = []
    for at in range(count):
        most = max(1, min(count, at + (chance.random() < 0.3) * 4))
        rows.append([f"a{at}", *(f"a{chance.randrange(most)}" if chance.random() < 0.7 else "0" for _ in range(2))])
    chance.shuffle(rows)
    return rows


def test_lost_link(desk: Desk) -> None:
    """Of a lost link the file's role is told, and of a swap what was taken and which lines ask for it."""
    done = desk.good(
        "import", "--pedigree", desk.write(
            "cycle.txt", "a 0 0\nb b a\nc a 0\nd a c\n"
        ), "--book", "cycle", "--leave-out"
    )
    done.tells(
        "line 2: b: its sire b is left out: b would be its own ancestor (b > b)",
        (
            "line 2: b: changed: taken with the sire a and the dam unknown, since a is a sire in line 3 and a dam "
            "in line 2"
        ),
    )
    assert ", 1 changed, 4 invented, 1 left out (1 parent), 0 added, 0 gone: cycle/report.csv has each" in done.last


def test_random_pedigrees(desk: Desk) -> None:
    """What is told of random pedigrees is as their lines have it, and as the books have it."""
    swaps = lost = couples = 0
    for seed in range(40):
        rows = random_rows(seed)
        pedigree = desk.write("random.txt", text_of(rows))
        done = desk.good("import", "--pedigree", pedigree, "--book", f"book{seed}", "--leave-out")
        counts = as_told(desk, rows, done, f"book{seed}")
        swaps, lost, couples = swaps + counts[0], lost + counts[1], couples + counts[2]
    assert swaps > 9
    assert lost > 20
    assert couples > 2


def as_told(desk: Desk, rows: Rows, done: Done, book: str) -> tuple[int, int, int]:
    """Compares what is told with the file's lines and with the book's parents; counts swaps and lost links."""
    told, report = {row[0]: row[1:] for row in rows}, "\n".join(done.report)
    lost = LOST.findall(report)
    for line, id, role, parent in lost:
        at = ["sire", "dam"].index(role)
        assert rows[int(line) - 1][0] == id, f"{book}: line {line} has no {role} {parent}: {rows}"
        assert rows[int(line) - 1][1 + at] == parent, f"{book}: line {line} has no {role} {parent}: {rows}"
        told[id] = [parent if at != place else "0" for place, parent in enumerate(told[id])]
    taken = TAKEN.findall(report)
    for line, id, sire, dam, both, mate, as_sire, as_dam in taken:
        assert rows[int(line) - 1][0] == id, f"{book}: {id}: {told[id]} was taken with {sire}, {dam}"
        assert [dam, sire] == [one.replace("0", "unknown") if one == "0" else one for one in told[id]]
        assert (mate or both) in told[id], f"{book}: {both} is no sire in line {as_sire} or no dam in {as_dam}: {rows}"
        assert rows[int(as_sire) - 1][1] == both == rows[int(as_dam) - 1][2]
        told[id].reverse()
    assert {id: tuple(pair) for id, pair in told.items()} == parents_in(desk, book)
    fits = [line for line in done.report if "no choice of sexes fits all of the couples " in line]
    for line in fits:
        couples = COUPLE.findall(line.split("couples ")[1].replace(",", ""))
        right = all({one, other} == set(rows[int(at) - 1][1:]) for one, other, at in couples)
        ends = [one for pair in couples for one in pair[:2]]
        assert right, f"{book}: {line}: {rows}"
        assert len(couples) % 2, f"{book}: {line}: {rows}"
        assert all(ends.count(one) == 2 for one in ends), f"{book}: {line}: {rows}"
    assert f"{len(taken)} changed, " in done.last
    assert f" {len(lost)} left out" in done.last
    return len(taken), len(lost), len(fits)


def parents_in(desk: Desk, book: str) -> dict[str, tuple[str, ...]]:
    ids = {row["number"]: row["id"] for row in desk.table(f"{book}/ids.csv")} | {"0": "0"}
    births = [line.split(",") for line in (desk.room / book / "commands.csv").read_text().splitlines()[1:]]
    return {ids[birth[1]]: tuple(ids[parent] for parent in birth[3:5]) for birth in births}


# as published, above the diagonal too
RELATIONSHIPS = [
    ("1", "1", 1), ("1", "4", 0.5), ("2", "5", 0.25), ("3", "3", 1), ("3", "4", 0.25), ("4", "5", 0.625),
    ("5", "5", 1.125), ("3", "6", 0.5625), ("6", "6", 1.125), ("1", "2", 0),
]  # fmt: skip


@pytest.mark.parametrize(("x", "y", "relationship"), RELATIONSHIPS)
def test_relationships(desk: Desk, x: str, y: str, relationship: float) -> None:
    """With the lines `u x 0` and `calf u y` the relationship of x and y, whatever their sexes, is four times F of
    `calf`."""
    rows = [line.split() for line in (TOP / "examples/mrode.txt").read_text().splitlines() if line[:1].isdigit()]
    more = desk.write("more.txt", text_of([*rows, ["u", x, "0"], ["calf", "u", y]]))
    desk.good("import", "--pedigree", more, "--leave-out")
    found = {row["id"]: row["decimal"] for row in desk.listed("list")}
    assert 4 * float(found["calf"]) == relationship


@pytest.mark.parametrize(("text", "told"), [
    ("1 a 0 0\n2 b 0 0\n3 c a b\n",
     "line 1: '1 a 0 0' has 4 cells, and without titles each line has an id, its sire and its dam alone: "
     "write a first line with the titles"),
    ("ANIMAL PARENT1 PARENT2\na 0 0\n",
     "line 1: no title for the sire and the dam is found. The titles are 'ANIMAL', 'PARENT1', 'PARENT2'. Say which it "
     "is by --columns, with the field, = and its title"),
    ("a;0;0;x\n", "line 1: 'a 0 0 x' has 4 cells, and without titles"),
    ('"id" "sire" "dam"\n"1" "a" 0 0\n',
     "line 2: '1 a 0 0' has 4 cells, and line 1 has 3 titles: write one for each column "
     "(R writes such a file without row.names = FALSE)"),
    ("a 0 0\nb 0 0\nc , a , b\n",
     "line 3: 'c , a , b' has ',', and the first line has blanks between its cells: "
     "write all lines with the same"),
    ("a 0 0\nc, a, 0\n", "line 2: 'c, a, 0' has ','"), ("a 0 0\n;;\n", "line 2: ';;' has ';'"),
    ("a,0,0\nb a 0\n", "line 2: 'b a 0' has 1 cell: write an id, its sire"),
    ("id,sire,dam\na,0,0\nid,sire,dam\nb,a,0\n", "line 3: 'id sire dam' is that of the titles again: leave it out"),
])  # fmt: skip
def test_odd_cells(desk: Desk, text: str, told: str) -> None:
    """Other columns need titles, and what stands between cells is the same in all lines."""
    desk.wrong(told, "import", "--pedigree", desk.write("wrong.txt", text))


@pytest.mark.parametrize("text", [
    "no id sire dam\n1 a 0 0\n2 b 0 0\n3 c a b\n",
    '"Row","Animal","Dam","x","Sire"\n1,a,0,,0\n2,b,0,u,\n3,c,b,v,a,\n', "a,0,0,\nb,0,0,,\nc,a,b\n",
    'a 0 0\n"b" 0 0\n"c" "a" "b"\n', 'id, x, sire, dam\n"a", "", "", ""\n"b" ,1, "" , ""\n"c",2, "a" , "b"\n',
    'id;x;sire;dam\n="a";;="";=""\nb;;="";\n="c";;a;="b"\n',
])  # fmt: skip
def test_cells(desk: Desk, text: str) -> None:
    """Columns are found by titles, blanks at the end and quotation marks are no cells, and what isn't read is told."""
    done = desk.good("import", "--pedigree", desk.write("right.txt", text))
    assert desk.parents() == {"a": ("", ""), "b": ("", ""), "c": ("a", "b")}
    columns = [line for line in done.out.splitlines() if line.startswith("columns: id from '")]
    assert len(columns) == (text[:2] not in ("a,", "a "))
    assert all("not read: '" in line for line in columns)


def test_blanks_in_ids(desk: Desk) -> None:
    done = desk.good("import", "--pedigree", desk.write("blanks.txt", 'a 0 0\n"b b" 0 0\nc a "b b"\n'))
    assert "3 animals, 3 new" in done.last
    assert done.last.endswith(", 0 gone")


def test_id_in_several_lines(desk: Desk) -> None:
    twice = desk.write("twice.txt", "a 0 0\nb 0 0\nc a b\nc a b\nc b 0\n")
    done = desk.good("import", "--pedigree", twice, "--leave-out")
    done.tells(
        "line 4: c: the line is left out: line 3 has this id too",
        (
            "line 5: c: the line is left out: line 3 has this id too, with other parents, which are taken (a and b;"
            " here they are b and unknown)"
        ),
    )
    assert " 2 left out (2 lines), " in done.last


def test_unknown_words(desk: Desk) -> None:
    """A parent without a row that is a sire and a dam of many may mean an unknown one; `--unknown` takes it."""
    pedigree = desk.write("nine.txt", "a -7 -7\nb -7 -7\nc a b\nd 07 b\n")
    advice = "-7 has no row, and is the sire of 2 and the dam of 2"
    command = f"{CALLED} import --pedigree nine.txt --unknown=-7"
    done = desk.wrong("1 word has no line and is a parent of several animals: -7", "import", "--pedigree", pedigree)
    assert command in done.commands()
    done = desk.wrong("1 animal is both sire and dam: -7", "import", "--pedigree", pedigree, "--anyway")
    assert advice in done.err and command.replace("--unknown", "--anyway --unknown") in done.commands()
    taken = "import", "--pedigree", pedigree, "--leave-out"
    done = desk.good(*taken)
    done.shows(f"to look at: {advice}")
    assert command.replace("--unknown", "--leave-out --unknown") in done.commands()
    done = desk.wrong("2 left out (2 parents): with --strict nothing is taken", *taken, "--strict")
    assert advice in done.err
    done = desk.good("import", "--pedigree", pedigree, "--unknown=-7,07", "--drop-gone")
    assert "book: 4 animals, 0 new, 3 changed, 4 invented, 0 left out, 0 added, 2 gone (2 dropped): " in done.last
    for words in (
        ["--unknown", "-7,07"],
        ["--unknown", "-7", "--unknown", "07"],
        ["--unknown=-7", "--unknown", "07"],
    ):
        done = desk.good("import", *words, "--pedigree", pedigree, "--book", "new" + "".join(words))
        assert ": 4 animals, 4 new, 0 changed, 4 invented, 0 left out, 0 added, 0 gone" in done.last


def test_unknown_words_in_a_sheet(desk: Desk) -> None:
    done = desk.take("id,born,sire,dam\na,2001,anders,anders\nb,2002,anders,\nc,2003,n b,n b\nd,2004,x,x\ne,2005,n b,\n")
    done.shows("to look at: anders has no row, and is the sire of 2 and the dam of 1")
    commands = [f"{CALLED} import sheet.csv --unknown {word}" for word in ("anders", "'n b'")]
    assert done.commands() == commands
    assert "x has no row, and is" not in done.out
