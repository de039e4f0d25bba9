"""The whole pedigree as a file, or some animals of it with their ancestors."""
from __future__ import annotations

from front_desk.desk import Desk


def test_export(society_desk: Desk) -> None:
    """In age order, and it is the same book where it is taken again."""
    society_desk.good("exit", "GK-98/005c", "--day", "2020-02-01")
    society_desk.good("birth", "late", "--sex", "f", "--day", "2021-01-01", "--dam", "GK-98/005c", "--embryo")
    rows = society_desk.listed("export")
    assert list(rows[0])[:9] == ["id", "name", "sex", "birth", "sire", "dam", "owner", "exit", "embryo"]
    told = {row["id"]: (row["exit"], row["embryo"]) for row in rows if row["exit"] or row["embryo"]}
    assert told == {"GK-98/005c": ("2020-02-01", ""), "late": ("", "1")}
    assert [row["id"] for row in rows] == [row["id"] for row in society_desk.listed("list")]
    assert {row["id"]: (row["sire"], row["dam"]) for row in rows} == society_desk.parents()
    society_desk.good("export", "--out", "all.csv")
    society_desk.good("export", "--triples", "--out", "all.txt")
    for words in ["all.csv"], ["--pedigree", "all.txt"]:
        society_desk.good("import", *words, "--book", words[-1][4:])
        again = society_desk.listed("list", "--book", words[-1][4:])
        assert {(row["id"], row["coefficient"]) for row in again} == {(row["id"], row["coefficient"]) for row in rows}
    again = society_desk.listed("export", "--book", "csv")
    assert [list(row.values())[:9] for row in again] == [list(row.values())[:9] for row in rows]


def test_export_of_what_is_inferred(desk: Desk) -> None:
    """Who is castrated, and who left on an unknown day, is so in the book that takes it, and inferred days are so
    too."""
    desk.take("""\
        id,sex,birth,sire,dam,exit
        A,f,2001-02-01,,,sold
        B,wether,2003,,A,05.2010
        C,m,,,A,
        D,,2008-01-01,C,E,
        E,,,,,
        F,,,G,,
        """)
    desk.good("export", "--out", "all.csv")
    rows = desk.table("all.csv")
    found = {row["id"]: row for row in rows}
    birth, sex = ("birth", "inferred_birth"), ("sex", "inferred_sex")
    assert {id: tuple(found[id][one] for one in birth) for id in "ABCD"} == {
        "A": ("2001-02-01", ""), "B": ("2003", "2003-07-02"), "C": ("", desk.born()["C"]), "D": ("2008-01-01", ""),
    }  # fmt: skip
    assert {id: row["inferred_exit"] for id, row in found.items() if row["inferred_exit"]} == {"B": "2010-05-31"}
    assert {id: tuple(row[one] for one in sex) for id, row in found.items()} == {
        "A": ("F", ""), "B": ("male castrated", ""), "C": ("M", ""), "D": ("F", "F"), "E": ("F", "F"), "F": ("F", "F"),
        "G": ("M", "M"),
    }  # fmt: skip
    assert desk.good("import", "all.csv").last.startswith("book: 7 animals, 0 new, 0 changed")
    desk.good("import", "all.csv", "--book", "new")
    # so are sexes, but for that of a sire that is taken without its offspring
    bases = [[row["sex_from"] for row in desk.listed("export", "--book", book)] for book in ("book", "new")]
    assert bases[0] == bases[1] and {*bases[0]} > {
        "since it is a sire",
        "since it is a dam",
        "since nothing else is known",
    }
    kept = desk.listed("export", "--keep", desk.write("kept.txt", "G\n"))
    assert [(row["id"], row["sex"], row["inferred_sex"]) for row in kept] == [("G", "M", "M")]
    shown = [desk.good("list", "--columns", "id,sex,birth,exit", "--book", book).out for book in ("book", "new")]
    assert shown[0] == shown[1] and "B,M,2003-07-02 (inferred),2010-05-31 (inferred)" in shown[0]
    assert "day unknown: 'sold'" in shown[0] and "castrated" in desk.good("show", "B", "--book", "new").out


def test_export_of_ids_that_begin_as_formulas(desk: Desk) -> None:
    """No spreadsheet takes them for formulas, and they are read again as they are: from a sheet and from a pedigree."""
    desk.take("id,name,sex,birth,sire,dam\n-5a,O'Brien,m,2001-01-01,,\n+6,@,f,2001-01-01,,\n@7,-,f,2004-01-01,-5a,+6\n")
    desk.good("export", "--out", "export.csv")
    assert "'@7,-,f" not in desk.text("export.csv") and "'-5a" in desk.text("export.csv")
    assert " 0 new, 0 changed, " in desk.good("import", "export.csv").last
    desk.good("list", "--columns", "id,sire,dam", "--out", "list.csv")
    assert " 0 new, 0 changed, " in desk.good("import", "--pedigree", "list.csv").last


def test_export_of_some(society_desk: Desk) -> None:
    """The ancestors of those that are named, and no others; relationships stay as they are."""
    society_desk.write("keep.txt", "GK-17/472c\nGK-18/487c\n")
    parents = society_desk.parents()
    wanted, new = set[str](), ["GK-17/472c", "GK-18/487c"]
    while new:
        wanted.update(new)
        new = [parent for id in new for parent in parents[id] if parent]
    lines = society_desk.good("export", "--triples", "--keep", "keep.txt").out.splitlines()
    assert lines[0] == "id sire dam"
    assert {line.split()[0] for line in lines[1:]} == wanted
    seen = {"NA"}
    for id, sire, dam in (line.split() for line in lines[1:]):
        assert {sire, dam} <= seen and parents[id] == (sire.replace("NA", ""), dam.replace("NA", ""))
        seen.add(id)
    assert {row["id"] for row in society_desk.listed("export", "--keep", "keep.txt")} == wanted
