"""The words for a pedigree by itself: what they write, and where."""
from __future__ import annotations

import csv
import gzip
import io
import os
import subprocess
from fractions import Fraction

import pytest
from scipy import io as matrix_io
from scipy import sparse

from front_desk.desk import TOP, Desk
from reference_pedigree import drawn

# Mrode's animals, the youngest first
BACKWARDS = "# Mrode\n6 5 2\n5 4 3\n4 1 0\n3 1 2\n2 0 0\n1 0 0 # a founder\n"
COEFFICIENTS = "id,coefficient,decimal,percent\n6,1/8,0.125,12.50\n5,1/8,0.125,12.50\n" + "".join(
    f"{one},0,0,0.00\n" for one in (4, 3, 2, 1)
)


def test_inbreeding(desk: Desk) -> None:
    """In the file's order; nothing of a book is made, and the file stays."""
    desk.write("p.txt", BACKWARDS)
    done = desk.good("inbreeding", "p.txt")
    assert done.out == COEFFICIENTS and "has none of the known titles" in done.err
    assert desk.good("inbreeding", "p.txt", "--out", "f.csv").out == "f.csv: 6 rows\n"
    assert (desk.room / "f.csv").read_text() == COEFFICIENTS
    desk.wrong("f.csv is there already", "inbreeding", "p.txt", "--out", "f.csv")
    desk.wrong(
        "p.txt is the file that was read, and is never written over", "inbreeding", "p.txt", "--out", "p.txt", "--force"
    )
    assert not (desk.room / "book").exists()
    desk.write("keep.txt", "4\n3\n")
    kept = desk.good("inbreeding", "p.txt", "--keep", "keep.txt")
    assert [line.split(",")[0] for line in kept.out.splitlines()] == ["id", "4", "3", "2", "1"]
    assert "kept: 4 of 6 animals, those of keep.txt with their ancestors" in kept.err
    desk.write("keep.txt", "4\nx\n")
    desk.wrong("keep.txt names animals that aren't in the pedigree: x", "inbreeding", "p.txt", "--keep", "keep.txt")


def test_many_kinds_of_files(desk: Desk) -> None:
    (desk.room / "p.txt.gz").write_bytes(gzip.compress(BACKWARDS.encode()))
    assert desk.good("inbreeding", "p.txt.gz").out == COEFFICIENTS
    (desk.room / "q.txt.gz").write_bytes(gzip.compress(BACKWARDS.encode())[:-9])
    desk.wrong("q.txt.gz is packed by gzip, and is cut off or damaged", "inbreeding", "q.txt.gz")
    packed = gzip.compress(b"".join(b"%d %d %d\n" % (at, at // 2, at // 3) for at in range(1, 999)))
    (desk.room / "r.gz").write_bytes(packed[:1000] + bytes(50) + packed[1050:])
    desk.wrong("r.gz is packed by gzip, and is cut off or damaged", "inbreeding", "r.gz")
    (desk.room / "s.zip").write_bytes(b"PK\x03\x04" + bytes(20))
    desk.wrong("s.zip is a zip archive or a spreadsheet: give the text file in it", "inbreeding", "s.zip")
    desk.write("t.txt", "PK1 0 0\nPK2 PK1 0\n")
    assert desk.good("inbreeding", "t.txt").out.count("\n") == 3
    desk.write("odd.csv", 'id,sire,dam\n=2,,\n"a,b",,\nc,=2,"a,b"\n')
    rows = [*csv.reader(io.StringIO(desk.good("inbreeding", "odd.csv").out))]
    assert [row[0] for row in rows[1:]] == ["'=2", "a,b", "c"]
    desk.write("doubt.txt", "1 0 0\n3 1 Missing\n4 1 Missing\n")
    told = desk.wrong("if 'Missing' means an unknown parent, say --unknown Missing", "inbreeding", "doubt.txt")
    assert "if it is an animal, say --known Missing" in told.err
    assert desk.good("inbreeding", "doubt.txt", "--unknown", "Missing").out.count("\n") == 4
    assert (
        "1 parent without a line is a founder: Missing"
        in desk.good("inbreeding", "doubt.txt", "--known", "Missing").err
    )
    desk.wrong(
        "of a pedigree by itself the columns id, sire and dam are read", "inbreeding", "p.txt.gz", "--columns", "sex=x"
    )


def test_relationships(desk: Desk) -> None:
    desk.write("p.txt", BACKWARDS)
    titles = "id,with,relationship,relationship_decimal,kinship,kinship_decimal\n"
    pairs = "5,5,9/8,1.125,9/16,0.5625\n5,6,11/16,0.6875,11/32,0.34375\n6,6,9/8,1.125,9/16,0.5625\n"
    assert desk.good("relationships", "p.txt", "5", "6").out == titles + pairs
    desk.write("young.txt", "6\n5\n")
    desk.write("old.txt", "1\n2\n")
    matrix = desk.good(
        "relationships", "p.txt", "--among", "young.txt", "--with", "old.txt", "--matrix", "relationship"
    ).out
    assert matrix == "id,1,2\n6,0.25,0.625\n5,0.5,0.25\n"
    desk.wrong("relationships needs animals", "relationships", "p.txt")
    desk.wrong("no animal of the pedigree has the id 7", "relationships", "p.txt", "7")


def test_inverse(desk: Desk) -> None:
    """Both kinds of files have the inverse that Mrode prints."""
    desk.write("p.txt", BACKWARDS)
    desk.good("inverse", "p.txt", "--out", "i.mtx")
    desk.good("inverse", "p.txt", "--out", "i.npz")
    assert (desk.room / "i.mtx.ids").read_text() == (desk.room / "i.npz.ids").read_text() == "6\n5\n4\n3\n2\n1\n"
    read = [matrix_io.mmread(desk.room / "i.mtx").toarray(), sparse.load_npz(desk.room / "i.npz").toarray()]
    for matrix in read:
        wanted = [
            Fraction(32, 15),
            Fraction(38, 15),
            Fraction(11, 6),
            Fraction(5, 2),
            Fraction(61, 30),
            Fraction(11, 6),
        ]
        assert matrix.diagonal().tolist() == pytest.approx([float(one) for one in wanted], rel=1e-15)
        assert matrix[0, 1] == matrix[1, 0] == pytest.approx(-16 / 15)
    desk.wrong("name a file that ends with .mtx or .npz", "inverse", "p.txt", "--out", "i.txt")
    desk.wrong("name it by --out", "inverse", "p.txt")
    desk.wrong("name a pedigree and --out, or of a book --matrix-market, or say --json", "inverse")


def test_measures(desk: Desk) -> None:
    """Of plants, each of which may be selfed: the means are those of the tabular method."""
    reference = next(one for one in map(drawn, range(100)) if len(one.parents) == 30)
    lines = (
        " ".join(str((it if it is not None else -1) + 1) for it in (at, *pair))
        for at, pair in enumerate(reference.parents)
    )
    desk.write("p.txt", "\n".join(lines) + "\n")
    desk.write("some.txt", "".join(f"{number}\n" for number in range(20, 31)))
    rows = csv.DictReader(io.StringIO(desk.good("measures", "p.txt", "--among", "some.txt").out))
    found = {row["measure"]: row for row in rows}
    some, table = range(19, 30), reference.relationships
    assert found["animals"]["value"] == "11"
    assert Fraction(found["mean_inbreeding"]["exact"]) == sum((table[at][at] - 1 for at in some), Fraction(0)) / 11
    assert (
        Fraction(found["mean_kinship"]["exact"])
        == sum((table[at][to] for at in some for to in some), Fraction(0)) / 242
    )
    assert found["generation_interval"]["why_not"].startswith("not each of the four paths")
    desk.wrong("name its animals in a file by --among", "measures", "p.txt")


def test_audit(desk: Desk) -> None:
    """The status tells whether more than rounding differs."""
    desk.write("p.txt", BACKWARDS)
    desk.write("f.csv", "animal;F\n6;0,125\n5;0,13\n")
    done = desk.good("audit", "p.txt", "--against", "f.csv")
    assert "2 coefficients of inbreeding are compared\n2 are the exact values" in done.out
    assert "4 animals of the pedigree aren't in it: 4, 3, 2, 1" in done.out
    desk.write("f.csv", "animal,F\n6,0.125\n5,0.25\n")
    done = desk.run("audit", "p.txt", "--against", "f.csv")
    assert done.status == 3 and "1 differs; the first: 5 in line 3 has 0.25, exact 1/8 (0.125)" in done.out


def test_one_is_told_as_one(desk: Desk) -> None:
    desk.write("one.txt", "1 0 0\n2 0 0\n")
    desk.write("keep.txt", "1\n")
    desk.write("f.csv", "1,0\nx,0\n")
    done = desk.good("audit", "one.txt", "--against", "f.csv")
    assert done.out == (
        "1 coefficient of inbreeding is compared\n1 is the exact value as far as it is written, or as a double\n"
        "1 of its ids isn't in the pedigree: x\n1 animal of the pedigree isn't in it: 2\n"
    )
    assert "kept: 1 of 2 animals" in desk.good("inbreeding", "one.txt", "--keep", "keep.txt").err


def test_family_file_of_standard_input(desk: Desk) -> None:
    """It has no name there: its six cells and the sexes tell."""
    family = "".join(f"F1 {line.partition(' #')[0]} 0 -9\n" for line in BACKWARDS.splitlines()[1:])
    asked = f"{TOP / 'gudokeyi'} inbreeding - <"
    done = desk.typed(f"{asked} {desk.write('family', family)}")
    assert done.out == COEFFICIENTS and "as a .fam file of PLINK has them" in done.err
    done = desk.typed(f"{asked} {desk.write('six', '1 0 0 x 1999 2' + chr(10))} || exit 0")
    assert not done.out and "without titles each line has an id, its sire and its dam alone" in done.err


def test_told_at_a_terminal_alone(desk: Desk) -> None:
    desk.write("p.txt", BACKWARDS)
    assert " .." not in desk.good("inbreeding", "p.txt").err
    terminal, errors = os.openpty()
    known = {"PATH": os.environ["PATH"], "HERDBOOK": desk.program, "LANG": "C"}
    words = [str(TOP / "gudokeyi"), "inbreeding", "p.txt", "--out", "f.csv"]
    subprocess.run(words, cwd=desk.room, env=known, stdout=subprocess.DEVNULL, stderr=errors, check=True)
    seen = os.read(terminal, 10_000).decode()
    assert "reading .." in seen and "the coefficients of 6 animals .." in seen
