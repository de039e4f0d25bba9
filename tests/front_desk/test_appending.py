"""A sheet that has new rows alone, taken by `--append`."""
from __future__ import annotations

from front_desk.desk import Desk

NEW = "id,sex,born,sire,dam,owner\nn1,F,2012-01-01,a8,a9,farm 1\nn2,M,2012-01-02,a8,a11,farm 1\n"


def test_new_rows(flock_desk: Desk) -> None:
    """No animal is gone, and each stays what it was in the book; without the option the sheet isn't taken."""
    rows = [row for row in flock_desk.ids() if row["row"]]
    flock_desk.wrong("16 of the 16 animals", "import", flock_desk.write("new.csv", NEW))
    done = flock_desk.good("import", "new.csv", "--append")
    assert "18 animals, 2 new, 0 changed, 0 inferred, 0 left out, 0 added, 0 gone" in done.last
    assert [row for row in flock_desk.ids() if row in rows] == rows
    assert flock_desk.parents()["n2"] == ("a8", "a11") and "--append" in flock_desk.good("history", "2").out
    # a row that the book has may say something new
    flock_desk.write("new.csv", f"{NEW}a2,M,2000-01-03,,,farm 9\n".replace("2012-01-02", "2012-01-05"))
    assert "18 animals, 0 new, 2 changed" in flock_desk.good("import", "new.csv", "--append", "--day", "2012-02-01").last
    assert "is whole" in flock_desk.good("verify").out


def test_other_words(flock_desk: Desk) -> None:
    for words in ["--drop-gone"], ["--pedigree", "new.csv"]:
        sheet = [] if "--pedigree" in words else ["sheet.csv"]
        flock_desk.wrong("leave out --pedigree and --drop-gone", "import", *sheet, *words, "--append")
