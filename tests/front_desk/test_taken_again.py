"""What a book remembers of how a sheet is read, and what its report has."""
from __future__ import annotations

import pathlib
from types import SimpleNamespace
from typing import cast

import pytest

from front_desk.desk import Desk
from gudokeyi.domain.kinds import Remembered
from gudokeyi.domain.messages import Mistake
from gudokeyi.reconcile.import_options import ImportOptions, remember, rename_owners
from gudokeyi.services.search import find
from gudokeyi.store.book import Book
from gudokeyi.store.state import Meaning
from gudokeyi.store.transactions import reading


def test_remembered(desk: Desk) -> None:
    """Columns, words for sexes and words for unknown parents are those of the last time."""
    sheet = "Tag;S;born;sire;dam\n1;Bk;2001-01-01;fremd;\n2;Schf;2001-01-01;;\n3;Schf;2004;1;2\n"
    desk.take(sheet, "--columns", "id=Tag,sex=S", "--unknown", "fremd", "--sexes", "Bk=m,Schf=f")
    before = desk.commands()
    done = desk.take(sheet)
    done.tells(
        "as last time: --columns id=Tag,sex=S, --unknown fremd, --sexes Bk=m,Schf=f (the book "
        "remembers these)"
    )
    assert desk.commands() == before
    assert " 0 left out, 0 added" in done.last
    done = desk.take(sheet.replace(";S;", ";sex;"), "--sexes", "Schf=m,Bk=f")
    assert desk.numbers()["3"][6] == "M"
    assert "--columns id=Tag,sex=S, --unknown fremd" in done.out
    desk.wrong("there is no column 'X', which --columns names for id", "import", "sheet.csv", "--columns", "id=X")


def test_parent_by_hand_with_a_mistyped_sex(desk: Desk) -> None:
    """It stays one, as the book and its offspring say: also of an animal that was filed by hand and has no row."""
    sheet = "id,sex,birth,sire,dam\nA2,m,2001-01-01,,\nA3,m,2001-01-01,,\nB1,f,2005-01-01,A2,\n"
    desk.take(sheet)
    desk.good("parents", "B1", "--sire", "A3")
    desk.good("birth", "C1", "--sex", "f", "--day", "2006-01-01", "--sire", "A3")
    for text in sheet.replace("A3,m", "A3,f"), sheet:
        done = desk.take(text)
        assert ("its sex 'f' is wrong, or its offspring are: it is the sire of 2 animals" in done.out) == (text != sheet)
        assert desk.parents()["B1"] == ("A3", "") == desk.parents()["C1"] and " 0 left out" in done.last


def test_many_lines(desk: Desk) -> None:
    """The report has all lines of a kind, and a German spreadsheet opens it."""
    rows = (
        "".join(f"{at};F;2001-01-01;;;sold {at}\n" for at in range(40))
        + "mate;F;2001-01-01;dam;;\ndam;F;1999-01-01;;;\n"
    )
    done = desk.take("id;sex;born;sire;dam;exit\n" + rows, "--semicolons")
    done.tells(
        "line 41: 39: its exit is left out: 'sold 39' has no single day with a year of four digits; the animal counts "
        "as gone",
        "line 42: mate: its sire dam (line 43) is left out: it isn't male (refusal 5)",
    )
    text = (desk.room / "book/report.csv").read_bytes()
    assert text.startswith(b"\xef\xbb\xbfline;id;what;why;change\n;;to look at;") and b"\n2;0;left out;" in text
    assert text.count(b";left out;") == 41
    shown = "id;name;sex;born;sire;dam\n1;Max;M;2001-01-01;;\n2;Max;M;2001-01-01;;\n3;;F;2005-01-01;Max;\n"
    desk.take(shown + "4;Eva;F;2001-01-01;;\n5;EVA;F;2001-01-01;;\n", "--book", "names")
    done = desk.good("certificate", "Max", "--book", "names")
    assert done.err == "gudokeyi: 'Max' is taken for the animal with this id; others have this name: 1, 2\n"
    # as it is written where it is so
    with reading(desk.room / "names") as connection:
        book = Book(desk.room / "names", connection)
        assert find(book, "EVA").id == "5"
        with pytest.raises(Mistake, match="4, 5"):
            find(book, "eva")


def test_words_are_known_or_unknown_as_is_said_last(tmp_path: pathlib.Path) -> None:
    """A word that is said again stands last, and what is no option of a sheet's reading stays."""
    unknown, known, owner = Remembered.UNKNOWN, Remembered.KNOWN, Meaning(Remembered.OWNER, "Meier", "Meyer")
    before = [Meaning(unknown, "fremd,X"), Meaning(unknown, "?"), Meaning(known, "Y"), owner]
    book = cast(Book, SimpleNamespace(remembered=before))
    words = remember(book, ImportOptions(tmp_path, known=["x"], unknown=["Y"]))
    assert (words[unknown], words[known]) == (["fremd", "?", "Y"], ["x"]) and owner in book.remembered
    words = remember(book, ImportOptions(tmp_path, unknown=["fremd"]))
    assert (words[unknown], words[known]) == (["?", "Y", "fremd"], ["x"]) and owner in book.remembered


def test_owners_are_written_otherwise_from_now_on(tmp_path: pathlib.Path) -> None:
    """What else is remembered stays; whoever has the name and isn't named by a command gives it away."""
    word, owner = Meaning(Remembered.UNKNOWN, "fremd"), Remembered.OWNER
    book = SimpleNamespace(
        owners={"Meyer": 1, "Maier": 2}, owners_came=lambda: {"Meier": 1, "Maier": 2}, steps=[], renamed=[],
        remembered=[Meaning(owner, "Meier", "Meyer"), word],
    )  # fmt: skip
    rename_owners(cast(Book, book), ImportOptions(tmp_path, owners=["Meyer  = Maier"]))
    assert book.owners == {"Maier": 1, "Maier (herd 2)": 2} and book.renamed == [("Meyer", "Maier")]
    assert book.remembered == [word, Meaning(owner, "Maier", "Maier (herd 2)"), Meaning(owner, "Meier", "Maier")]
