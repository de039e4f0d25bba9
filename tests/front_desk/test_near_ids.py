"""Ids that are written otherwise, words for parents without a row, and tags that are used again."""
from __future__ import annotations

import pytest

from front_desk.desk import Desk
from gudokeyi.ingest.texts import nearly, nearly_all

TITLES = "id;name;sex;birth;sire;dam\n"
FLOCK = "DE 007;Max;M;2001-03-01;;\nDE 8;Eva;F;2001-03-02;;\n"


def test_parent_written_otherwise(desk: Desk) -> None:
    """A parent's cell that differs from just one id in case, blanks or leading zeros is that animal, and is told."""
    calves = "c1;;F;2004-01-01;de007;DE  08\nc2;;F;2004-01-02;DE 7;de 8\nc3;;F;2004-01-03;DE 8;DE 007\n"
    calves += "c4;;F;2004-01-04;DE 007;DE 8\nc5;;F;2004-01-05;DE 0070;DE 80\nc6;;F;2004-01-06;de 8;de 007\n"
    done = desk.take(TITLES + FLOCK + calves)
    done.tells(
        "line 4: c1: inferred: its sire 'de007' is DE 007, whose id differs only in case, blanks or zeros: if another "
        "is meant, give that one a row"
    )
    assert desk.parents()["c1"] == desk.parents()["c2"] == ("DE 007", "DE 8")
    # no female is a sire; four cells are inferred, and the days of four parents that are none of these
    assert desk.parents()["c6"] == ("de 8", "de 007")
    assert " 8 inferred, 2 left out (2 parents), 4 added" in done.last


MANY = "IE 12-{}01;Max;M;2001-03-01;;\nIE 12-{}02;Eva;F;2001-03-02;;\nIE 12-{}03;;F;2004-01-01;IE 12-{}01;IE 12-{}02\n"


@pytest.mark.parametrize("between, zeros", [("", "00"), (" ", "00"), (".", "00"), ("/", "00")])
def test_ids_written_otherwise_throughout(desk: Desk, between: str, zeros: str) -> None:
    """The rows are the animals of the book, which keep their ids, and a new one has its id of the sheet."""
    first = TITLES + MANY.replace("{}", "00")
    desk.take(first)
    ids = {*desk.numbers()}
    again = MANY.replace("{}", zeros).replace("IE 12-", f"IE{between}12{between}")
    new = f"IE{between}12{between}{zeros}99;;F;2005-01-01;IE{between}12{between}{zeros}01;\n"
    for count in 1, 0:
        done = desk.take(TITLES + again + new)
        assert f" {count} new, 0 changed" in done.last and "0 gone" in done.last
        assert "3 ids of the sheet differ from those of the book in case, blanks, signs or zeros alone" in done.out
    assert {*desk.numbers()} - ids == {new.split(";")[0]} and desk.parents()[new.split(";")[0]][0] == "IE 12-0001"
    assert "differ from those of the book" not in desk.take(first + new).out


def test_more_than_one_is_meant(desk: Desk) -> None:
    done = desk.take(
        TITLES
        + FLOCK
        + "de7;Leo;M;2001-04-01;;\nDE 17;Tom;M;2001-04-01;;\nc;;F;2004-01-01;DE 7;\nd;;F;2004-01-01;;DE 08\ne;;F;2004;DE 107;\n"
    )
    assert desk.parents()["c"] == ("DE 7", "") and desk.parents()["e"] == ("DE 107", "")
    assert " 2 added" in done.last


def test_row_that_comes_later(desk: Desk) -> None:
    """A parent that was added is the row whose id is nearly written so."""
    calf = "c1;;F;2004-01-01;;de 8\n"
    assert " 1 added" in desk.take(TITLES + FLOCK.splitlines()[0] + "\n" + calf).last
    desk.take(TITLES + FLOCK + calf)
    assert desk.parents()["c1"] == ("", "DE 8")


def test_rows_that_are_alike(desk: Desk) -> None:
    """They are told at each taking."""
    told = (
        "line 4: de 08: to look at: its id differs from DE 8 (line 3) only in case, blanks or zeros: are they one "
        "animal?"
    )
    for _ in range(2):
        desk.take(TITLES + FLOCK + "de 08;Eva;F;2001-03-02;;\n").tells(told)
    done = desk.take(TITLES + FLOCK.splitlines()[0] + "\nde 08;Eva;F;2001-03-02;;\n")
    done.tells(told.replace("line 4", "line 3", 1).replace("(line 3)", "(in the book)"))


def test_ids_that_are_like_one_filed_by_hand(desk: Desk) -> None:
    """An animal that was filed by hand is known by its id as one with a row is: before names, and where it is written
    otherwise."""
    desk.take(TITLES + FLOCK)
    desk.good("birth", "Ada", "--sex", "f", "--day", "2002-01-01")
    desk.good("birth", "DE 9", "--sex", "f", "--day", "2002-01-02")
    rows = "a7;Ada;F;2002-01-01;;\nc1;;F;2005-01-01;;Ada\nc2;;F;2005-01-02;;de09\n"
    desk.take(TITLES + FLOCK + rows)
    assert desk.parents()["c1"] == ("", "Ada") and desk.parents()["c2"] == ("", "DE 9")
    told = "its id differs from DE 9 (in the book) only in case, blanks or zeros: are they one animal?"
    desk.take(TITLES + FLOCK + rows + "de 9;;F;2002-01-02;;\n").tells(f"line 7: de 9: to look at: {told}")
    # one that is filed by hand now
    assert desk.good("birth", "DE 09", "--sex", "f", "--day", "2002-01-02", "--anyway").err == f"gudokeyi: DE 09: {told}\n"
    assert not desk.good("birth", "DE 90", "--sex", "f", "--day", "2002-01-02").err


def test_words_for_parents(desk: Desk) -> None:
    """A word that is no id and stands for parents of several animals is told at each taking, with the option."""
    rows = FLOCK + "c1;;F;2004-01-01;Gastbock;DE 8\nc2;;F;2004-01-02;Gastbock;\nc3;;F;2004-01-02;X1;\n"
    for _ in range(2):
        done = desk.take(TITLES + rows)
        done.shows("to look at: Gastbock has no row, and is the sire of 2", "  if it means an unknown parent:")
    # the command decides of the word alone; an animal that lacks its row stays
    command = desk.take(TITLES + rows.replace("c3;;F;2004-01-02;X1;\n", "")).commands()[0]
    assert "--drop-gone" not in command
    done = desk.typed(command)
    assert "Gastbock has no row" not in done.out and " 2 gone: " in done.last
    assert desk.numbers().keys() == {"DE 007", "DE 8", "c1", "c2", "c3", "X1", "Gastbock"}
    assert desk.parents()["c1"] == ("", "DE 8")
    done = desk.take(TITLES + rows, "--known", "Gastbock")
    assert desk.parents()["c1"] == ("Gastbock", "DE 8")
    assert desk.take(TITLES + rows).last.startswith("book: 7 animals, 0 new, 0 changed")


def test_tag_used_again(desk: Desk) -> None:
    """It is told, and doesn't erase the first."""
    desk.take(TITLES + FLOCK + "c1;;F;2004-01-01;DE 007;DE 8\n")
    later = FLOCK.replace("DE 8;Eva;F;2001-03-02", "DE 8;Ida;F;2012-03-02")
    sheet = TITLES + later + "c1;;F;2004-01-01;DE 007;DE 8\nc2;;F;2015-01-01;;DE 8\n"
    for words in ("--semicolons",), ("--drop-gone",):
        done = desk.take(sheet, *words)
        done.tells(
            "line 3: DE 8: the row is left out: the book has this id for another animal ('Eva', born 2001-03-02; here "
            "'Ida', born 2012-03-02); as a parent in line 5 it means the first: if the tag was used again, give this "
            "one an id of its own, also where its offspring name it; if it is the same animal, say --anyway"
        )
        assert desk.parents()["c1"] == ("DE 007", "DE 8")
        assert desk.born()["DE 8"] == "2001-03-02"
        assert " 0 gone" in done.last
    desk.typed(done.commands()[0])
    assert desk.born()["DE 8"] == "2012-03-02"


def test_names_beside_a_tag_used_again(desk: Desk) -> None:
    """A parent has the name that the book has, where the row with another one isn't taken."""
    titles = "id;name;sex;birth;sire;dam;dam name\n"
    rows = "d1;Susi;F;2019-04-28;;;\nd2;Lina;F;2021-03-16;;d1;Susi\nd3;Susi;F;2019-03-24;;;\n"
    rows += "d4;Ada;F;2021-03-24;;d3;Susi\n"
    desk.take(titles + rows)
    done = desk.take(titles + rows.replace("d1;Susi;F;2019-04-28", "d1;Josefa;F;2023-02-13"))
    assert "1 left out (1 row)" in done.last and "its dam" not in done.told
    done = desk.take(titles + rows.replace("d2;Lina;F;2021-03-16;;d1;Susi", "d2;Lina;F;2021-03-16;;d1;Ada"))
    assert "line 3: d2: to look at: its dam d1 is 'Susi', and 'dam name' has 'Ada', which is d4" in done.told


def test_used_tag_of_an_animal_without_a_row(desk: Desk) -> None:
    """One that was filed by hand, and one that is gone, stay what they are, as nobody had a row of them: the first
    isn't dropped once the other animal has an id of its own, and neither is in the list as before."""
    desk.take(TITLES + FLOCK + "DE 9;Ute;F;2001-03-03;;\n")
    desk.good("birth", "DE 5", "--sex", "f", "--name", "Ida", "--day", "2001-05-05")
    desk.take(TITLES + FLOCK)
    listed = desk.good("list").out
    again = "DE 5;Pia;F;2012-05-05;;\nDE 9;Lea;F;2013-05-05;;\n"
    assert "2 left out (2 rows)" in desk.take(TITLES + FLOCK + again).last
    assert desk.good("list").out == listed
    desk.take(TITLES + FLOCK + again.replace("DE 5", "DE 5/12").replace("DE 9", "DE 9/13"), "--drop-gone")
    assert desk.numbers().keys() == {"DE 007", "DE 8", "DE 5", "DE 5/12", "DE 9/13"}


def test_birth_after_offspring(desk: Desk) -> None:
    """An animal of the same name and sex, born after the offspring that the book has, may have a mistyped day: nobody
    is told that it is another one."""
    desk.take(TITLES + FLOCK + "c1;;F;2004-01-01;DE 007;DE 8\nc2;;F;2003-01-01;DE 007;DE 8\n")
    for row in "DE 8;Eva;F;2012-03-02;;", "DE 8;;;2012-03-02;;":
        done = desk.take(
            TITLES + FLOCK.splitlines()[0] + f"\n{row}\nc1;;F;2004-01-01;DE 007;DE 8\nc2;;F;2003;DE 007;DE 8\n"
        )
        done.tells(
            "line 3: DE 8: the row is left out: born 2012-03-02, it would be younger than its offspring c2, born "
            "2003-01-01; the book has born 2001-03-02: if the day is mistyped, correct it; if the tag was used again, "
            "give this animal an id of its own, also where its offspring name it; if it is the same animal, born on "
            "this day, say --anyway"
        )
        assert (desk.born()["DE 8"], desk.parents()["c2"]) == ("2001-03-02", ("DE 007", "DE 8"))
        assert "another animal" not in done.out and " 0 gone" in done.last
    desk.typed(done.commands()[0])
    assert desk.born()["DE 8"] == "2012-03-02"


@pytest.mark.parametrize("is_first", [True, False])
def test_tag_twice_in_a_sheet(desk: Desk, is_first: bool) -> None:
    """The animal that was born first is taken, in whatever order the rows are; the other is told, with why, and the
    lines that name it, and is taken with an id of its own."""
    eva, ida = FLOCK.splitlines()[1], "DE 8;Ida;F;2012-03-02;;"
    rows = [FLOCK.splitlines()[0], *((eva, ida) if is_first else (ida, eva)), "c1;;F;2004-01-01;DE 007;DE 8"]
    sheet = TITLES + "\n".join([*rows, "c2;;F;2015-01-01;;DE 8"]) + "\n"
    here, there = (4, 3) if is_first else (3, 4)
    for why in "it was born first", "the book has it":
        done = desk.take(sheet)
        done.shows(
            f"line {here}: DE 8: the row is left out: line {there} has this id for another animal ('Eva', born "
            f"2001-03-02; here 'Ida', born 2012-03-02), which is taken since {why}; as a parent in line 6 it means "
            "the first: if the tag was used again, give this one an id of its own, also where its offspring "
            "name it"
        )
        assert not done.commands()
        assert desk.born()["DE 8"] == "2001-03-02"
    desk.take(sheet.replace("DE 8;Ida", "DE 8/12;Ida").replace("c2;;F;2015-01-01;;DE 8", "c2;;F;2015-01-01;;DE 8/12"))
    assert desk.parents()["c1"] == ("DE 007", "DE 8") and desk.parents()["c2"] == ("", "DE 8/12")


def test_tag_of_the_book_twice_in_a_sheet(desk: Desk) -> None:
    """The animal of the book stays, though it was born after the other."""
    desk.take(TITLES + FLOCK)
    done = desk.take(TITLES + "DE 8;Uta;F;1981-03-02;;\n" + FLOCK)
    done.shows(
        "line 2: DE 8: the row is left out: line 4 has this id for another animal ('Eva', born 2001-03-02; here 'Uta', "
        "born 1981-03-02), which is taken since the book has it: if the tag was used again, give this one an id of its "
        "own, also where its offspring name it"
    )
    assert desk.born()["DE 8"] == "2001-03-02"


def test_rows_of_one_tag_with_another_birth(desk: Desk) -> None:
    """The first row is taken where the days are near, or not both are known; it is told that the other may be
    another animal, and what to do then. Of one day that is written in two ways it isn't."""
    rows = "E1;Eva;F;2018-03-02;;\nE1;Ida;F;2018-03-20;;\nE2;Uta;F;2019;;\nE2;Pia;F;2012;;\n"
    done = desk.take(TITLES + rows + "E3;Rosa;F;2018-03-02;;\nE3;Rosi;F;2.3.2018;;\n")
    own = "if this is another animal, give it an id of its own, also where its offspring name it"
    done.shows(
        "line 3: E1: the row is left out: line 2 has this id too (name 'Ida', there 'Eva'; birth '2018-03-20', there "
        f"'2018-03-02'); line 2 is taken: {own}",
        "line 5: E2: the row is left out: line 4 has this id too (name 'Pia', there 'Uta'; birth '2012', there '2019'); "
        f"line 4 is taken: {own}",
        "line 7: E3: the row is left out: line 6 has this id too (name 'Rosi', there 'Rosa'; birth '2.3.2018', there "
        "'2018-03-02')",
    )
    assert desk.born() == {"E1": "2018-03-02", "E2": "2019-07-02", "E3": "2018-03-02"}


def test_birth_that_moved_by_years(desk: Desk) -> None:
    """Nothing but the day tells that it is another animal: it is taken, and told."""
    desk.take(TITLES + FLOCK)
    told = "line 3: DE 8: to look at: its birth day is 2003-03-02, and was 2001-03-02: is this another animal"
    done = desk.take(TITLES + FLOCK.replace("2001-03-02", "2003-03-02"))
    assert done.out.startswith(told)
    assert "to look at" not in desk.take(TITLES + FLOCK.replace("2001-03-02", "2003-01-30")).out
    assert desk.take(TITLES + FLOCK.replace("2001-03-02", "2000-01-30")).out.startswith("line 3: DE 8: to look at")
    for other in "Eva;M;2011", "Ida;F;1991":
        done = desk.take(TITLES + FLOCK.replace("Eva;F;2001", other))
        assert done.out.startswith("line 3: DE 8: the row is left out: the book has this id for another animal ('Eva'")


def test_sheet_that_is_sorted_again(desk: Desk) -> None:
    """It gives the same book, also where sexes and links have to be inferred."""
    rows = [
        "a;;;2001-01-01;;", "b;;;2003-01-01;a;", "c;;;2003-02-01;;a", "x;;;;y;", "y;;;;z;", "z;;;;x;", "m;;;;;n",
        "c;;;2003-02-02;;",
    ]  # fmt: skip
    desk.take(TITLES + "\n".join(rows) + "\n")
    before = desk.parents(), desk.born(), desk.numbers()
    for sheet in (rows[::-1], rows[3:] + rows[:3], sorted(rows, reverse=True)):
        done = desk.take(TITLES + "\n".join(sheet) + "\n")
        assert (desk.parents(), desk.born(), desk.numbers()) == before, done
        assert " 0 new, 0 changed" in done.last


def test_many_ids_are_compared_as_one_by_one() -> None:
    ids = ["DE 001", "de-0010/00", "0", "000", "Ä 07 b", "10", "1 0", "\u00a05", "٠٥", "05", "a\t1", ""]
    assert nearly_all(ids) == [*map(nearly, ids)]
    assert nearly_all([]) == []
    # a sign that is to stand between them
    assert nearly_all([*ids, "a\0", "007"]) == [*map(nearly, [*ids, "a\0", "007"])]


def test_ids_that_signs_alone_tell_apart(desk: Desk) -> None:
    """1-12 and 11-2 become alike without their signs: then no id is taken as one of the book."""
    rows = "1{0}12;Max;M;2001-03-01;;\n11{0}2;Eva;F;2001-03-02;;\n"
    rows += "".join(f"2{{0}}{at};K{at};F;2004-01-0{at};1{{0}}12;11{{0}}2\n" for at in range(1, 7))
    desk.take(TITLES + rows.format("-"))
    desk.wrong("the same animals with another id", "import", desk.write("sheet.csv", TITLES + rows.format(" ")))
