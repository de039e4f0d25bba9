"""Owners, their days and how they are written."""
from __future__ import annotations

import datetime

from front_desk.desk import CALLED, Desk

TITLES = "id;sex;birth;sire;dam;owner;exit\n"
PARENTS = "s;M;2001-03-01;;;Meier;\nd;F;2001-03-02;;;Meier;\n"


def since(desk: Desk, id: str) -> str:
    """What a certificate says of the owner's first day."""
    desk.good("certificate", id, "--out", "page.html", "--force")
    words = "".join(desk.page("page.html").itertext()).split("Owner since")
    return words[1].split("Pedigree")[0].strip()


def test_owner_changed_and_then_an_exit_before(desk: Desk, today: datetime.date) -> None:
    """The day of a change is inferred, and gives way to an exit of last week."""
    last_week = today - datetime.timedelta(7)
    desk.take(TITLES + PARENTS)
    desk.take(TITLES + PARENTS.replace("d;F;2001-03-02;;;Meier", "d;F;2001-03-02;;;Groß"))
    assert desk.transfer_days() == [str(today)]
    assert since(desk, "d") == f"{today} (inferred)"
    told = f"(refusal 14); its owner's first day, {today}, is inferred, and gives way to a sheet's"
    assert told in desk.run("exit", "d", "--day", str(last_week)).err and told in desk.good("history", "3").out
    assert "is inferred" not in desk.run("transfer", "d", "--to", "Löw", "--day", "1999-01-01").err
    done = desk.take(TITLES + PARENTS.replace("d;F;2001-03-02;;;Meier;", f"d;F;2001-03-02;;;Groß;{last_week}"))
    assert " 0 left out" in done.last
    assert desk.transfer_days() == [str(last_week)]
    assert desk.commands()[-1].startswith(f"exit,HOLGBRF000000000002,{last_week}")


def test_birth_corrected_past_a_transfer(desk: Desk) -> None:
    desk.take(TITLES + PARENTS)
    desk.take(TITLES + PARENTS.replace("d;F;2001-03-02;;;Meier", "d;F;2001-03-02;;;Groß"), "--day", "2005-01-01")
    done = desk.take(TITLES + PARENTS.replace("d;F;2001-03-02;;;Meier", "d;F;2006-03-02;;;Groß"))
    done.tells(
        "line 3: d: to look at: it has been of 'Groß' since 2006-03-02, and not since 2005-01-01, which can't be with "
        "its birth, its exit or its owner before",
        "line 3: d: changed: birth day: 2006-03-02, before 2001-03-02",
    )
    assert desk.transfer_days() == ["2006-03-02"]


def test_day_of_a_change_has_a_column(desk: Desk, today: datetime.date) -> None:
    """It is that of the sheet; an inferred one gives way to it, and that of the import stands for one after today."""
    titles = TITLES.replace("owner", "Besitzer seit;owner")

    def sheet(day: str, owner: str) -> str:
        return titles + f"s;M;2001-03-01;;;;Meier;\nd;F;2001-03-02;;;{day};{owner};\n"

    desk.take(TITLES + PARENTS)
    desk.take(TITLES + PARENTS.replace("d;F;2001-03-02;;;Meier", "d;F;2001-03-02;;;Groß"))
    assert desk.transfer_days() == [str(today)]
    done = desk.take(sheet("03.04.2010", "Groß"))
    assert desk.transfer_days() == ["2010-04-03"]
    assert since(desk, "d") == "2010-04-03"
    desk.take(sheet("01.05.2012", "Weiß"))
    assert desk.transfer_days() == ["2010-04-03", "2012-05-01"]
    later = f"{today + datetime.timedelta(9)}"
    done = desk.take(sheet(later, "Löw"))
    done.tells(
        f"line 3: d: its first day with its owner is left out: {later} is after today",
        f"line 3: d: inferred: owner Löw since {today}, which is taken since no cell says the day",
        "line 3: d: changed: owner: Löw, before Weiß",
    )
    assert desk.transfer_days()[2:] == [str(today)] and since(desk, "d") == f"{today} (inferred)"
    assert " 0 changed" in desk.take(sheet(later, "Löw")).last
    desk.good("undo", "--to", "4")
    # of a month or a year that hasn't ended it is no day after today
    desk.take(sheet(str(today.year), "Löw"))
    assert desk.transfer_days()[2:] == [str(today)]
    assert " 0 left out" in desk.take(sheet(str(today), "Süß")).last
    assert desk.transfer_days()[2:] == [str(today)] * 2


def test_inferred_day_is_said(desk: Desk, today: datetime.date) -> None:
    """A sheet says the very day that stood for the owner's first: it is inferred no more, and nothing else changes."""
    rows = "id;sex;birth;sire;dam;owner;since\ns;M;2001-03-01;;;Meier;\nd;F;2001-03-02;;;{}\n"
    desk.take(rows.format("Meier;"))
    desk.take(rows.format("Groß;2010"))
    assert since(desk, "d") == "2010-12-31 (inferred)"
    desk.take(rows.format("Groß;2010-12-31"))
    assert since(desk, "d") == "2010-12-31"
    assert desk.transfer_days() == ["2010-12-31"]
    # so no later sheet without a day, nor one with the year alone, makes it less
    desk.take(rows.format("Groß;2010"))
    assert since(desk, "d") == "2010-12-31"


def test_day_by_hand_is_given(desk: Desk) -> None:
    """Though that of the owner before was inferred; and where it gives way to an exit, that is told."""
    rows = "id;sex;birth;sire;dam;owner;since;exit\ns;M;2001-03-01;;;Meier;;\nd;F;2001-03-02;;;{}\n"
    desk.take(rows.format("Meier;;"))
    desk.take(rows.format("Groß;2010;"))
    desk.good("transfer", "d", "--to", "Weiß", "--day", "2012-01-01")
    assert since(desk, "d") == "2012-01-01"
    moved = (
        "it has been of 'Weiß' since 2011-01-01, and not since 2012-01-01, which can't be with its birth, its exit or"
    )
    desk.take(rows.format("Groß;2010;2011-01-01")).tells(f"line 3: d: to look at: {moved} its owner before")


def test_month_or_year_of_an_owner(desk: Desk) -> None:
    """Its last day stands for it, which is told, and marked wherever it is shown; a day within it stays as it is."""
    rows = "id;sex;birth;sire;dam;owner;since\ns;M;2001-03-01;;;Meier;{}\nd;F;2001-03-02;;;Groß;{}\n"
    done = desk.take(rows.format("05.2003", "2001"))
    done.tells("line 2: s: inferred: owner since 2003-05-31, from the month 2003-05")
    assert desk.transfer_days() == ["2003-05-31"]
    # of its first owner too
    assert since(desk, "s") == "2003-05-31 (inferred)"
    assert "owner         Meier, since 2003-05-31 (inferred)\n" in desk.good("show", "s").out
    done = desk.take(rows.format("2003", "2002"))
    assert " 1 changed, 1 inferred," in done.last and "changed: owner since 1" in done.out
    done.tells("line 3: d: changed: owner since: 2002-12-31, before none")
    desk.take(rows.replace("Groß", "Lang").format("2003-05-02", "2009"))
    for day, marked in (("2009", "2009-12-31 (inferred)"), ("2009-12-31", "2009-12-31"), ("2010-01-02", "2010-01-02")):
        done = desk.take(rows.replace("Groß", "Lang").format("2003-05-02", day))
        assert since(desk, "d") == marked
        shown = desk.good("show", "d").out
        assert f"owner         Lang, since {marked}\n" in shown
    done.tells("line 3: d: changed: owner since: 2010-01-02, before 2009-12-31")
    assert "owner since 2009-12-31, before 2009-12-31 (inferred)" in shown
    # a year that can't be after the owner before
    done = desk.take(rows.replace("Groß", "Lang").format("2003-05-02", "2001"))
    told = (
        "it has been of 'Lang' since 2002-12-31, and not since 2001-12-31, which can't be with its birth, its exit or"
    )
    done.tells(f"line 3: d: to look at: {told} its owner before")


def test_day_before_the_birth(desk: Desk) -> None:
    """Of the first owner it is told in a later sheet as in the first one, and changes nothing."""
    rows = "id;sex;birth;sire;dam;owner;since\ns;M;2001-03-01;;;Meier;{}\nd;F;2001-03-02;;;Meier;{}\n"
    told = "to look at: it has been of 'Meier' since 2001-03-0{}, and not since 1999-05-06, which can't be with its birth"
    desk.take(rows.format("1999-05-06", "")).tells(f"line 2: s: {told.format(1)}, its exit or its owner before")
    for _ in range(2):
        done = desk.take(rows.format("", "1999-05-06"))
        done.tells(f"line 3: d: {told.format(2)}, its exit or its owner before")
        assert " 0 changed" in done.last and not desk.transfer_days()


def test_day_before_an_inferred_one(desk: Desk) -> None:
    """The inferred day of the owner before gives way."""
    desk.take(TITLES + PARENTS)
    desk.take(TITLES + PARENTS.replace("d;F;2001-03-02;;;Meier", "d;F;2001-03-02;;;Groß"))
    desk.take("id;birth;sire;dam;owner;since\ns;2001-03-01;;;;\nd;2001-03-02;;;Weiß;2012-05-01\n")
    assert desk.transfer_days() == ["2012-05-01", "2012-05-01"]


def test_day_of_another_owner(desk: Desk, today: datetime.date) -> None:
    """A cell that is as it was for another owner says nothing of the new one, also later, until it says something else;
    of an owner who is only written otherwise, or renamed, it still says the day."""
    rows = "id;sex;birth;sire;dam;owner;since\ns;M;2001-03-01;;;Meier;\nd;F;2001-03-02;;;{}\n"
    told = "line 3: d: inferred: '{}' isn't taken as the first day of the owner 'Weiß': it stood there for 'Groß' too"
    desk.take(rows.format("Groß;03.04.2010"))
    other = desk.copy_to(desk.room.parent / "other")
    for day in "03.04.2010", "2010-04-03":
        desk.take(rows.format(f"Weiß;{day}")).tells(told.format(day))
        assert desk.transfer_days() == ["2010-04-03", str(today)]
        assert since(desk, "d") == f"{today} (inferred)"
    desk.take(rows.format("Weiß;05.04.2012"))
    assert since(desk, "d") == "2012-04-05"
    # on the day of the taking, where that is named
    desk.take(rows.format("Löw;05.04.2012"), "--day", "2013-01-02")
    assert since(desk, "d") == "2013-01-02"
    for owner, words in ("GROSS", ()), ("Gross", ()), ("Grün", ("--owner", "Gross=Grün")):
        done = other.take(rows.format(f"{owner};03.04.2010"), *words)
        assert "isn't taken" not in done.told and since(other, "d") == "2010-04-03"
    # a day that comes is left out for whoever has it now
    later = today + datetime.timedelta(9)
    for owner in "Löw", "Weiß":
        done = other.take(rows.format(f"{owner};{later}"))
        done.tells(f"line 3: d: its first day with its owner is left out: {later} is after today")
        assert since(other, "d") == f"{today} (inferred)"
    assert other.transfer_days()[-2:] == [str(today)] * 2


def test_first_owner_since_a_day(desk: Desk) -> None:
    desk.take("id;birth;sire;dam;owner;owner since\na;2001-03-02;;;Groß;2004-05-06\nb;2001-03-02;;;Groß;\n")
    assert since(desk, "a") == "2004-05-06"
    assert since(desk, "b") == "not known"
    # of an owner whom a later sheet names nobody knows it, until one says a month or a year
    rows = "id;birth;sire;dam;owner;owner since\na;2001-03-02;;;Groß;\nb;2001-03-02;;;Groß;\nc;2001-03-02;;;{}\n"
    for cells, known in (";", "not known"), ("Weiß;", "not known"), ("Weiß;seit 2010", "2010-12-31 (inferred)"):
        desk.take(rows.format(cells))
        assert since(desk, "c") == known


def test_owner_since_the_birth(desk: Desk) -> None:
    """Where the list says so it is printed, and shown, and of an animal without an owner it isn't."""
    rows = "a;2001-03-02;;;Groß;02.03.2001\nb;2001-03-02;;;Groß;\nc;2001-03-02;;;;2001-03-02\n"
    desk.take("id;birth;sire;dam;owner;owner since\n" + rows)
    assert [since(desk, id) for id in "abc"] == ["2001-03-02", "not known", "not known"]
    assert "  owner         Groß, since 2001-03-02\n" in desk.good("show", "a").out
    assert "  owner         Groß\n" in desk.good("show", "b").out


def test_day_of_an_owner_before_an_inferred_birth(desk: Desk) -> None:
    """A day that is said bounds one that is inferred, but where parents are born later."""
    rows = "p;2017-03-02;;;Groß;\na;ca. 2018;p;;Groß;7.3.2018\nb;3.2018;;;Groß;5.3.2018\nc;;p;;Groß;2016-01-01\n"
    done = desk.take("id;birth;sire;dam;owner;owner since\n" + rows)
    assert desk.born()["a"] == "2018-03-07" and desk.born()["b"] == "2018-03-05" and desk.born()["c"] > "2017-03-02"
    assert done.out.count("which can't be with its birth") == 1
    assert (since(desk, "a"), since(desk, "b")) == ("2018-03-07", "2018-03-05")


def test_words_that_are_no_owner(desk: Desk) -> None:
    """What says of a parent that it isn't known names no owner, as an empty cell, but for what may be initials."""
    words = ["-", "?", "unbekannt", "N.N.", "n/a"]
    rows = [f"a{at};F;2001-03-03;;;{word};\n" for at, word in enumerate(words)]
    desk.take(TITLES + PARENTS + "".join(rows) + "b;F;2001-03-03;;;NB;\n")
    assert [owner for _, owner in desk.owners()] == ["Meier", "NB"]
    done = desk.take(TITLES + PARENTS.replace("02;;;Meier", "02;;;?") + "".join(rows) + "b;F;2001-03-03;;;NB;\n")
    done.tells("line 3: d: inferred: owner Meier, as in the book, since its cell gives none")
    assert " 0 changed" in done.last
    desk.good("birth", "c", "--sex", "f", "--day", "2012-03-04", "--owner", "-")
    assert [owner for _, owner in desk.owners()] == ["Meier", "NB"]


def test_owner_is_written_otherwise(desk: Desk) -> None:
    desk.take(TITLES + PARENTS)
    desk.wrong("--owner Maier=Meyer: the book has no owner 'Maier': its owners are 'Meier'", "import", "sheet.csv",
               "--owner", "Maier=Meyer")  # fmt: skip
    renamed = TITLES + PARENTS.replace("Meier", "Meyer")
    done = desk.good("import", desk.write("sheet.csv", renamed), "--preview")
    told = "to look at: the 2 animals of 'Meier' are now of 'Meyer', whom the book didn't have: is it the same owner?"
    done.shows(told, "  if the name is only spelled differently:")
    assert done.commands() == [f"{CALLED} import sheet.csv --preview --owner Meier=Meyer"]
    some = desk.write("some.csv", TITLES + PARENTS.replace("Meier", "Meyer", 1))
    assert "are now of" not in desk.good("import", some, "--preview").out
    # what is taken is undone first
    done = desk.good("import", "sheet.csv")
    done.shows(told)
    desk.wrong("the book has 'Meyer' too, as another owner", "import", "sheet.csv", "--owner", "Meier=Meyer")
    assert f"{CALLED} undo --change 2 && " in done.commands()[0]
    done = desk.typed(done.commands()[0])
    assert " 2 changed" in done.last
    assert desk.transfer_days() == []
    assert " 0 changed" in desk.take(renamed).last
    desk.good("certificate", "s", "--out", "page.html")
    assert "Meyer" in "".join(desk.page("page.html").itertext())
    # though one that the sheet has as another's was given to the owner by hand
    third = "c;F;2004-01-01;;;Huber;\n"
    desk.take(renamed + third)
    desk.good("transfer", "c", "--to", "Meyer", "--day", "2010-01-01")
    done = desk.take(renamed.replace("Meyer", "Mayer") + third)
    done.shows("to look at: the 2 animals of 'Meyer' are now of 'Mayer', whom the book didn't have: is it the same owner?")


def test_owners_that_are_alike(desk: Desk) -> None:
    """Names of one sheet that differ in case, accents, blanks or signs alone are told at each taking."""
    rows = [
        f"{name}:{at};F;2001-03-01;;;{name};"
        for at, name in enumerate(["Groß, A.", "Groß A", "gross a", "Weiß", "weiß", "Weiz", ""])
    ]
    for _ in range(2):
        done = desk.take(TITLES + PARENTS + "\n".join(rows))
        done.shows(
            "to look at: the owners 'Groß A' (1 animal) and 'Groß, A.' (1 animal) and 'gross a' (1 animal) differ only "
            "in case, accents, umlauts, blanks or signs: if they are one, write the name the same way in all rows, and "
            "take the sheet again"
        )
        assert done.out.count("differ only in case") == 2
    assert "differ only in case" not in desk.take(TITLES + PARENTS).out
