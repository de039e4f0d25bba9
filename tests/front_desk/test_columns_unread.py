"""Columns that aren't read, though what they have belongs to animals: they are told with the word that reads them."""
from __future__ import annotations

import pytest

from front_desk.desk import Desk

PARENTS = "Ohrmarke;geb;Vater;Mutter"


def words_of(desk_commands: list[str]) -> list[str]:
    return [one.partition("--columns ")[2] for one in desk_commands]


# -- columns of which it was said once that there are none


def test_column_is_back_that_was_said_to_be_none(desk: Desk) -> None:
    """Each time, until it is read, or said to be none while it is there."""
    lost = f"{PARENTS}\n001;2001-01-01;;\n002;2001-02-01;;\n"
    back = f"{PARENTS};Rufname;Abgang\n001;2001-01-01;;;Max;\n002;2001-02-01;;;Eva;3.5.2025\n"
    desk.take(back.replace("3.5.2025", "").replace("Rufname", "Name"))
    desk.take(lost, "--columns", "exit=", "--columns", "name=")
    for _ in range(2):
        done = desk.take(back)
        done.shows(
            "to look at: 'Abgang' isn't read as exit, since it was said of an earlier list that no column is that; "
            "it has 1 cell, '3.5.2025' in line 3",
            "to look at: 'Rufname' isn't read as name, since it was said of an earlier list that no column is that; "
            "it has 2 cells, the first 'Max' in line 2",
        )
        assert words_of(done.commands()) == ["exit=Abgang", "exit=", "name=Rufname", "name="]
    # an empty one has nothing to lose
    assert "'Abgang' isn't read" not in desk.take(back.replace("3.5.2025", "")).out
    done = desk.typed(done.commands()[1])
    assert "'Abgang' isn't read" not in done.out and "'Rufname' isn't read" in done.out
    assert "'Abgang' isn't read as exit, since that was said of an earlier list" in desk.take(back).out
    desk.take(back, "--columns", "exit=")
    assert "'Abgang' isn't read" not in desk.take(back).out
    # what was said of one column isn't said of another
    other = back.replace("Abgang", "Todesdatum")
    assert "'Todesdatum' isn't read as exit, since it was said" in (done := desk.take(other)).out
    done = desk.typed(next(one for one in done.commands() if one.endswith("exit=Todesdatum")))
    assert "'Todesdatum' isn't read" not in done.out and "changed: exit 1" in done.out
    assert "'Todesdatum' isn't read" not in desk.take(other).out


def test_exits_since_that_was_said(desk: Desk) -> None:
    """A column of which it was said that it has no exits is told when it tells of more than then, until that is said
    anew."""
    text = f"{PARENTS};Abgang\n001;2001-01-01;;;{{}}\n002;2001-02-01;;;{{}}\n003;2001-03-01;;;{{}}\n"
    told = "'Abgang' isn't read as exit, since "
    for before in ("", "", ""), ("3.5.2020", "", ""):
        book = "--book", f"of {len(before[0])}"
        desk.take(text.format(*before), "--columns", "exit=", *book)
        assert told not in desk.take(text.format(*before), *book).out
    done = desk.take(text.format("3.5.2020", "3.6.2020", "lebt"), *book)
    done.shows(
        f"to look at: {told}that was said of an earlier list; it tells of 2 exits now, the first '3.5.2020' in line 2, the "
        "others in 3, and told of 1 then: animals that left count as living"
    )
    assert words_of(done.commands()) == ["exit=Abgang", "exit="]
    done = desk.take(text.format("", "3.6.2020", "lebt"), "--book", "of 0")
    done.shows(
        f"to look at: {told}that was said of an earlier list; it tells of 1 exit now, '3.6.2020' in line 3, and told of 0 "
        "then: animals that left count as living"
    )
    desk.take(text.format("", "3.6.2020", ""), "--columns", "exit=", "--book", "of 0")
    assert told not in desk.take(text.format("", "3.6.2020", ""), "--book", "of 0").out
    assert "changed: exit 1" in desk.take(text.format("", "3.6.2020", ""), "--columns", "exit=Abgang", "--book", "of 0").out


def test_states_since_that_was_said(desk: Desk) -> None:
    """More animals of a column of states aren't more exits."""
    text = f"{PARENTS};Status\n001;2001-01-01;;;lebt\n002;2001-02-01;;;tot\n"
    desk.take(text, "--columns", "exit=")
    assert "isn't read as" not in desk.take(text + "003;2001-03-01;;;lebt\n").out
    assert "it tells of 2 exits now" in desk.take(text + "003;2001-03-01;;;verkauft\n").out


def test_parents_are_back_that_were_said_to_be_none(desk: Desk) -> None:
    desk.take("Ohrmarke;geb;Mutter\n001;2001-01-01;\n002;2001-02-01;\n", "--columns", "sire=")
    back = "Ohrmarke;geb;Mutter;Vater\n001;2001-01-01;;\n002;2001-02-01;;\n003;2003-02-01;002;001\n"
    done = desk.take(back)
    assert "'Vater' isn't read as sire, since it was said" in done.out
    desk.typed(next(one for one in done.commands() if one.endswith("sire=Vater")))
    assert desk.parents()["003"] == ("001", "002")


# -- columns of exits, owners and their first days, by their titles and their days

OWNED = "001;m;01.02.2010;;;{owner};{day}\n002;w;03.02.2010;;;Huber;\n003;w;03.02.2013;001;002;Huber;\n"


@pytest.mark.parametrize(
    "title",
    [
        "Schlachttag", "Abmeldung", "Abgemeldet am", "DOD", "Date of death", "Todesdatum", "Date décès", "Merzdatum",
        "Ausgang", "Austritt", "Date of disposal", "Cull date",
    ],
)  # fmt: skip
def test_titles_of_exits(desk: Desk, title: str) -> None:
    desk.take(f"Ohrmarke;Geschlecht;geb;Vater;Mutter;Besitzer;{title}\n{OWNED.format(owner='Huber', day='3.4.2020')}")
    assert [row["exit"] for row in desk.listed("list", "--columns", "exit")] == ["2020-04-03", "", ""]


@pytest.mark.parametrize(
    "title",
    [
        "Besitzer/Halter", "Owner/Keeper", "Besitzer (aktuell)", "jetziger Besitzer", "Breeder/Owner", "Propr.", "Cheptel",
        "Owner(s)", "Tierhalter/in", "Éleveur détenteur", "Züchter/Halter", "Mitglied", "Member", "Membre", "Adhérent",
        "Bes.", "Prop.",
    ],
)  # fmt: skip
def test_titles_of_owners(desk: Desk, title: str) -> None:
    desk.take(f"Ohrmarke;Geschlecht;geb;Vater;Mutter;{title};Farbe\n{OWNED.format(owner='Meier', day='')}")
    assert [row["owner"] for row in desk.listed("list", "--columns", "owner")] == ["Meier", "Huber", "Huber"]


@pytest.mark.parametrize("cells", [("101", "102"), ("M101", "M102"), ("ja", "nein"), ("x", ""), ("Aktiv", "Passiv")])
@pytest.mark.parametrize("title", ["Mitglied", "Member", "Membre", "Bes."])
def test_members_without_names(desk: Desk, title: str, cells: tuple[str, str]) -> None:
    """Numbers, answers and kinds of members are no owners, and nothing is told of them."""
    rows = OWNED.replace("Huber", cells[1]).format(owner=cells[0], day="")
    done = desk.take(f"Ohrmarke;Geschlecht;geb;Vater;Mutter;{title};Farbe\n{rows}")
    assert f"not read: '{title}'" in done.out and "owner from" not in done.out and "to look at" not in done.told
    beside = desk.take(f"Ohrmarke;Geschlecht;geb;Vater;Mutter;{title};Besitzer\n{rows}", "--book", "beside")
    assert "owner from 'Besitzer'" in beside.out and "to look at" not in beside.told


@pytest.mark.parametrize("cells", ["hornlos;;", "Zwilling;blind;hornlos"])
def test_short_title_of_something_else(desk: Desk, cells: str) -> None:
    """`Bes.` stands for Besonderheiten too."""
    first, second, third = cells.split(";")
    rows = f"001;m;01.02.2010;;;{first}\n002;w;03.02.2010;;;{second}\n003;w;03.02.2013;001;002;{third}\n"
    assert "owner from" not in desk.take(f"Ohrmarke;Geschlecht;geb;Vater;Mutter;Bes.\n{rows}").out


def test_members_beside_owners(desk: Desk) -> None:
    """The column of owners is read; where that is lost, the members' is told as what may be it."""
    text = f"Ohrmarke;Geschlecht;geb;Vater;Mutter;Mitglied;Besitzer\n{OWNED.format(owner='Meier', day='Egli')}"
    done = desk.take(text)
    assert "owner from 'Besitzer'" in done.out and "not read: 'Mitglied'" in done.out
    done.shows(
        "to look at: 2 rows have nothing in 'Besitzer', and a name in 'Mitglied', the first 'Huber' in line 3, the others "
        "in 4: no owner is taken from there; if they are the owners, enter them in 'Besitzer'"
    )
    done = desk.take(text.replace("Besitzer", "Farbe"))
    done.shows("to look at: no column for owner is found: last time it was 'Besitzer'; the book keeps what it has")
    assert words_of(done.commands()) == ["owner=Mitglied", "owner="]


@pytest.mark.parametrize(
    "title",
    ["Date achat", "Zukauf am", "Purchased", "Bought on", "Ankauf", "gekauft", "Erwerbsdatum", "Date purchased", "Acheté(e)"],
)
def test_titles_of_first_days(desk: Desk, title: str) -> None:
    rows = OWNED.format(owner="Meier", day="3.4.2012")
    desk.take(f"Ohrmarke;Geschlecht;geb;Vater;Mutter;Besitzer;{title}\n{rows}")
    assert "since 2012-04-03" in desk.good("show", "001").out
    # one that says it more plainly is read, and words are no days
    before = "Ohrmarke;Geschlecht;geb;Vater;Mutter;Besitzer;Besitzer seit;Zukauf\n"
    done = desk.take(before + rows.replace("Meier;3.4.2012", "Meier;3.4.2012;ja"), "--book", "plain")
    assert "since from 'Besitzer seit'" in done.out and "not read: 'Zukauf'" in done.out
    alone = desk.take(f"Ohrmarke;Geschlecht;geb;Vater;Mutter;Besitzer;Zukauf\n{rows.replace('3.4.2012', 'ja')}", "--book", "yes")
    assert "not read: 'Zukauf'" in alone.out and "to look at" not in alone.out


def test_purchases_beside_animals_of_their_own(desk: Desk) -> None:
    """Where most of a herd were never bought the days of the others are read all the same."""
    born = "id;sex;born;sire;dam;owner;Purchased\na1;m;2015-03-12;;;Daly;2022-04-03\n"
    others = "homebred", "3/4/22 (€950)", "since birth"
    rows = "".join(f"a{at};f;2016-03-12;;;Daly;{said}\n" for at, said in enumerate(others, 2))
    desk.take(born + rows)
    assert "Daly, since 2022-04-03" in desk.good("show", "a1").out


@pytest.mark.parametrize("title", ["gekauft", "Purchased", "Acheté"])
def test_bought_at_all(desk: Desk, title: str) -> None:
    """A column that says whether an animal was bought has no days."""
    done = desk.take(f"Ohrmarke;Geschlecht;geb;Vater;Mutter;Besitzer;{title}\n{OWNED.format(owner='Meier', day='ja')}")
    assert f"not read: '{title}'" in done.out and "to look at" not in done.told


@pytest.mark.parametrize("title", ["Eingang", "Zugang", "Zugangsdatum", "Entry date", "Date entrée"])
def test_days_of_entries(desk: Desk, title: str) -> None:
    """They may be those of a report or of a herd book, and are no owner's until somebody says so."""
    rows = OWNED.format(owner="Meier", day="3.4.2012")
    text = f"Ohrmarke;Geschlecht;geb;Vater;Mutter;Besitzer;{title}\n{rows}"
    done = desk.take(text)
    assert f"not read: '{title}'" in done.out and "since 2012" not in desk.good("show", "001").out
    told = f"'{title}' isn't read, and "
    done.shows(
        f"to look at: {told}its day '3.4.2012' in line 2 is behind the birth: it may be that since when the owner has the "
        "animal, or that of an entry into a herd book"
    )
    assert words_of(done.commands()) == [f"'since={title}'" if " " in title else f"since={title}", "since="]
    assert told not in desk.take(text, "--own", f"{title}=day", "--book", "kept").told
    assert told not in desk.take(text, "--columns", "since=", "--book", "none").told
    done = desk.typed(done.commands()[0])
    assert told not in done.out and "since 2012-04-03" in desk.good("show", "001").out


def test_days_of_entries_at_births(desk: Desk) -> None:
    """Those of births and before, words, and those of a list with owners' first days aren't told."""
    titles = "Ohrmarke;Geschlecht;geb;Vater;Mutter;Besitzer;Eingang"
    for at, day in enumerate(["1.2.2010", "1.2.2009", "Herdbuch", "350"]):
        done = desk.take(f"{titles}\n{OWNED.format(owner='Meier', day=day)}", "--book", str(at))
        assert "not read: 'Eingang'" in done.out and "to look at" not in done.told
    done = desk.take(f"{titles};Besitzer seit\n{OWNED.format(owner='Meier', day='3.4.2012;3.4.2013')}")
    assert "since from 'Besitzer seit'" in done.out and "'Eingang' isn't read, and" not in done.told


def test_days_of_entries_that_were_read(desk: Desk) -> None:
    """A column that a book's last sheet read stays the one."""
    text = f"Ohrmarke;Geschlecht;geb;Vater;Mutter;Besitzer;Zugang\n{OWNED.format(owner='Meier', day='3.4.2012')}"
    desk.take(text, "--columns", "since=Zugang")
    done = desk.take(text)
    assert "'Zugang' isn't read" not in done.told and " 0 changed" in done.last


def test_column_that_the_society_keeps(desk: Desk) -> None:
    """It stays that where the one is lost beside which its title said no more."""
    text = "Ohrmarke;geb;Vater;Mutter;Besitzer;Besitzer seit;Zukauf\n001;2010-02-01;;;Huber;3.4.2012;3.4.2011\n"
    desk.take(text, "--own", "Zukauf=day")
    done = desk.take(text.replace("Besitzer seit", "Farbe").replace("3.4.2012", "rot"))
    assert "since from" not in done.out and "kept: 'Zukauf'" in done.out and " 0 changed" in done.last
    done.shows("to look at: no column for since is found: last time it was 'Besitzer seit'; the book keeps what it has")
    read = desk.take(text.replace("Besitzer seit", "Farbe"), "--columns", "since=Zukauf")
    assert "since from 'Zukauf'" in read.out and "changed: owner since 1" in read.out


def test_days_that_may_be_exits(desk: Desk) -> None:
    """A column of days behind the births is told where none has the exits, until that is said."""
    rows = "".join(f"00{at};0{at}.02.2010;;;;{f'0{at}.03.2020' if at < 4 else ''}\n" for at in range(1, 7))
    text = "Ohrmarke;geb;Vater;Mutter;Besitzer;Letzter Tag\n" + rows
    done = desk.take(text)
    done.shows(
        "to look at: no column of exits is found, and 'Letzter Tag' isn't read, whose 3 days are all later than the "
        "births, the first '01.03.2020' in line 2: animals that left then count as living"
    )
    assert words_of(done.commands()) == ["'exit=Letzter Tag'", "exit="]
    told = "no column of exits is found"
    # days of something else, of all animals, or before births, and a list with exits
    for other in (
        text.replace("Letzter Tag", "Letzte Impfung"), text.replace(";;\n", ";;01.03.2020\n"),
        text.replace(".03.2020", ".01.2010"), text.replace("Besitzer", "Abgang"), text.replace("03.03.2020", ""),
    ):  # fmt: skip
        assert told not in desk.take(other, "--book", "other").out, other
    # and those that the society keeps
    for words in ("--own", "Letzter Tag=day"), ():
        assert told not in desk.take(text, *words, "--book", "kept").out
    assert told not in desk.take(text, "--columns", "exit=").out
    done = desk.typed(done.commands()[0])
    assert told not in done.out and "changed: exit 3" in done.out


# -- columns of marks, and of corrections

LITTER = "Ohrmarke;Geschlecht;geb;Vater;Mutter;Abgang;{}\n001;m;01.02.2010;;;;\n002;w;03.02.2010;;;;\n003;w;03.02.2013;001;002;{};{}\n"
UNREAD = "the column '{}' isn't read, and has '{}' in line 4: "


@pytest.mark.parametrize(
    ("title", "text", "said"),
    [
        ("totgeboren", "x", "if that animal was born dead"), ("Totgeburt", "ja", "if that animal was born dead"),
        ("Stillborn", "Y", "if that animal was born dead"), ("Mort-né", "oui", "if that animal was born dead"),
        ("gelöscht", "x", "the row is taken"), ("Deleted", "yes", "the row is taken"), ("ungültig", "1", "the row is taken"),
        ("storniert", "ja", "the row is taken"), ("supprimé(e)", "x", "the row is taken"),
    ],
)  # fmt: skip
def test_marks_of_rows(desk: Desk, title: str, text: str, said: str) -> None:
    """They are told of animals without an exit; neither a no nor a count says that of a row."""
    told = UNREAD.format(title, text) + said
    assert told in desk.take(LITTER.format(title, "", text)).out
    for exit, other in (("03.02.2013", text), ("", "nein"), ("", "0"), ("", "2"), ("", "-")):
        assert "isn't read, and has" not in desk.take(LITTER.format(title, exit, other), "--book", f"b{other}").out
    counts = LITTER.format(title, "", "1").replace("2010;;;;", "2010;;;;0")
    assert "isn't read, and has" not in desk.take(counts, "--book", "counts").out


@pytest.mark.parametrize(
    ("title", "text", "said"),
    [
        ("korrigiertes Geburtsdatum", "14.3.2013", "'14.3.2013' and not '03.02.2013' in line 4: where it is right, enter that"),
        ("corrected DOB", "14/3/2013", "'14/3/2013' and not '03.02.2013' in line 4: where it is right, enter that"),
        ("Geburtsdatum neu", "2012", "'2012' and not '03.02.2013' in line 4: where it is right, enter that in 'geb'"),
        ("Vater (korrigiert)", "009", "'009' and not '001' in line 4: where it is right, enter that in 'Vater'"),
        ("correct sex", "m", "'m' and not 'w' in line 4: where it is right, enter that in 'Geschlecht'"),
    ],
)  # fmt: skip
def test_corrections_beside(desk: Desk, title: str, text: str, said: str) -> None:
    told = f"to look at: '{title}' isn't read, and says {said}"
    assert told in desk.take(LITTER.format(title, "", text)).out
    same = {"Vater (korrigiert)": "001", "correct sex": "w"}.get(title, "3.2.2013")
    for other in ("", same):
        assert "isn't read, and says" not in desk.take(LITTER.format(title, "", other), "--book", "other").out
    # a new ear tag is none
    assert "isn't read, and says" not in desk.take(LITTER.format("neue Ohrmarke", "", "009"), "--book", "other").out


# -- second owners

TWICE = "Ohrmarke;Geschlecht;geb;Vater;Mutter;{}\n001;m;01.02.2010;;;Huber;03.02.2011;Meier;03.04.2015\n"
TWICE += "002;w;03.02.2010;;;Huber;03.02.2011;;\n003;w;03.02.2013;001;002;Huber;;Egli;03.04.2016\n"


@pytest.mark.parametrize(
    "titles",
    [
        "1. Besitzer;seit;2. Besitzer;bis", "Owner 1;Since 1;Owner 2;Entered", "Besitzer;Besitzer seit;Mitbesitzer;dabei seit",
    ],
)  # fmt: skip
def test_second_owners(desk: Desk, titles: str) -> None:
    first, _, second, _ = titles.split(";")
    done = desk.take(TWICE.format(titles))
    done.shows(
        f"to look at: '{second}' isn't read, and has 2 owners, the first 'Meier' in line 2: the owner is 'Huber', as "
        f"'{first}' has it; where an animal has gone to the second one, enter that one in '{first}'"
    )
    assert [row["owner"] for row in desk.listed("list", "--columns", "owner")] == ["Huber"] * 3
    assert "since 2011-02-03" in desk.good("show", "001").out
    # nobody besides
    same = TWICE.format(titles).replace("Meier", "Huber").replace("Egli", "")
    assert f"'{second}' isn't read" not in desk.take(same, "--book", "same").out
    nobody = desk.take(same.replace("Huber;;", ";;Egli"), "--book", "nobody").out
    assert f"'{second}' isn't read, and has 'Egli' in line 4: nobody owns it, as '{first}' has nothing" in nobody
