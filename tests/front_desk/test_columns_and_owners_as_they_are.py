"""Columns and cells of societies' lists that say something plainly where nothing is usual: each is read, or told."""
from __future__ import annotations

import pytest

from front_desk.desk import Desk
from front_desk.test_sheets_as_they_are import PAIR, TITLES, owner_of
from gudokeyi.services.opening import book_in

ROWS = "a1;Ash;D;2010-02-01;;;Grant R\nb2;Briar;B;2010-02-03;;;Grant R\nc3;Clover;B;2013-02-03;a1;b2;Cole\n"
DOGS = "Reg No;Name;{};DOB;Sire;Dam;Keeper\n" + ROWS


def sexes(desk: Desk) -> dict[str, str]:
    return {id: number[6] for id, number in desk.numbers().items()}


def exits(desk: Desk) -> int:
    return sum(line.startswith("exit,") for line in desk.commands())


@pytest.mark.parametrize("title", ["Dog/Bitch", "Dog or Bitch", "D/B", "B / D", "Rüde / Hündin (D/B)"])
def test_title_with_both_sexes(desk: Desk, title: str) -> None:
    """Its column has the sexes, also by the first letters of its words."""
    rows = DOGS.format(title)
    done = desk.take(rows if "Rüde" not in title else rows.replace(";D;", ";R;").replace(";B;", ";H;"))
    assert sexes(desk) == {"a1": "M", "b2": "F", "c3": "F"} and "sex from" in done.out


def test_letters_of_neutered_animals(desk: Desk) -> None:
    """As registers of dogs have them: `DN` is a neutered dog, `BS` a spayed bitch, `M(n)` a neutered male."""
    words = ["DN", "BS", "M(n)", "FS", "FN", "MC"]
    rows = "".join(f"x{at};X{at};{word};2014-02-03;;;Cole\n" for at, word in enumerate(words))
    desk.take(DOGS.format("D/B") + rows)
    assert [sexes(desk)[f"x{at}"] for at, _ in enumerate(words)] == ["M", "F", "M", "F", "F", "M"]


def test_sexes_that_nothing_names(desk: Desk) -> None:
    """A column that looks like sexes is told first, with what reads it."""
    rows = DOGS.format("Art").replace(";D;", ";male;").replace(";B;", ";female;")
    done = desk.take(rows)
    first = "to look at: nothing is read as sex, though the column 'Art' looks like that, with 3 cells: male, female"
    assert done.out.startswith(first) and done.commands()[0].endswith("--columns sex=Art")
    desk.typed(done.commands()[0])
    assert sexes(desk) == {"a1": "M", "b2": "F", "c3": "F"}


@pytest.mark.parametrize("title, is_read", [("gestorben/verkauft am", True), ("Date of death or transfer", False)])
def test_exits_under_titles_of_several_words(desk: Desk, title: str, is_read: bool) -> None:
    """Where all words are of exits the column is read, and else it is told first, with what reads it."""
    rows = "".join(f"{at}03;A{at};w;03.02.2013;001;002;Huber;0{at}.05.2020\n" for at in range(1, 5))
    done = desk.take(TITLES.replace("Abgang", title) + PAIR + rows)
    told = f"to look at: nothing is read as exit, though the column '{title}' looks like that, with 4 cells: 01.05.2020"
    assert exits(desk) == 4 * is_read and done.out.startswith(told) == (not is_read)
    if not is_read:
        desk.typed(done.commands()[0])
        assert exits(desk) == 4


def test_exits_in_remarks(desk: Desk) -> None:
    """A remark that tells of an exit isn't lost in silence; a word that may be another thing says nothing."""
    titles, pair = TITLES.replace("\n", ";Bemerkungen\n"), PAIR.replace(";\n", ";;left ear\n", 1).replace(";Huber;\n", ";Huber;;lahm\n")
    rows = "004;B;w;3.2.2014;001;002;Huber;;braun\n003;A;w;3.2.2013;001;002;Huber;;gestorben 2021\n"
    done = desk.take(titles + pair + rows)
    done.tells(
        "to look at: the column 'Bemerkungen' isn't read for exits, and 1 cell of it tells that an animal left which has "
        "no exit: 'gestorben 2021' in line 5; the animal counts as living: if it left, enter that in the column for "
        "exits"
    )


@pytest.mark.parametrize(
    "owner, told",
    [
        ("verstorben", "'verstorben' stands where 1 animal has its owner, and doesn't look like a name"),
        ("05.01.2020", "'05.01.2020' stands where 1 animal has its owner, and doesn't look like a name"),
        ("Huber -> Meier Ida (2022)", "which has the name Huber and Meier Ida in it, and becomes an owner of its own"),
        ("c/o Meier Ida", "which has the name Meier Ida in it, and becomes an owner of its own"),
        ("Meier Ida (50%) / Huber (50%)", "which has the name Huber and Meier Ida in it"),
        ("sold to T. Ormerod", "line 4: 003: to look at: 'sold to T. Ormerod' stands where 1 animal has its owner, and"),
        ("jetzt Fremd", "line 4: 003: to look at: 'jetzt Fremd' stands where 1 animal has its owner, and doesn't look"),
        ("† 2022", "line 4: 003: to look at: '† 2022' stands where 1 animal has its owner, and doesn't look like a name"),
        ("bei Huber", "line 4: 003: to look at: the owner of 1 animal is written 'bei Huber', which has the name Huber in it"),
        ("Verkauf nach Polen", "'Verkauf nach Polen' stands where 1 animal has its owner, and doesn't look like a name"),
        ("exportiert nach Polen", "'exportiert nach Polen' stands where 1 animal has its owner, and doesn't look like"),
        ("verkauft Huber", "line 4: 003: to look at: the owner of 1 animal is written 'verkauft Huber', which has the name"),
        ("Huber jun.", ""),
        ("Todt Weger", ""),
    ],
)
def test_owner_with_more_than_a_name(desk: Desk, owner: str, told: str) -> None:
    """What no name is, or has those of others in it, is told, and told once."""
    rows = PAIR.replace("002;Eva;w;03.02.2010;;;Huber", "002;Eva;w;03.02.2010;;;Meier Ida")
    text = TITLES + rows + f"003;A;w;3.2.2013;001;002;{owner};\n"
    done = desk.take(text)
    assert owner_of(desk, "003") == owner and told in done.out
    assert ("like a name" in done.out or "owner of its own" in done.out) == bool(told)
    assert "like a name" not in desk.take(text).out


@pytest.mark.parametrize("cell", ["Schwester von 002", "half sister of 002"])
def test_parent_named_by_relation(desk: Desk, cell: str) -> None:
    """Another animal in a parent's cell isn't that parent."""
    done = desk.take(TITLES + PAIR + f"003;A;w;3.2.2013;001;{cell};Huber;\n")
    assert desk.parents()["003"] == ("001", "")
    assert f"its dam '{cell}' is left out: it says how another animal is related" in done.out


@pytest.mark.parametrize(
    "cell, born",
    [
        ("12,04,2013", "2013-04-12"), ("7. III. 2013", "2013-03-07"), ("zw. 1.4. und 28.4.2013", "2013-04-16"),
        ("nuit du 26 au 27 avril 2013", "2013-04-26"), ("importé 2017", "2012-02-03"), ("≤ 2014", "2012-02-03"),
        ("13.01.20l9", "2012-02-03"), ("13.01.20 19", "2012-02-03"), ("13.01.20?9", "2012-02-03"),
        ("gek. 13.01.2019", "2012-02-03"), ("eingetragen am 13.1.2019", "2012-02-03"), ("reg. 13.1.19", "2012-02-03"),
        ("acheté le 13/01/2019", "2012-02-03"), ("† 13.01.2019", "2012-02-03"),
        ("entrée le 13/01/2019", "2012-02-03"), ("geb. 12.4.2013, gek. 13.01.2019", "2012-02-03"), ("2013.04.12", "2013-04-12"),
        ("Anf. 2013", "2013-03-02"),
    ],
)  # fmt: skip
def test_days_in_other_words(desk: Desk, cell: str, born: str) -> None:
    """A day that people read is that day, a time between two is one of them or in their month, and another time is no
    birth day."""
    done = desk.take(TITLES + PAIR + f"003;A;w;{cell};001;002;Huber;\n")
    assert desk.born()["003"] == born
    assert (cell in done.out) == (born not in ("2013-04-12", "2013-03-07"))
    events = ("gek.", "eing", "reg.", "ache", "† 13", "entr")
    assert (f"line 4: 003: its birth day is left out: '{cell}' tells of another event" in done.out) == (cell[:4] in events)


def test_born_dead(desk: Desk) -> None:
    """A name that says so is told: the row makes a living animal of it."""
    done = desk.take(TITLES + PAIR + "003;Totgeburt;w;3.2.2013;001;002;Huber;\n")
    assert "line 4: 003: to look at: its name 'Totgeburt' says that it was born dead" in done.out


def test_taker_without_a_verb(desk: Desk) -> None:
    rows = PAIR.replace("002;Eva;w;03.02.2010;;;Huber", "002;Eva;w;03.02.2010;;;Meier Ida")
    desk.take(TITLES + rows + "003;A;w;3.2.2013;001;002;Huber;an Meier 4.5.2022\n")
    assert owner_of(desk, "003") == "Meier Ida"
    assert any(line.startswith("transfer") and "2022-05-04" in line for line in desk.commands())


def test_castrated_in_brackets(desk: Desk) -> None:
    """Though the word is a short one, what it says stays."""
    desk.take(TITLES + PAIR + "003;A;M (kastr. 2021);3.2.2013;001;002;Huber;\n")
    with book_in(desk.room / "book") as book:
        assert sexes(desk)["003"] == "M" and book.society_records["003"].castrated


def test_parents_beside_their_ids(desk: Desk) -> None:
    """A parent that stands by its name alone, in a column that isn't read beside that of ids, is told."""
    titles = "Reg No;Name;Sex;DOB;Sire Name;Sire Reg No;Dam Name;Dam Reg No\n"
    rows = "a1;Ash;m;2010-02-01;;;;\nb2;Briar;f;2010-02-03;;;unknown;\nc3;Clover;f;2013-02-03;Ash;a1;Briar;b2\n"
    young = "d4;Dell;f;2014-02-03;Ash;;Briar;b2\n"
    beside = "which isn't read"
    assert beside not in desk.take(titles + rows).out
    one = f"to look at: 1 row has nothing in 'Sire Reg No', and 'Ash' in 'Sire Name', {beside}, in line 5: this parent counts "
    desk.take(titles + rows + young).tells(f"{one}as unknown; enter it in 'Sire Reg No'")
    done = desk.take(titles + rows + young + "e5;Elm;f;2015-02-03;Rex;;Briar;b2\nf6;Fay;f;2016-02-03;Ash;a1;Briar;b2\n")
    assert f"2 rows have nothing in 'Sire Reg No', and a parent in 'Sire Name', {beside}, the first 'Ash' in line 5" in done.told


def test_parents_named_otherwise(desk: Desk) -> None:
    """A parent whose id and whose name, in a column that isn't read, are two animals of the list: the id is taken, and
    that is told. A name of no animal is told of nowhere, nor are names of which fewer are those of the ids."""
    titles = "Reg No;Name;Sex;DOB;Sire Name;Sire Reg No;Dam Name;Dam Reg No\n"
    rows = "a1;Ash;m;2010-02-01;;;;\nb2;Briar;f;2010-02-03;;;;\nx9;Rex;m;2010-02-05;;;;\n"
    rows += "c3;Clover;f;2013-02-03;ASH;a1;Briar;b2\nd4;Dell;f;2014-02-03;Old Ash;a1;Briar;b2\n"
    told = "is taken; if another is meant, write the id of that one"
    assert told not in desk.take(titles + rows).told
    rows += "e5;Elm;f;2015-02-03;rex;a1;Clover;b2\n"
    done = desk.take(titles + rows)
    done.tells(
        f"line 7: e5: to look at: its sire a1 is 'Ash', and 'Sire Name' has 'rex', which is x9: a1 {told}",
        f"line 7: e5: to look at: its dam b2 is 'Briar', and 'Dam Name' has 'Clover', which is c3: b2 {told}",
    )
    assert desk.parents()["e5"] == ("a1", "b2")
    rows += "f6;Rex;m;2016-02-03;Rex;a1;Briar;b2\n"
    assert not [one for one in desk.take(titles + rows).report if told in one and "sire" in one]
    rows += "g7;Gorse;f;2017-02-03;Ash;a1;Briar;b2\n"
    desk.take(titles + rows).tells(
        f"line 8: f6: to look at: its sire a1 is 'Ash', and 'Sire Name' has 'Rex', which is x9 or f6: a1 {told}",
    )


@pytest.mark.parametrize("title", ["Depuis le", "Acquis le", "Date de mutation", "Erworben am", "Date acquired"])
def test_titles_of_since(desk: Desk, title: str) -> None:
    """A day beside the owner is that since when he has the animal."""
    desk.take(TITLES.replace("\n", f";{title}\n") + PAIR.replace(";\n", ";;\n") + "003;A;w;3.2.2013;001;002;Huber;;03.10.2016\n")
    assert desk.transfer_days() == ["2016-10-03"]
