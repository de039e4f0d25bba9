"""Names, ids, days and columns that say something besides, or nothing: what they may mean is told."""
from __future__ import annotations

import pytest

from front_desk.desk import Desk

TITLES = "id;name;sex;birth;sire;dam;owner;exit\n"
TELLS = "seems to tell of an exit, and it counts as living"


@pytest.mark.parametrize(
    "name",
    ["Susi †", "Viola † 12.3.2022", "Hans +", "Berta (tot)", "Olga verk.", "Rex sold", "Ida (verkauft 2022)",
     "Uwe - tot", "Mia +2022", "Ute geschl. 5/22", "Zora Verkauft", "Belle (vendue)", "Berta RIP", "Max (eingeschl.)",
     "Luna ✝", "Ina euth.", "Otto (rip 2020)", "R.I.P. Bella", "Ute eingeschl. 2020", "Bob PTS",
     "RIP Kepton Ruby 6th", "rip Susi", "+ Susi", "+Susi", "† Susi"],
)  # fmt: skip
def test_exit_in_a_name(desk: Desk, name: str) -> None:
    """It is told of an animal that counts as living, and not of one that has an exit."""
    rows = f"a1;{name};f;2019-03-24;;;X;{{}}\na2;Eva;f;2019-03-02;;;X;\n"
    desk.take(TITLES + rows.format("")).shows(
        f"line 2: a1: to look at: its name '{name}' {TELLS}: if it has left, enter that in the column for exits, and "
        f"here only the name"
    )
    for exit in "2022-03-12", "verkauft":
        assert "its name" not in desk.take(TITLES + rows.format(exit), "--book", f"of {exit}").told


@pytest.mark.parametrize(
    "name",
    ["Walking Dead", "Gone With The Wind", "Lotte", "Mort", "Totila", "Sold Out", "Gestüt Max", "C+A", "Verka", "Ripley",
     "Tripoli", "TRIPOLI", "Rip van Winkle", "Lady Rip", "RIP CURL", "GRIP"],
)  # fmt: skip
def test_name_alone(desk: Desk, name: str) -> None:
    assert "its name" not in desk.take(f"{TITLES}a1;{name};f;2019-03-24;;;X;\na2;Eva;f;2019-03-02;;;X;\n").told


@pytest.mark.parametrize("sex, is_told", [("f†", True), ("f (tot)", True), ("Aue †", True), ("f", False)])
def test_exit_in_a_sex(desk: Desk, sex: str, is_told: bool) -> None:
    """The sex is read, and it is told of one that counts as living."""
    rows = f"a1;Ida;{sex};2019-03-24;;;X;{{}}\na2;Eva;f;2019-03-02;;;X;\n"
    done = desk.take(TITLES + rows.format(""))
    told = (
        f"to look at: 1 cell of the column 'sex' seems to tell of an exit besides the sex, '{sex}' in line 2, and its "
        "animal counts as living: if it has left, enter that in the column for exits, and here only the sex"
    )
    assert (told in done.out) == is_told and "F" in desk.numbers()["a1"]
    assert "of an exit besides" not in desk.take(TITLES + rows.format("2022-03-12")).told


FOUR = "DE101;Anna;f;2015-03-01;;;X;\nDE102;Bert;m;2015-03-02;;;X;\n{};Cora;f;2019-03-03;DE102;DE101;X;{}\n"


@pytest.mark.parametrize(
    "id",
    ["†DE103", "DE103 †", "DE103†", "DE103 (tot)", "DE103 (verk. 2022)", "DE103 tot", "† DE103", "DE103 † 3.4.2022",
     "+DE103", "+ DE103", "DE103 +", "DE103 (+)", "DE103 geschl.", "DE103 (eingeschläfert)"],
)  # fmt: skip
def test_exit_in_an_id(desk: Desk, id: str) -> None:
    """It is read without, also as a parent, and told; so it is the animal that the book has."""
    desk.take(TITLES + FOUR.format("DE103", "") + "DE104;Dora;f;2022-03-03;DE102;DE103;X;\n")
    rows = FOUR.format(id, "{}") + f"DE104;Dora;f;2022-03-03;DE102;{id};X;\n"
    told = f"line 4: DE103: to look at: its id '{id}' seems to tell of an exit, and is taken as DE103"
    for options in ("--preview",), ():
        done = desk.take(TITLES + rows.format(""), *options)
        done.shows(
            f"{told}, which counts as living: if it has left, enter that in the column for exits, and here only the id"
        )
        assert " 0 new, 0 changed, 0 inferred, 0 left out, 0 added, 0 gone" in done.last
    desk.take(TITLES + rows.format("2022-04-03")).tells(told)
    assert desk.parents()["DE104"] == ("DE102", "DE103")


def test_plus_before_ids(desk: Desk) -> None:
    """In a first list, where others name one of them without it; so it is before all that are written so."""
    rows = FOUR.format("+DE103", "") + "+DE105;Eva;f;2018-03-03;;;X;\n+9;Ina;f;2018-03-04;;;X;\n"
    done = desk.take(TITLES + rows + "DE104;Dora;f;2022-03-03;DE102;DE103;X;\nDE106;Ute;f;2022-03-03;;+DE103;X;\n")
    told = "its id '+{0}' seems to tell of an exit, and is taken as {0}, which counts as living"
    assert told.format("DE103") in done.out and told.format("DE105") in done.out
    assert sum("seems to tell" in one for one in done.report) == 2
    assert desk.parents()["DE104"] == ("DE102", "DE103") and desk.parents()["DE106"] == ("", "DE103")
    assert {"DE105", "+9"} <= desk.numbers().keys()


@pytest.mark.parametrize("sign", ["+", "+ ", "†"])
def test_sign_of_an_exit_in_a_parent(desk: Desk, sign: str) -> None:
    """Beside an id that has a row without it, it is told with what is read."""
    rows = FOUR.format("DE103", "") + f"DE104;Dora;f;2022-03-03;{sign}DE102;{sign}DE103;X;\n"
    desk.take(TITLES + rows).tells(
        f"line 5: DE104: inferred: its dam '{sign}DE103' is DE103, whose id stands there: if another is meant, write that "
        "id alone"
    )
    assert desk.parents()["DE104"] == ("DE102", "DE103")


def test_ids_with_a_plus(desk: Desk) -> None:
    """Ids that have it by themselves keep it, also where some parents are written without."""
    rows = "".join(f"+4917{at};A;{'mf'[at % 2]};2019-03-0{at};;;X;\n" for at in range(1, 8))
    done = desk.take(f"{TITLES}{rows}+49179;B;f;2022-03-03;+49172;49171;X;\n")
    assert "seems to tell" not in done.told and {"+49171", "+49179"} <= desk.numbers().keys()
    assert desk.parents()["+49179"][0] == "+49172"


@pytest.mark.parametrize("id", ["Rex tot", "DE103 (rot)", "DE-103+1", "DE103 gold", "3 Mort 4", "+DE103", "+103"])
def test_id_without_an_exit(desk: Desk, id: str) -> None:
    assert "seems to tell" not in desk.take(TITLES + FOUR.format(id, "")).told
    assert id in {one.removeprefix("'") for one in desk.numbers()}


def test_marked_id_of_the_book(desk: Desk) -> None:
    """An animal whose id is said to have the sign keeps it."""
    done = desk.take(TITLES + FOUR.format("†DE103", ""), "--animal", "†DE103")
    assert "†DE103" in desk.numbers() and "seems to tell" not in done.told


@pytest.mark.parametrize("id", ["DE103+104", "DE103 + 4", "DE103 u. 104", "DE103 und 104", "DE103, 04", "DE103&104"])
def test_two_animals_in_a_row(desk: Desk, id: str) -> None:
    """Also where the second id has its last digits alone, in a short list."""
    desk.take(TITLES + FOUR.format(f'"{id}"', "")).shows(
        f"line 4: {id}: to look at: is this row one animal? Its id has DE103 and DE104 in it. It is taken as one: give "
        "each animal a row of its own, and write only one id in its cell"
    )


def test_one_animal_in_a_row(desk: Desk) -> None:
    rows = "1+2;A;f;2015-03-02;;;X;\nCH 1,5;B;f;2015-03-02;;;X;\nDE103/104;C;f;2015-03-02;;;X;\n"
    assert "is this row one animal" not in desk.take(TITLES + FOUR.format("DE103+1045", "") + rows).told


@pytest.mark.parametrize(
    "id, parts",
    [
        ("DE 01 07 00400002 / DE 01 07 00400003", "DE 01 07 00400002 and DE 01 07 00400003"),
        ("DE 01 07 00400002 alt: DE 01 07 00400091", "DE 01 07 00400002 and DE 01 07 00400091"),
        ("DE 01 07 00400002/DE 01 07 00400003", "DE 01 07 00400002 and DE 01 07 00400003"),
        ("DE 01 07 00400002 (ex DE 01 07 00400091)", "DE 01 07 00400002 and DE 01 07 00400091"),
    ],
)
def test_two_ids_in_a_cell(desk: Desk, id: str, parts: str) -> None:
    """Also in a sheet of few rows; in a longer one it is told so and not as one that is written unlike others."""
    told = f"{id}: to look at: is this row one animal? Its id has {parts} in it. It is taken as one: give each animal "
    rows = f"DE 01 07 00400001;Rosl;f;2015-03-02;;;X;\n{id};Max;m;2021-03-02;;;X;\n"
    rows += "DE 01 07 00400004;Ute;f;2015-03-02;;;X;\n"
    done = desk.take(TITLES + rows)
    done.shows(f"line 3: {told}a row of its own, and write only one id in its cell")
    more = "".join(f"DE 01 07 004001{at:02};A;f;2015-03-02;;;X;\n" for at in range(40))
    done = desk.take(TITLES + rows + more, "--book", "long")
    assert told in done.out and "unlike nearly all others" not in done.out


def test_one_id_in_a_cell(desk: Desk) -> None:
    """A longer id isn't two."""
    rows = "".join(f"{id};A;f;2015-03-02;;;X;\n" for id in ("1", "2", "2019-3", "DE 4567 long", "Rex / Max"))
    assert "is this row one animal" not in desk.take(TITLES + rows).told


FLOCK = "3;Ida;f;2010-03-01;;;X;\n12;Ute;f;2010-03-01;;;X;\n4;Rex;m;2010-03-01;;;X;\n"


def test_number_and_year_before_a_name(desk: Desk) -> None:
    """They are one id, also beside animals that are called 3 and 12, of a row and of a parent, which may lack a row."""
    rows = "3/12/Cora;Cora;f;2012-03-01;;;X;\n4/12/Max;Max;m;2012-03-01;;;X;\n"
    rows += "1/15/Bea;Bea;f;2015-03-01;4/12/Max;3/12/Cora;X;\n2/15/Mai;Mai;f;2015-03-02;4/12/Rex;3/12/Cora (X);X;\n"
    done = desk.take(TITLES + FLOCK + rows)
    assert desk.parents()["1/15/Bea"] == ("4/12/Max", "3/12/Cora") and "is this row one animal" not in done.told
    assert desk.parents()["2/15/Mai"] == ("4/12/Rex", "3/12/Cora") and " 0 left out, 1 added" in done.last


@pytest.mark.parametrize("dam", ["3/12/Cora", "3/12 Cora", "3/12 (Cora)", "Cora/3/12"])
def test_name_beside_number_and_year(desk: Desk, dam: str) -> None:
    """The id is the number with the year, and not one of both."""
    rows = f"3/12;Cora;f;2012-03-01;;;X;\n1/15;Bea;f;2015-03-01;;{dam};X;\n2/15;Lea;f;2015-03-01;;12/4;X;\n"
    done = desk.take(TITLES + FLOCK + rows)
    done.tells(
        f"line 6: 1/15: inferred: its dam '{dam}' is 3/12, whose id stands there: if another is meant, write that id "
        "alone"
    )
    done.tells("line 7: 2/15: its dam '12/4' is left out: it may be one or the other, and counts as unknown")


def test_first_day_of_a_spreadsheet(desk: Desk) -> None:
    """It is told of those that count as living."""
    rows = "a;A;f;1900-01-01;;;X;\nb;B;f;01.01.1900;;;X;\nc;C;f;1900-01-01;;;X;1911-01-01\nd;D;f;1900-01-02;;;X;\n"
    desk.take(TITLES + rows).shows(
        "to look at: 2 animals that count as living have the birth day 1900-01-01, which stands for nothing in many "
        "lists, in the lines 2, 3: if the days aren't known, leave their cells empty"
    )
    assert "1900-01-01, which" not in desk.take(f"{TITLES}a;A;f;1900-01-02;;;X;\n", "--book", "other").out


EXCHANGED = ["2020-05-03", "17/03/2020", "2020-04-02", "28/04/2020", "2020-07-03"]


def days(*births: str) -> str:
    return TITLES + "".join(f"a{at};A;f;{birth};;;X;\n" for at, birth in enumerate(births))


def test_exchanged_days(desk: Desk) -> None:
    """A spreadsheet that was set to English keeps as texts what it can't read with the month first."""
    desk.take(days(*EXCHANGED)).shows(
        "to look at: a spreadsheet seems to have exchanged day and month in 'birth': none of its 3 days is later in a "
        "month than the 12th, and each of the 2 that it kept as text is, such as 17/03/2020 in line 3. 2020-05-03 in "
        "line 2 may be 2020-03-05: type these days again, where the spreadsheet has the day first"
    )


def test_years_as_days(desk: Desk) -> None:
    """A year in a cell whose format is a day is told as what it may be, and not as an animal that must have left;
    where others are born then, nothing is told."""
    births = [f"1{at % 10}.03.2018" for at in range(30)]
    told = "in line 32, as a spreadsheet shows 2018 in a cell whose format is a day"
    done = desk.take(days(*births, "10.07.1905"), "--preview")
    assert f"to look at: 'birth' has 10.07.1905 {told}" in done.out and "has it left?" not in done.told
    done = desk.take(days(*births, "10.07.1905", "11.02.1906"), "--preview")
    assert told not in done.told and done.out.count("has it left?") == 2


@pytest.mark.parametrize("birth", ["2020-05-13", "07/03/2020"])
def test_days_as_they_are(desk: Desk, birth: str) -> None:
    """A day that is later in a month, or a text that isn't, shows that none is exchanged."""
    assert "exchanged" not in desk.take(days(*EXCHANGED, birth)).told


def test_column_without_a_title(desk: Desk) -> None:
    """Its texts aren't read, which is told; row numbers aren't missed."""
    titles = TITLES.replace("\n", ";\n")
    rows = "a1;A;f;2019-03-24;;;X;;tot 3.4.2022\na2;B;f;2019-03-02;;;X;;\na3;C;f;2021-03-02;;;X;;verk. an Weber 5/22\n"
    done = desk.take(titles + rows)
    assert "; not read: column I (without a title)\n" in done.out
    done.shows(
        "to look at: the column I has no title and isn't read, and it has 2 cells with text, the first is 'tot "
        "3.4.2022' in line 2; 2 of them tell that animals left, which count as living: if they belong to the list, "
        "give it a title"
    )
    one = "a1;A;f;2019-03-24;;;X;;\na2;B;f;2019-03-02;;;X;;sie bockt\n"
    desk.take(titles + one, "--book", "one").shows(
        "to look at: the column I has no title and isn't read, and it has 1 cell with text: 'sie bockt' in line 3: if "
        "it belongs to the list, give it a title"
    )
    numbered = f";{TITLES}1;a1;A;f;2019;;;X;\n2;a2;A;f;2019;;;X;\n3;a3;A;f;2019;;;X;\n"
    assert "has no title" not in desk.take(numbered, "--book", "numbered").told


TWICE = (
    "to look at: the book has †DE103 too, which has no row and a sign before the same id: are they one animal? If so, "
    "†DE103 needn't stay; --drop-gone drops what has no row, but for ancestors of animals that have one"
)
BEFORE = FOUR.format("DE103", "") + "DE104;Dora;f;2022-03-03;DE102;DE103;X;\n"


@pytest.mark.parametrize("sign", ["†", "† ", "+"])
def test_id_that_the_book_has_with_a_sign(desk: Desk, sign: str) -> None:
    """It is proposed as the new tag of that one, also where its row says something else; else it is a new animal."""
    with_sign, rows = f"{sign}DE103", BEFORE.replace("Cora", "")
    desk.take(TITLES + rows.replace("DE103", with_sign), "--animal", with_sign)
    told = f"line 4: DE103: to look at: the book has {with_sign}, which has no row: is it this animal, from a list"
    done = desk.take(TITLES + rows, "--preview")
    assert told in done.out and " 5 animals, 1 new, " in done.last
    [command] = [one for one in done.commands() if "--new-tag" in one]
    assert " 4 animals, 0 new, 0 changed, 0 inferred, 0 left out, 0 added, 0 gone" in desk.typed(command).last
    desk.typed(command.replace(" --preview", ""))
    assert desk.parents()["DE104"] == ("DE102", "DE103")
    assert "the book has" not in desk.take(TITLES + rows).told


@pytest.mark.parametrize("sign", ["†", "+"])
def test_parent_that_the_book_has_with_a_sign(desk: Desk, sign: str) -> None:
    """A parent without a row is that animal once this has one; and it is proposed as its new tag."""
    first = TITLES + f"DE102;Bert;m;2015-03-02;;;X;\nDE104;Dora;f;2022-03-03;DE102;{sign}DE103;X;\n"
    desk.take(first)
    done = desk.take(first + "DE103;Cora;f;2019-03-03;;;X;\n", "--preview")
    done.shows("line 3: DE104: changed: dam: DE103, before " + f"{sign}DE103")
    assert f"the book has {sign}DE103, which has no row: is it this animal" in done.out
    [command] = [one for one in done.commands() if "--new-tag" in one]
    assert " 3 animals, 0 new, " in desk.typed(command).last


def test_animal_that_the_book_has_twice(desk: Desk) -> None:
    """With a sign at its id and without: whichever its row has, it is the one without, and the other is told until it
    is dropped; but where the sign is said to be of the id."""
    desk.take(TITLES + BEFORE)
    with_sign = TITLES + BEFORE.replace("DE103", "†DE103")
    desk.take(with_sign, "--animal", "†DE103")
    assert {"DE103", "†DE103"} < {*desk.numbers()}
    told = f"line 4: DE103: {TWICE}"
    for sheet in with_sign, TITLES + BEFORE:
        done = desk.take(sheet, "--preview")
        assert told in done.out and done.out.count("the book has") == 1 and " 0 new, 1 changed, " in done.last
    assert "the book has" not in desk.take(with_sign, "--preview", "--animal", "†DE103").out
    assert told not in desk.take(with_sign, "--drop-gone").told
    assert desk.parents()["DE104"] == ("DE102", "DE103") and "†DE103" not in desk.numbers()
    assert "the book has" not in desk.take(TITLES + BEFORE).told


def test_row_with_a_sign_of_a_parent_without_one(desk: Desk) -> None:
    """A row that an earlier list had with a sign, beside a parent without a row: from now on it is the parent's."""
    desk.take(TITLES + BEFORE.replace("DE103;Cora;f;2019-03-03;DE102;DE101;X;\n", ""))
    rows = TITLES + BEFORE.replace("DE103;Cora", "†DE103;Cora")
    desk.take(rows, "--animal", "†DE103")
    assert desk.parents()["DE103"] == ("", "")
    done = desk.take(rows)
    done.tells(f"line 4: DE103: {TWICE}")
    assert " 0 new, " in done.last and desk.parents()["DE103"] == ("DE102", "DE101")
    assert desk.parents()["DE104"] == ("DE102", "DE103")


@pytest.mark.parametrize(
    "name",
    ["-", "0", "NN", "N.N.", "ohne Namen", "Unbekannt", "n/a", "sans nom", "unnamed", "o. N.", "---", "nan", "unbek."],
)
def test_no_name(desk: Desk, name: str) -> None:
    """It is told once, and several animals that have it are as they were."""
    rows = f"a1;{name};f;2019-03-24;;;X;\na2;Eva;m;2019-03-02;;;X;\na3;{{}};f;2021-03-02;a2;a1;X;\n"
    told = "leave the cell empty, or write the name"
    desk.take(TITLES + rows.format("Ida"), "--preview").shows(
        f"to look at: 1 cell of the column 'name' says that there is no name, '{name}' in line 2: its animal counts as "
        f"one without a name; {told}"
    )
    done = desk.take(TITLES + rows.format(name))
    assert f"2 cells of the column 'name' say that there is no name, the first in line 2: '{name}' (2 times): their" in done.out
    assert desk.parents()["a3"] == ("a2", "a1") and name not in desk.good("show", "a3").out.splitlines()[0]
    assert " 0 new, 0 changed" in desk.take(TITLES + rows.format("")).last


@pytest.mark.parametrize("name", ["Nina", "Nan", "Sans", "Nora N.", "Onno", "Nulla", "07", "Unbekannte Dame", "Kai"])
def test_names_like_none(desk: Desk, name: str) -> None:
    done = desk.take(f"{TITLES}a1;{name};f;2019-03-24;;;X;\na2;Eva;m;2019-03-02;;;X;\n")
    assert "there is no name" not in done.told and name in desk.good("show", "a1").out


@pytest.mark.parametrize("name, is_told", [("01.05.2012", True), ("2012-05-01", True), ("12.5", False), ("1.5 Eva", False)])
def test_day_for_a_name(desk: Desk, name: str, is_told: bool) -> None:
    """Also in a text file."""
    done = desk.take(f"{TITLES}a1;{name};f;2019-03-24;;;X;\na2;Eva;m;2019-03-02;;;X;\n")
    assert (f"line 2: a1: to look at: its name is the day {name}, which spreadsheets make" in done.out) == is_told


def test_other_breeds(desk: Desk) -> None:
    """Rows of another breed than most are told once; where none is that of most, or all say one, nothing is."""
    titles, row = TITLES.replace("\n", ";Rasse\n"), "a{};A;f;2018-03-1{};;;X;;{}\n"
    breeds = ["Skudde", "Skudde", "", "Texel", "Skudde (grau)", "Texel", "Skudde", "Skudde"]
    sheet = titles + "".join(row.format(at, at, breed) for at, breed in enumerate(breeds))
    told = "to look at: 'Rasse' says another breed than 'Skudde', which most rows have, in 2 rows, the first is line 5 "
    assert desk.take(sheet, "--preview").out.count(told + "with 'Texel': these animals are taken") == 1
    one = titles + "".join(row.format(at, at, breed) for at, breed in enumerate(breeds[:5]))
    assert "to look at: 'Rasse' says 'Texel' in line 5, where most rows have 'Skudde'" in desk.take(one, "--preview").out
    assert "'Rasse' says" not in desk.take(sheet.replace("Texel", "Skudde"), "--preview").told
