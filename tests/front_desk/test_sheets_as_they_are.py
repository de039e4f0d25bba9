"""Sheets as societies keep them: what a list says plainly is neither lost nor replaced by an invention."""
from __future__ import annotations

import io

import openpyxl
import pytest

from front_desk.desk import Desk

TITLES = "Ohrmarke;Name;Geschlecht;geb;Vater;Mutter;Besitzer;Abgang\n"
PAIR = "001;Max;m;01.02.2010;;;Huber;\n002;Eva;w;03.02.2010;;;Huber;\n"


@pytest.mark.parametrize(
    "cell, born, told",
    [
        ("3.2.13", "2013-02-03", "two digits of the year in 1 cell of the column 'geb'"),
        ("27/2/25", "2025-02-27", "two digits of the year in 1 cell"),
        ("3. Mai '12", "2012-05-03", "two digits of the year in 1 cell"),
        ("avr.-13", "2013-04-16", "two digits of the year in 1 cell of the column 'geb': 'avr.-13' in line 4 is read as 2013-04"),
        ("Mrz 13", "2013-03-16", "'Mrz 13' in line 4 is read as 2013-03"),
        ("Dec '12", "2012-12-16", "two digits of the year in 1 cell"),
        ("42109", "2015-04-15", "a spreadsheet's number for a day in 1 cell"),
        ("13.01.2019 (lt. Besitzer)", "2019-01-13", "a day and a text in 1 cell"),
        ("ca. 3/2019", "2019-03-16", "a text with a month, a week or a season in 1 cell"),
        ("Frühjahr 2018", "2018-04-16", "a text with a month, a week or a season in 1 cell"),
        ("31.02.2021", "2021-02-15", "from the month 2021-02, since there is no day 31.02.2021"),
        ("2014/3/15", "2014-03-15", ""),
        ("30 07 2014", "2014-07-30", ""),
        ("7-III-2019", "2019-03-07", ""),
        ("KW 12/2016", "2016-03-24", "'KW 12/2016' in line 4 is read as 2016-03"),
        ("31. Woche 2016", "2016-08-04", "a text with a month, a week or a season in 1 cell"),
    ],
)
def test_day_in_the_cell(desk: Desk, cell: str, born: str, told: str) -> None:
    """It is that of the animal, however it is written, and how it is read is told among the first lines."""
    done = desk.take(TITLES + PAIR + f"003;A;w;{cell};001;002;Huber;\n")
    assert desk.born()["003"] == born
    assert told in done.out.partition("rows below the titles")[0]


NOT_TAKEN, LEFT_OPEN = "and not what its cell has", "within what its cell says"


@pytest.mark.parametrize(
    "cell, said",
    [("14.05.1887", NOT_TAKEN), ("12.04.2087", NOT_TAKEN), ("vor 5.2014", LEFT_OPEN), ("av. 2014", LEFT_OPEN)],
)
def test_day_that_cannot_be(desk: Desk, cell: str, said: str) -> None:
    """A day is inferred beside what the cell says, which is told by the animal's name among the first lines."""
    first = desk.take(TITLES + PAIR + f"003;A;w;{cell};001;002;Huber;\n").out.partition("rows below the titles")[0]
    assert f"line 4: 003: inferred: birth day 2012-02-03, from its parents, {said}: '{cell}'" in first


def owner_of(desk: Desk, id: str) -> str:
    """By the last command that names one."""
    lines = [line.split(",") for line in desk.commands()]
    herds = [line[6] for line in lines if line[0] in ("birth", "transfer") and line[1] == desk.numbers()[id]]
    return dict(desk.owners())[int(herds[-1])]


STATUS = TITLES.replace("\n", " am;Status\n")


@pytest.mark.parametrize(
    "row, owner, exit, told",
    [
        ("Huber;;tot", "Huber", "day unknown: 'tot'", "tells of an exit in 1 row where 'Abgang am' doesn't"),
        ("Huber;;†", "Huber", "day unknown: '†'", "tells of an exit in 1 row"),
        ("Huber;;geschlachtet Herbst 2021", "Huber", "the month 2021-11: 'geschlachtet Herbst 2021'", "tells of an exit in 1 row"),
        ("Huber;03.04.2022;lebt", "Huber", "2022-04-03", "'Abgang am' says '03.04.2022', and 'Status' says 'lebt'"),
        ("Huber;lebt;verendet", "Huber", "day unknown: 'verendet'", "'Abgang am' says 'lebt', and 'Status' says"),
        ("Huber;sept.-21;tot", "Huber", "the month 2021-09: 'tot'", "'sept.-21' in line 4 is read as 2021-09"),
        ("Huber;;verkauft an Fremd", "Huber", "day unknown: 'verkauft an Fremd'", "tells of an exit in 1 row"),
        ("Huber;;verkauft an Meier", "Meier Ida", "", "owner Meier Ida, before Huber: 'verkauft an Meier' names an owner"),
        ("Huber;01.02.2021;verkauft an Meier Ida", "Meier Ida", "", "owner Meier Ida, before Huber"),
        ("Huber;;aktiv", "Huber", "", ""),
    ],
)
def test_status_beside_exits(desk: Desk, row: str, owner: str, exit: str, told: str) -> None:
    """What a column of words says of an exit is taken where that of the days says none; who was sold to an owner of the
    list has him since then; where the columns disagree it is told."""
    pair = "001;Max;m;01.02.2010;;;Huber;;lebt\n002;Eva;w;03.02.2010;;;Meier Ida;;lebt\n"
    done = desk.take(STATUS + pair + f"003;A;w;3.2.2013;001;002;{row}\n")
    [animal] = [one for one in desk.table("book/ids.csv") if one["id"] == "003"]
    left = [line.split(",")[2] for line in desk.commands() if line.startswith("exit")]
    assert (owner_of(desk, "003"), animal["exit"] or "".join(left)) == (owner, exit)
    moved = [line.split(",")[2] for line in desk.commands() if line.startswith("transfer")]
    assert bool(moved) == (owner != "Huber") and ("01.02.2021" not in row or moved == ["2021-02-01"])
    assert told in done.out.partition("rows below the titles")[0]
    # the same sheet says nothing new
    assert " 0 changed" in desk.take(STATUS + pair + f"003;A;w;3.2.2013;001;002;{row}\n").last


def test_status_that_is_not_read(desk: Desk) -> None:
    """A column of such words is told first where no title says what it has, with what reads it."""
    words = ["tot", "lebt", "verkauft", "lebt"]
    rows = "".join(f"{at + 1:03};;w;2.2.2019;;;Huber;;{word}\n" for at, word in enumerate(words))
    done = desk.take(STATUS.replace("Status", "Bemerkung") + rows)
    first = "to look at: the column 'Bemerkung' isn't read, and 4 cells of it tell that animals live or left"
    assert done.out.startswith(first) and done.commands()[0].endswith("--columns status=Bemerkung")
    desk.typed(done.commands()[0])
    assert [bool(one["exit"]) for one in desk.table("book/ids.csv")] == [True, False, True, False]


def test_rows_that_are_no_animals(desk: Desk) -> None:
    """Headings and notes are left out and told, and taken where somebody says so; a mark repeats the cell above."""
    text = (
        TITLES + PAIR + '003;A;w;3.2.2013;001;002;";\n--- Jahrgang 2020 ---;;;;;;;\n004;B;w;3.2.2020;dito;idem;dito;\n'
        "Alle Angaben ohne Gewähr;;;;;;;\n"
    )
    done = desk.take(text)
    assert [one["id"] for one in desk.table("book/ids.csv")] == ["001", "002", "003", "004"]
    assert {owner_of(desk, id) for id in ("003", "004")} == {"Huber"}
    done.tells(
        "line 5: the row is left out: '--- Jahrgang 2020 ---' reads like a heading or a note, and the row says nothing "
        "else; if it is an animal, say '--animal=--- Jahrgang 2020 ---'",
        "to look at: 2 cells of the column 'Besitzer' repeat the one above: \" in line 4 means 'Huber'",
        "to look at: 1 cell of the column 'Vater' repeats the one above: dito in line 6 means '001'",
    )
    desk.take(text, "--animal", "Alle Angaben ohne Gewähr")
    assert [one["id"] for one in desk.table("book/ids.csv")][-1] == "Alle Angaben ohne Gewähr"
    # the book's animal is one in later sheets too
    assert "Gewähr' reads like" not in desk.take(text).out


NAMED = (
    "001;Chäspi;m;01.02.2010;;;Huber;\n002;Eva;w;03.02.2010;;;Huber;\n009;Rex;m;03.02.2010;;;Huber;\n"
    "003;A;w;3.2.2013;001 / Chäspi;002;Huber;\n004;B;w;3.2.2014;001 oder 009;Eva;Huber;\n"
    "005;C;w;1.2.2016;Chäspi, 001;002;Huber;\n006;D;w;1.2.2017;001;002;Huber;\n"
)


def test_parents_with_more_than_an_id(desk: Desk) -> None:
    """An id beside a name is that animal, and one or the other is unknown; both are told."""
    done = desk.take(TITLES + NAMED)
    assert desk.parents() == {
        "001": ("", ""), "002": ("", ""), "009": ("", ""), "003": ("001", "002"), "004": ("", "002"),
        "005": ("001", "002"), "006": ("001", "002"),
    }  # fmt: skip
    assert "line 6: 004: its sire '001 oder 009' is left out: it may be one or the other, and counts" in done.out
    assert "line 5: 003: inferred: its sire '001 / Chäspi' is 001, whose id stands there" in done.told


def test_do_in_a_column_of_parents(desk: Desk) -> None:
    """It repeats the cell above, unless an animal that can be the parent is called so; an owner may have this name."""
    rows = "003;A;w;3.2.2013;001;002;Huber;\n004;B;w;3.2.2014;do;Do;do;\n005;C;w;3.2.2015;dto;Eva;Huber;\n"
    done = desk.take(TITLES + PAIR + rows)
    assert [desk.parents()[id] for id in ("004", "005")] == [("001", "002"), ("001", "002")]
    assert "2 cells of the column 'Vater' repeat the one above" in done.out and owner_of(desk, "004") == "do"
    desk.take(TITLES + PAIR.replace("Eva", "Do") + rows, "--book", "other")
    listed = desk.listed("list", "--book", "other", "--columns", "id,sire,dam")
    assert [(one["sire"], one["dam"]) for one in listed if one["id"] == "004"] == [("001", "002")]


# words by which the animal beside them isn't the parent, in three languages
DENIED = (
    "nicht 002", "DNA: nicht 002", "002 (falsch!)", "002 gestrichen", "wie 002", "s. 002", "siehe 002", "statt 002",
    "kein 002", "not 002", "002 (wrong)", "002 crossed out", "same as 002", "see 002", "pas 002", "002 (erreur)",
    "faux 002", "comme 002", "002 à vérifier", "nicht Eva", "Eva (falsch)", "not Eva", "wie Eva", "pas Eva",
)  # fmt: skip
# words by which it may be, or is; `Seeblick vom See` is its name
NOT_DENIED = ("002 nicht eingetr.", "002 (not registered)", "002 lt. DNA", "Seeblick vom See 009", "009 (siehe Pass)")
# one or the other, of which one has no row
ONE_OF_TWO = (
    "002 & 099", "002 099", "002/099", "002, 099", "002; 099", "002 - 099", "002 (099)", "099 ex 002", "002 (or 099)",
    "either 002", "entweder 002", "Eva/Bruna", "Bruna / Eva",
)  # fmt: skip
NOT_ONE_OF_TWO = ("002 (2010)", "002 / Evi", "002 (früher 099)", "002 ex 099", "002, 1. Wurf")


def test_words_beside_a_parent(desk: Desk) -> None:
    """A cell that denies an animal, or names one beside another that has no row, or one's sister, has no parent, and
    that is told; what says only more of the animal is that one."""
    young = [*DENIED, *NOT_DENIED, *ONE_OF_TWO, *NOT_ONE_OF_TWO, "Schwester von Eva", "Evas Schwester", "sœur d'Eva"]
    rows = "".join(f'{at};K{at};w;1.2.2014;;"{dam}";Huber;\n' for at, dam in enumerate(young, 100))
    pair = PAIR.replace("Max;m", "Seeblick vom See;w").replace("001", "009")
    done = desk.take(TITLES + pair + rows)
    found = {dam: desk.parents()[f"{at}"][1] for at, dam in enumerate(young, 100)}
    assert {dam: id for dam, id in found.items() if id} == {
        dam: "009" if "009" in dam else "002" for dam in (*NOT_DENIED, *NOT_ONE_OF_TWO)
    }  # fmt: skip
    assert " 0 added" in done.last
    line = 4 + young.index("nicht 002")
    assert f"line {line}: 100: its dam 'nicht 002' is left out: it doesn't say that 002 is the dam, and" in done.told
    told = {*done.told.splitlines()}
    for words, count in (("it may be one or the other", len(ONE_OF_TWO)), ("says how another animal is related", 3)):
        assert sum(words in one for one in told) == count


def test_id_and_name_that_contradict(desk: Desk) -> None:
    """The id is taken, and told with whom the name is."""
    sires = {"003": "001 / Rex", "004": "Rex (001)", "005": "001 Max"}
    rows = "".join(f"{id};K{id};w;1.2.2014;{sire};;Huber;\n" for id, sire in sires.items())
    done = desk.take(TITLES + PAIR + "009;Rex;m;03.02.2010;;;Huber;\n" + rows)
    assert [desk.parents()[id][0] for id in ("003", "004", "005")] == ["001"] * 3
    told = "is 001 by its id, and by its name 009: 001 is taken; if another is meant, write the id of that one"
    found = "to look at: its sire"
    done.tells(f"line 5: 003: {found} '001 / Rex' {told}", f"line 6: 004: {found} 'Rex (001)' {told}")
    assert sum("by its id, and by its name" in one for one in {*done.told.splitlines()}) == 2


def test_two_parents_in_a_cell(desk: Desk) -> None:
    """A pair in one cell, and one or the other by their names, are told; a name with an `x` in it is a name."""
    rows = "003;A;w;1.2.2014;Max x Eva;;Huber;\n004;B;w;1.2.2015;001 × 002;002;Huber;\n"
    rows += "005;C;w;1.2.2016;Max o. Moritz;002;Huber;\n006;X x Y;m;1.2.2013;;;Huber;\n007;D;w;1.2.2016;X x Y;;Huber;\n"
    done = desk.take(TITLES + PAIR + rows)
    pair = "is left out: it names two animals, and counts as unknown; write sire and dam each in their own column"
    done.tells(
        f"line 4: 003: its sire 'Max x Eva' {pair}",
        f"line 5: 004: its sire '001 × 002' {pair}",
        "line 6: 005: its sire 'Max o. Moritz' is left out: it may be one or the other, and counts as unknown",
    )
    parents = desk.parents()
    assert [parents[id] for id in ("003", "004", "005", "007")] == [("", ""), ("", "002"), ("", "002"), ("006", "")]


@pytest.mark.parametrize(
    "word", ["n. bek.", "N/K", "ONC", "fremd", "Zukauf", "not yet reg.", "unbekannt (Weide 3)", "inconnu (saillie en liberté)",
             "Sire unknown", "stray", "pending DNA", "mixed mating", "Fremdbock", "nicht eingetr.", "non déclaré"]
)
def test_words_for_an_unknown_parent(desk: Desk, word: str) -> None:
    done = desk.take(TITLES + PAIR + f"003;A;w;1.2.2014;{word};002;Huber;\n")
    assert desk.parents()["003"] == ("", "002") and " 0 added" in done.last


@pytest.mark.parametrize("word", ["m", "Kastrat"])
def test_sex_against_offspring(desk: Desk, word: str) -> None:
    """The sex is what may be wrong, and the first that is said; the parent stays one in its role."""
    done = desk.take(TITLES + NAMED.replace("Eva;w", f"Eva;{word}"))
    first = (
        f"line 3: 002: to look at: its sex '{word}' is wrong, or its offspring are: it is the dam of 4 animals, as of "
        "003, so it is taken as female"
    )
    assert done.out.splitlines()[0] == first and "isn't female" not in done.told
    assert [desk.parents()[id][1] for id in ("003", "004", "005", "006")] == ["002"] * 4


def test_sex_that_changes_later(desk: Desk) -> None:
    """It is one finding about the sex, and no parent changes, also one that is written by its name, or with it."""
    desk.take(TITLES + NAMED)
    before = desk.parents()
    done = desk.take(TITLES + NAMED.replace("Chäspi;m", "Chäspi;w").replace("Eva;w", "Eva;m"))
    assert desk.parents() == before and " 0 changed" in done.last
    assert done.out.count("is wrong, or its offspring are") == 2 and "isn't" not in done.told


def test_sex_that_changes_for_one_offspring(desk: Desk) -> None:
    """What the book has given speaks against the cell also when the sheet is taken again."""
    rows = PAIR + "003;A;w;1.2.2014;001;002;Huber;\n"
    desk.take(TITLES + rows)
    for _ in range(2):
        done = desk.take(TITLES + rows.replace("Eva;w", "Eva;m"))
        assert "its sex 'm' is wrong, or its offspring are: it is the dam of 1 animal, 003, and female in the book" in done.out
        assert " 0 changed" in done.last and desk.parents()["003"] == ("001", "002")


def test_parents_without_a_row_any_more(desk: Desk) -> None:
    """A parent whose animal lost its row in a later sheet is still that animal, however it is written."""
    desk.take(TITLES + NAMED)
    rows = [row for row in NAMED.splitlines(keepends=True) if row[:3] not in ("001", "002")]
    before = desk.parents()
    done = desk.take(TITLES + "".join(rows) + "007;N;w;1.2.2020;1 / Chäspi;Eva;Huber;\n", "--anyway")
    assert desk.parents() == before | {"007": ("001", "002")} and " 0 added, 2 gone" in done.last


SECOND_ROW = "777;D;w;1.2.2017;001;002;Huber;\n008;N;w;1.2.2020;001;006;Huber;\n"


@pytest.mark.parametrize("is_first", [True, False])
def test_one_animal_with_two_rows(desk: Desk, is_first: bool) -> None:
    """A retagged animal whose former row is there too is told with the row that is to go, which makes it one."""
    desk.take(TITLES + NAMED)
    later = SECOND_ROW + NAMED if is_first else NAMED + SECOND_ROW
    line, former_line = (2, 10) if is_first else (9, 8)
    told = (
        f"line {line}: 777: to look at: 006 (line {former_line}) has its name and its birth day too: did that one get "
        f"777 as its new tag? If so, take line {former_line} with 006 out, and import the sheet again with --new-tag "
        "006=777; if this one is taken, undo it first"
    )
    desk.take(TITLES + later, "--preview").tells(told)
    desk.take(TITLES + later).tells(told)
    desk.good("undo")
    done = desk.take(TITLES + later.replace("006;D;w;1.2.2017;001;002;Huber;\n", ""), "--new-tag", "006=777")
    assert "777" in desk.numbers() and "006" not in desk.numbers() and desk.parents()["008"] == ("001", "777")
    assert " 0 added, 0 gone" in done.last


def test_row_of_a_former_id(desk: Desk) -> None:
    """Once the book has the new tag the row of the former id is the one that is to go, and none of two new rows is."""
    both = "{} (line {}) has its name and its birth day too: are they one animal? If so, take out the row whose id it "
    both += "hasn't any more, this one or line {} ({}), and write the other id where offspring name it"
    done = desk.take(TITLES + NAMED + SECOND_ROW, "--book", "two")
    done.tells(f"line 9: 777: to look at: {both.format('006', 8, 8, '006')}")
    desk.take(TITLES + NAMED)
    told = (
        "line 9: 777: to look at: its former id 006 has a row too, line 8, with its name and its birth day: take line "
        "8 out, or 006 counts as another animal"
    )
    # also if both are said at once, and if the row of before is the book's next one
    desk.take(TITLES + NAMED + SECOND_ROW, "--new-tag", "006=777", "--preview").tells(told)
    desk.take(TITLES + NAMED.replace("006;D", "777;D"), "--new-tag", "006=777")
    desk.take(TITLES + NAMED + SECOND_ROW, "--preview").tells(told)
    done = desk.take(TITLES + NAMED.replace("006;D;w;1.2.2017;001;002;Huber;\n", "") + SECOND_ROW)
    assert "former id" not in done.told and "006" not in desk.numbers()


def test_new_tag(desk: Desk) -> None:
    """A row with the name, the birth day and the parents of an animal that has no row any more is proposed as that one,
    and is it where somebody says so, also as a parent of others; undone, all is as before."""
    desk.take(TITLES + NAMED)
    later = NAMED.replace("006;D", "777;D") + "008;N;w;1.2.2020;001;006;Huber;\n"
    done = desk.take(TITLES + later, "--preview")
    assert "line 8: 777: to look at: it has the name, the birth day and the parents of 006" in done.out
    # which is told once
    assert "has its name and its birth day too" not in done.told
    [command] = [one for one in done.commands() if "--new-tag" in one]
    assert " 8 animals, 1 new" in desk.typed(command.replace(" --preview", "")).last
    assert desk.parents()["008"] == ("001", "777") and "006" not in desk.numbers()
    # also in the next sheet, which says the old tag of a parent
    assert " 0 new, 0 changed" in desk.take(TITLES + later).last
    desk.good("undo", "--to", "1")
    assert "777" not in desk.numbers() and "006" in desk.numbers()


FAMILY = NAMED + "011;Kid;w;1.2.2019;001;006;Huber;\n012;Kit;w;1.2.2021;001;011;Huber;\n"


def test_new_tags_of_a_family(desk: Desk) -> None:
    """A dam, her kid and that one's are proposed at once, each by the new tag of its dam; each is a decision."""
    desk.take(TITLES + FAMILY)
    later = FAMILY.replace("006", "706").replace("011", "711").replace("012", "712")
    done = desk.take(TITLES + later, "--preview", "--anyway")
    told = "to look at: it has the name, the birth day and the parents of"
    assert [f"{id}: {told} {before}" in done.out for id, before in (("706", "006"), ("711", "011"), ("712", "012"))] == [True] * 3
    done = desk.take(TITLES + later, "--new-tag", "011=711,006=706,012=712")
    assert " 0 new, 0 changed" in done.last and desk.parents()["712"] == ("001", "711")


@pytest.mark.parametrize("note", ["012", "alte Marke 012", "012 (alt)", "früher: 12"])
def test_old_tag_in_another_column(desk: Desk, note: str) -> None:
    """A new row that has it beside another name is asked about; one of another day isn't."""
    titles = TITLES.replace("\n", ";Bemerkung\n")
    rows = [f"{row};" for row in FAMILY.splitlines()]
    desk.take(titles + "\n".join(rows) + "\n")
    later = titles + "\n".join(rows[:-1]) + f"\n712;Kitty;w;1.2.2021;001;011;Huber;;{note}\n"
    done = desk.take(later, "--preview")
    assert f"712: to look at: 'Bemerkung' has '{note}', and 012 has no row any more: did that one get a new tag?" in done.out
    [command] = [one for one in done.commands() if "--new-tag" in one]
    assert " 0 new" in desk.typed(command.replace(" --preview", "")).last and "012" not in desk.numbers()
    assert "new tag" not in desk.take(later.replace("712;Kitty;w;1.2.2021", "713;Kitty;w;1.2.2022"), "--anyway").out


def workbook(rows: list[list[object]], formula: str = "", merged: str = "") -> bytes:
    """An `.xlsx` file in which texts are texts, also those that begin with an equals sign; and one with a formula."""
    book, data = openpyxl.Workbook(), io.BytesIO()
    sheet = book.active
    for row in rows:
        sheet.append(row)
    for cell in (cell for row in sheet.iter_rows() for cell in row if str(cell.value).startswith("=")):
        cell.data_type = "s"
    if formula:
        sheet[formula] = "=1+1"
    if merged:
        sheet.merge_cells(merged)
    book.save(data)
    return data.getvalue()


TABLE: list[list[object]] = [
    ["Ohrmarke", "Name", "Geschlecht", "geb", "Vater", "Mutter", "Besitzer", "Bemerkung"],
    ["001", "=Alpha", "m", "1.2.2010", None, None, "Huber", "ok"],
    ["002", "Eva", "w", "1.2.2010", None, None, None, None],
    ["003", "Ada", "w", "1.2.2013", "001", "002", "Meier", None],
]


def test_workbook(desk: Desk) -> None:
    """A text that begins with an equals sign is one, a formula without a value stops only where its column is read, and
    a cell that is merged with the one below stands for both."""
    desk.write("herd.xlsx", workbook(TABLE, "H3", "G2:G3"))
    desk.good("import", "herd.xlsx")
    assert [one["name"] for one in desk.table("book/ids.csv")] == ["'=Alpha", "Eva", "Ada"]
    assert [owner_of(desk, id) for id in ("001", "002", "003")] == ["Huber", "Huber", "Meier"]
    desk.write("herd.xlsx", workbook(TABLE, "G3"))
    desk.wrong("has 1 formula without a value, the first in the cell G3", "import", "herd.xlsx")


def test_names_are_no_ids(desk: Desk) -> None:
    """Where no title is known for the ids, that is asked, though the parents are written by their names."""
    text = "Rufname;Geschlecht;geb;Vater;Mutter\nMax;m;1.2.2010;;\nEva;w;1.2.2010;;\nAda;w;1.2.2013;Max;Eva\n"
    desk.wrong("no column for id is found", "import", desk.write("sheet.csv", text))
    desk.good("import", "sheet.csv", "--columns", "id=Rufname")
    assert desk.parents()["Ada"] == ("Max", "Eva")


def test_exits_that_the_next_list_lacks(desk: Desk) -> None:
    """The first line says how many animals would live again."""
    rows = "".join(f"{100 + at};;w;1.2.2019;001;002;Huber;1.3.2021\n" for at in range(9))
    desk.take(TITLES + PAIR + rows)
    done = desk.take(TITLES + PAIR + rows.replace("1.3.2021", "", 8), "--preview")
    assert done.out.startswith("to look at: 8 animals that had left count as living again, the first are 100 (line 4)")
    done = desk.take(TITLES + PAIR + rows.replace("1.3.2021", ""), "--preview")
    assert done.out.startswith("the column 'Abgang' tells of no exit, and 9 animals that had left would count as living again")
