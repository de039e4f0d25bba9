"""Letters for sexes that stand for one in some lists, and for another one elsewhere, as `W`; and males that are
castrated."""
from __future__ import annotations

import pytest

from gudokeyi.ingest.findings.sexes import UnknownSex
from gudokeyi.ingest.sexes import Sexes
from front_desk.desk import Desk, Done

TITLES = "Tag,Name,Sex,DOB,Sire,Dam\n"
# a ewe, a ram, and two offspring of theirs
FLOCK = "UK001,Ann,{f},2015-03-01,,\nUK002,Ben,{m},2015-03-02,,\nUK003,Cal,{w},2018-03-13,UK002,UK001\n"
MORE = "UK004,Dan,{w},2019-03-14,UK002,UK001\nUK005,Eva,{f},2020-03-15,UK002,UK001\n"
OF_WEIBLICH = "read as female, as for weiblich"


def sexes_of(desk: Desk, *ids: str) -> list[str]:
    return [desk.good("show", id).out.splitlines()[2].split(maxsplit=1)[1] for id in ids]


@pytest.mark.parametrize(
    "male, female, letter",
    [("M", "F", "W"), ("m", "f", "w"), ("Male", "Female", "W"), ("Ram", "Ewe", "W"), ("Hengst", "Stute", "W")],
)
def test_wethers(desk: Desk, male: str, female: str, letter: str) -> None:
    """`W` beside another word for females is a castrated male, which is told, and may be said otherwise."""
    sheet = TITLES + (FLOCK + MORE).format(m=male, f=female, w=letter)
    done = desk.take(sheet)
    told = (
        f"to look at: '{letter}' (2 animals) of the column 'Sex' is read as a castrated male, as for wether or Wallach, since "
        f"females are written differently there: '{female}' (2 animals)"
    )
    assert told in done.out and "words for sexes" not in done.told
    assert sexes_of(desk, "UK002", "UK003", "UK004", "UK005") == ["male", *["male, castrated"] * 2, "female"]
    assert " 0 changed" in desk.take(sheet).last
    [command] = [one for one in done.commands() if one.endswith(f"--sexes {letter}=f")]
    desk.typed(command)
    assert sexes_of(desk, "UK003") == ["female"] and "wether" not in desk.take(sheet).told


@pytest.mark.parametrize("text", ["W (gelded)", "W (wether)", "wether", "W - pet"])
def test_wethers_in_words(desk: Desk, text: str) -> None:
    """Also beside what else the cell says; what it is taken for is told as that."""
    done = desk.take(TITLES + FLOCK.format(m="M", f="F", w="W") + MORE.format(f="F", w=text))
    is_taken = f"words for sexes are read as others of the column: '{text}' as a castrated male" in done.out
    assert is_taken == (text != "wether")
    assert sexes_of(desk, "UK001", "UK002", "UK003", "UK004") == ["female", "male", *["male, castrated"] * 2]


@pytest.mark.parametrize(
    "texts, wanted",
    [
        # beside M alone it is weiblich, also where a word of German lists stands besides
        (("M", "W"), "MF"), (("m", "w", "weiblich", "F"), "MFFF"), (("Bock", "Ziege", "m", "w"), "MFMF"),
        (("Bock", "Aue", "W"), "MFF"),
        (("M", "F", "W"), "MFC"), (("Ram", "Ewe", "wether", "W"), "MFCC"),
        # beside Widder too, but not where A stands for Aue
        (("Widder", "Aue", "W"), "MFF"), (("Widder", "Aue", "w?"), "MFF"), (("Widder", "Aue", "W", "A"), "MFMF"),
        (("Widder", "Hammel", "Aue", "w"), "MCFF"), (("Widder", "ewe", "W"), "MFM"), (("Wallach", "Zibbe", "W"), "CFC"),
        (("M", "F", "W", "W"), "MFFF"), (("R", "E", "W"), "MFC"), (("B", "D", "W"), "MFC"),
        (("m", "w", "w (gelded)", "w (kastriert)"), "MFCF"), (("m", "w", "w (not gelded)"), "MFF"),
        # beside letters that aren't known none is asked alone
        (("A", "W"), "  "), (("B", "W"), "  "), (("B", "W", "W"), " FF"), (("A", "W", "W"), "   "),
        (("A", "W", "M"), " FM"), (("A", "W", "unbekannt", "-"), "    "), (("W", "-", "?", "1"), "F   "),
    ],
)  # fmt: skip
def test_letter(texts: tuple[str, ...], wanted: str) -> None:
    found = [*map(Sexes([*texts], {}).meaning, texts)]
    assert "".join("C" if one.is_castrated else one.sex or " " for one in found) == wanted


@pytest.mark.parametrize(
    "dams, is_told", [((), True), (("1",), True), (("1", "Anna"), True), (("1", "Anna", "3"), False)]
)
def test_letter_of_dams(desk: Desk, dams: tuple[str, ...], is_told: bool) -> None:
    """As the letter of dams it is a female; it is told where few are, and it may be a mistake."""
    rows = "".join(f"{id},{name},w,2010-01-01,,\n" for id, name in enumerate(("Ada", "Anna", "Asta", "Alma"), 1))
    rows += "7,Bert,m,2010-01-01,,\n8,Bea,f,2010-01-01,,\n"
    progeny = "".join(f"c{at},C,m,2015-01-01,7,{dam}\n" for at, dam in enumerate(dams))
    done = desk.take(TITLES + rows + progeny)
    assert (OF_WEIBLICH in done.out) == is_told and "castrated male, as for" not in done.told
    assert sexes_of(desk, "1", "2", "4") == ["female"] * 3
    assert any(one.endswith("--sexes w=mc") for one in done.commands()) == is_told


def test_letter_of_mistaken_dam(desk: Desk) -> None:
    """One that is named as a dam beside many others is a castrated male too, and no dam."""
    rows = "".join(f"f{at},,F,2010-01-01,,\n" for at in range(9)) + "2,,M,2010-01-01,,\n"
    progeny = "".join(f"c{at},,M,2015-01-01,2,f{at}\n" for at in range(9))
    done = desk.take(TITLES + rows + progeny + "w1,,W,2010-01-01,,\nw2,,W,2010-01-01,,\nc9,,M,2015-01-01,2,w1\n")
    assert "'W' (2 animals) of the column 'Sex' is read as a castrated male" in done.out
    assert sexes_of(desk, "w1", "w2") == ["male, castrated"] * 2
    assert "its dam w1 (line 21) is left out: it isn't female (refusal 6)" in done.told


def test_letter_of_few(desk: Desk) -> None:
    """Where `F` is the letter of dams, wethers may be more than these."""
    rows = "".join(f"{id},,W,2012-01-01,2,1\n" for id in range(3, 9))
    done = desk.take(TITLES + "1,,F,2010-01-01,,\n2,,M,2010-01-01,,\n" + rows)
    assert "'W' (6 animals) of the column 'Sex' is read as a castrated male" in done.out
    assert sexes_of(desk, "3", "8") == ["male, castrated"] * 2


GERMAN_TITLES = "Ohrmarke,Name,{sex},Geburt,Vater,Mutter\n"
PAIR = "DE100,Anna,{f},2015-03-01,,\nDE101,Bert,m,2015-03-02,,\n"
LAMBS = "DE102,Cora,w,2018-03-02,DE101,DE100\nDE103,Dora,w,2019-03-02,DE101,DE100\n"


@pytest.mark.parametrize("titles", [TITLES, GERMAN_TITLES.format(sex="Geschlecht")])
def test_letter_of_females_of_the_book(desk: Desk, titles: str) -> None:
    """A letter by which animals of the book are females stays one where somebody writes `F` for others, and is told."""
    desk.take(titles + PAIR.format(f="w") + LAMBS)
    numbers = desk.numbers()
    done = desk.take(
        titles + PAIR.format(f="F") + LAMBS
        + "DE105,Fine,F,2021-03-02,DE101,DE100\nDE107,Hera,F,2021-03-02,DE101,DE100\nDE106,Gina,w,2022-03-02,DE101,DE100\n"
    )
    assert f"'w' (3 animals) of the column '{titles.split(',')[2]}' is {OF_WEIBLICH}" in done.out
    assert [one.rsplit(" ", 1)[1] for one in done.commands()] == ["w=mc", "w=m"]
    assert done.last.startswith("book: 7 animals, 3 new, 0 changed") and "the book has it as" not in done.told
    assert sexes_of(desk, "DE102", "DE103", "DE106") == ["female"] * 3
    assert numbers.items() <= desk.numbers().items()


def test_letter_of_wethers_of_the_book(desk: Desk) -> None:
    """One by which they are castrated males stays that too, though it is the more frequent, and no dam is there."""
    begin = TITLES + "1,,F,2010-01-01,,\n2,,M,2010-01-01,,\n3,,W,2012-01-01,,\n"
    desk.take(begin)
    done = desk.take(begin + "4,,W,2013-01-01,,\n5,,W,2013-01-01,,\n")
    assert "'W' (3 animals) of the column 'Sex' is read as a castrated male" in done.out and " 0 changed" in done.last
    assert sexes_of(desk, "3", "5") == ["male, castrated"] * 2


@pytest.mark.parametrize(
    "titles, female, wanted",
    [
        (GERMAN_TITLES.format(sex="Geschlecht"), "F", "female"), (GERMAN_TITLES.format(sex="m/w"), "f", "female"),
        (GERMAN_TITLES.format(sex="Sex"), "F", "female"), (TITLES, "F", "male, castrated"),
        # beside a mare it is Wallach
        (GERMAN_TITLES.format(sex="Geschlecht"), "Stute", "male, castrated"),
    ],
)  # fmt: skip
def test_letter_of_german_titles(desk: Desk, titles: str, female: str, wanted: str) -> None:
    """Below German titles it is weiblich beside a few `F`, also where these alone are dams, and is told."""
    rows = "".join(f"DE30{at},Wa{at},w,2017-04-0{at},DE101,DE100\n" for at in range(1, 8))
    done = desk.take(titles + PAIR.format(f=female) + rows)
    read = OF_WEIBLICH if wanted == "female" else "read as a castrated male, as for wether or Wallach"
    assert f"'w' (7 animals) of the column '{titles.split(',')[2]}' is {read}" in done.out
    assert sexes_of(desk, "DE301", "DE307") == [wanted] * 2
    assert any(one.endswith("w=mc" if wanted == "female" else "w=f") for one in done.commands())


@pytest.mark.parametrize("parents, wanted", [("", "female"), (",,DE103", "female"), (",DE103,", "male"), (",DE103,DE103", "female")])
def test_letter_beside_widder(desk: Desk, parents: str, wanted: str) -> None:
    """It is weiblich there and told, unless animals that have it are sires."""
    rows = "DE100,Anna,Aue,2015-03-01,,\nDE101,Bert,Widder,2015-03-02,,\nDE103,Dora,w,2015-03-02,,\n"
    rows += f"DE105,Eva,Aue,2019-03-02{parents or ',,'}\n"
    done = desk.take(GERMAN_TITLES.format(sex="Geschlecht") + rows)
    assert sexes_of(desk, "DE103") == [wanted]
    told = f"'w' (1 animal) of the column 'Geschlecht' is {OF_WEIBLICH}, though females are written differently there "
    told += "too: 'Aue'"
    assert (told in done.out) == (wanted == "female") and ("'w' as 'Widder'" in done.out) == (wanted == "male")


@pytest.mark.parametrize("male, female", [("m", "w"), ("Widder", "Aue"), ("männlich", "weiblich"), ("♂", "♀"), ("1,0", "0,1")])
def test_marks_in_two_columns(desk: Desk, male: str, female: str) -> None:
    """Of these it is told that they aren't read, and not that a parent stands there; nor beside a column of sexes."""
    titles, sex = f"Ohrmarke;Name;{male};{female};Geburt;Vater;Mutter{{}}\n", ";Geschlecht"
    rows = "1;Ada;;x;01.03.2015;;{}\n2;Bert;x;;02.03.2015;;{}\n3;Cora;;x;03.03.2018;2;1{}\n"
    told = (
        f"to look at: no sex is read: the columns '{male}' and '{female}' have 3 marks for it, the first in line 2, but "
        "sexes are read from one column with words such as m and f: each sex is inferred; give the list such a column"
    )
    done = desk.take(titles.format("") + rows.format("", "", ""), "--preview")
    done.shows(told)
    assert "sex" in done.told and "a parent in" not in done.told
    done = desk.take(titles.format(sex) + rows.format(";w", ";m", ";w"))
    assert "no sex is read" not in done.told and " 0 inferred" in done.last


@pytest.mark.parametrize("cell", ["", "2015-03-04", "Rex"])
def test_no_marks_of_sexes(desk: Desk, cell: str) -> None:
    """Neither where few rows have one, nor where cells say more."""
    rows = f"1;Ada;;{cell};2015-03-01;;\n2;Bert;x;;2015-03-02;;\n3;Cora;;{cell};2018-03-03;2;1\n4;Dora;;;2018-03-03;2;1\n"
    assert "no sex is read" not in desk.take(f"Ohrmarke;Name;m;w;Geburt;Vater;Mutter\n{rows}").told


NONE_KNOWN = "no word for a sex of the column 'Sex' is known: "
OTHER_LETTERS = "1,Ada,C,2015-03-01,,\n2,,B,2015-03-02,,\n3,,C,2017-03-02,2,Ada\n4,,S,2018-03-02,2,3\n5,,B,2018-03-02,2,3\n"


def said_by(done: Done) -> list[str]:
    """What each command says of sexes."""
    return [one.rsplit(" ", 1)[1] for one in done.commands()]


def test_letters_known_by_offspring(desk: Desk) -> None:
    """Of letters of which none is known it is told what the animals' offspring say, and all that these say is said at
    once; a letter of no parent is asked by itself."""
    done = desk.run("import", desk.write("sheet.csv", TITLES + OTHER_LETTERS))
    told = "'C' (2 animals, 2 of them dams), 'B' (2 animals, 1 of them a sire), 'S' (1 animal): write M or F, or say which "
    assert done.status == 1 and f"{NONE_KNOWN}{told}sex each word is by --sexes" in done.err
    assert said_by(done) == ["C=f,B=m", "C=f", "B=m", "S=m", "S=f"]
    done = desk.typed(done.commands()[0])
    assert said_by(done) == ["S=m", "S=f"] and NONE_KNOWN not in done.out
    assert sexes_of(desk, "1", "2", "3", "5") == ["female", "male", "female", "male"]


@pytest.mark.parametrize(
    "rows, said",
    [
        # one letter of two has offspring; both are sires; a dam by mistake; a number; one letter alone
        ("1,,B,2015-03-01,,\n2,,K,2015-03-02,,\n3,,K,2017-03-02,1,\n", ["B=m", "K=m", "K=f", "K=mc"]),
        ("1,,B,2015-03-01,,\n2,,R,2015-03-02,,\n3,,R,2017-03-02,1,\n4,,R,2017-03-02,2,\n", ["R=m,B=m", "R=m", "B=m"]),
        ("1,,B,2015-03-01,,\n2,,Q,2015-03-02,,\n3,,Q,2017-03-02,1,\n4,,Q,2017-03-02,,1\n", ["Q=m,B=f", "Q=f,B=m"]),
        ("1,,7,2015-03-01,,\n2,,8,2015-03-02,,\n3,,9,2017-03-02,1,2\n", ["7=m,8=f", "7=m", "8=f"]),
        ("1,,B,2015-03-01,,\n2,,B,2015-03-02,,\n3,,B,2017-03-02,1,2\n", ["B=m", "B=f"]),
    ],
)  # fmt: skip
def test_what_offspring_leave_open(desk: Desk, rows: str, said: list[str]) -> None:
    assert said_by(desk.run("import", desk.write("sheet.csv", TITLES + rows))) == said


@pytest.mark.parametrize(
    "sires, dams, sex", [(1, 0, "m"), (0, 1, "f"), (41, 2, "m"), (2, 41, "f"), (40, 2, ""), (1, 1, ""), (0, 0, "")]
)
def test_sex_by_offspring(sires: int, dams: int, sex: str) -> None:
    """A few may be named by mistake."""
    assert UnknownSex("B", 100, sires, dams).sex() == sex


def test_two_letters_asked_at_once(desk: Desk) -> None:
    """`W` and `A` are asked together, and nothing is taken before."""
    sheet = TITLES + "1,,A,2015-03-01,,\n2,,W,2015-03-02,,\n3,,A,2017-03-02,,\n4,,W,2018-03-02,,\n"
    done = desk.run("import", desk.write("sheet.csv", sheet))
    assert done.status == 1 and f"{NONE_KNOWN}'A' (2 animals), 'W' (2 animals): write M or F" in done.err
    assert said_by(done) == ["A=m,W=f", "A=f,W=m"]
    desk.typed(done.commands()[1])
    assert sexes_of(desk, "1", "2") == ["female", "male"]


@pytest.mark.parametrize("letter", ["k", "C", "G"])
def test_castrated_asked(desk: Desk, letter: str) -> None:
    """A letter that may be that of a castrated male is asked so; a text that says it is told as one."""
    done = desk.take(TITLES + FLOCK.format(m="m", f="f", w="m (kastriert)") + f"UK009,Ida,{letter},2019-03-14,,\n")
    assert "words for sexes are read as others of the column: 'm (kastriert)' as a castrated male" in done.out
    [command] = [one for one in done.commands() if one.endswith(f"--sexes {letter}=mc")]
    desk.typed(command)
    assert sexes_of(desk, "UK003", "UK009") == ["male, castrated"] * 2
