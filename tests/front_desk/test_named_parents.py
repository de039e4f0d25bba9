"""Parents that are written by their names."""
from __future__ import annotations

import pytest

from front_desk.desk import CALLED, Desk

MEANT = "if another is meant, write the id of that one"


def test_named_parents(desk: Desk) -> None:
    """A parent that is no id, but one animal's name, is that animal where it can be it; it is told with the
    line."""
    sheet = """\
        id;name;sex;born;sire;dam
        R1;Max;M;2001-01-01;;
        R2;Moritz;M;2001-02-01;;
        E1;Lotte;F;2002-01-01;;
        E2;Lotte;F;2002-02-01;;
        E3;Änne;F;2002-03-01;;
        E4;Rosi;F;2002-03-01;;
        R5;Leo;M;2001-03-01;;
        L1;Moritz;M;2004-01-01;moritz;änne
        L2;;F;2004-02-01;Max;Lotte
        L3;;F;2000-01-01;Leo;Moritz
        L4;;F;2004-02-01;Rosi;
        L6;;F;2004-02-01;Leo;Rosi
        L7;;F;2004-02-01;;R1
        """
    done = desk.take(sheet)
    done.tells(
        f"line 9: L1: inferred: its sire 'moritz' is R2 by its name: {MEANT}",
        f"line 9: L1: inferred: its dam 'änne' is E3 by its name: {MEANT}",
        f"line 10: L2: inferred: its sire 'Max' is R1 by its name: {MEANT}",
        f"line 13: L6: inferred: its dam 'Rosi' is E4 by its name: {MEANT}",
        (
            "line 10: Lotte: added: the dam of L2 has no row: added without parents (2 animals have this name, E1,"
            " E2: write the id of the one that is meant)"
        ),
        "line 11: Leo: added: the sire of L3 and of 1 more has no row: added without parents (is R5 meant?)",
        (
            "line 11: Moritz: added: the dam of L3 has no row: added without parents (2 animals have this name, R2,"
            " L1: write the id of the one that is meant)"
        ),
        "line 12: Rosi: added: the sire of L4 has no row: added without parents (is E4 meant?)",
        "line 14: L7: its dam R1 (line 2) is left out: it isn't female (refusal 6)",
    )
    assert " 8 inferred, 1 left out (1 parent), 4 added, 0 gone" in done.last
    parents = desk.parents()
    wanted = {
        "L1": ("R2", "E3"),
        "L2": ("R1", "Lotte"),
        "L3": ("Leo", "Moritz"),
        "L4": ("Rosi", ""),
        "L6": ("Leo", "E4"),
    }
    assert wanted.items() <= parents.items()
    # a later animal of the name doesn't change what is in the book, but a new calf may be of either
    more = "E9;Änne;F;2010-01-01;;\nL5;;F;2012-01-01;;Moritz\nL9;;F;2012-01-01;;Änne\n"
    done = desk.take(sheet + more.replace("\n", "\n            "))
    assert desk.parents()["L1"] == ("R2", "E3")
    assert " 0 changed" in done.last
    assert desk.parents()["L9"] == ("", "Änne")


def test_named_parent_that_comes_later(desk: Desk) -> None:
    """A row that comes later is found by its name, and a founder that stood for it is no parent any more."""
    desk.take("id,name,sex,born,sire,dam\nc,,F,2004-01-01,Hans,\n")
    grown = "id,name,sex,born,sire,dam\nc,,F,2004-01-01,Hans,\nH1,Hans,M,2000-01-01,,\n"
    done = desk.take(grown)
    stays = "no animal has it as a parent any more, and stays in the book as it is"
    done.tells(
        f"line 2: c: inferred: its sire 'Hans' is H1 by its name: {MEANT}",
        "line 2: c: changed: sire: H1, before Hans",
        f"Hans: gone: {stays}",
    )
    assert ", 1 gone: " in done.last
    assert done.commands() == [f"{CALLED} import sheet.csv --drop-gone"]
    why = "as in the book, where it was inferred: from its offspring"
    done.tells(f"Hans: inferred: birth day 2002-01-01, {why}")
    assert desk.numbers()["Hans"] == "HOLGBRM000000000001"
    done = desk.take(grown, "--drop-gone")
    done.tells("Hans: gone: no animal has it as a parent any more: it is dropped from the book")
    assert desk.numbers().keys() == {"c", "H1"}
    assert desk.parents()["c"] == ("H1", "")


def test_named_parent_with_another_name(desk: Desk) -> None:
    """A cell that is as it was means the same animal, whatever that is called now, and whoever else has its name."""
    sheet = "id,name,sex,born,sire,dam\nR1,Max,M,2001-01-01,,\nL1,,F,2004-01-01,Max,\n"
    desk.take(sheet)
    for more in "", "R9,Max,M,2002-01-01,,\nL2,,F,2005-01-01,Max,\n":
        done = desk.take(sheet.replace("R1,Max", "R1,Maximilian") + more)
        done.tells(
            "line 3: L1: inferred: its sire 'Max' is R1 as before, which has another name now: if another is meant, "
            "write the id of that one"
        )
        assert desk.parents()["L1"] == ("R1", "") and " 0 added" in done.last
    assert desk.parents()["L2"] == ("R9", "")
    # nor is an id meant that is nearly this and came since
    desk.take(sheet.replace("R1,Max", "R1,Maximilian") + "max,,M,2002-01-01,,\n")
    assert desk.parents()["L1"] == ("R1", "")
    near = sheet.replace("R1,Max", "07,").replace("Max", "7")
    desk.take(near, "--book", "near")
    told = "line 3: L1: inferred: its sire '7' is 07, whose id differs only in case, blanks or zeros"
    assert told in desk.take(near + "007,,M,2002-01-01,,\n", "--book", "near").told


def test_named_without_accents(desk: Desk) -> None:
    """Capitals often lack accents. One whose name is written so, with or without, is preferred."""
    rows = "E1;Étoile;F;2001-01-01;;\nE2;Zoe;F;2001-01-01;;\nE3;Zoé;F;2001-01-01;;\nE4;Bärbel;F;2001-01-01;;\n"
    young = "L1;;F;2004-01-01;;ETOILE\nL2;;F;2004-01-01;;ZOE\nL3;;F;2004-01-01;;Barbel\nL4;;F;2004-01-01;;Nóra\n"
    sheet = f"id;name;sex;born;sire;dam\n{rows}{young}"
    told = [f"line 6: L1: inferred: its dam 'ETOILE' is E1 by its name: {MEANT}"]
    desk.take(sheet).tells(*told)
    found = {id: dam for id, (_, dam) in desk.parents().items() if id[0] == "L"}
    assert found == {"L1": "E1", "L2": "E2", "L3": "E4", "L4": "Nóra"}
    done = desk.take(sheet)
    done.tells(*told)
    assert " 0 changed" in done.last
    # two that differ in accents alone are told where neither is written so
    done = desk.take(sheet + "E5;Etoilé;F;2001-01-01;;\nL5;;F;2004-01-01;;Etoile\n", "--book", "other")
    done.tells(
        "line 6: ETOILE: added: the dam of L1 and of 1 more has no row: added without parents (2 animals have this name, "
        "E1, E5: write the id of the one that is meant)"
    )


def test_name_that_one_offspring_cannot_have(desk: Desk) -> None:
    """Of many offspring the one that is older is told as where the id is written, also in later sheets, and those that
    can have the animal keep it; one of two with a name is no word for an unknown parent."""
    rows = "R1,Max,M,2010-01-01,,\nR2,Leo,M,2001-01-01,,\nR3,Leo,M,2001-02-01,,\n"
    rows += "".join(f"L{at},,F,{2010 + at}-06-01,Max,\n" for at in range(1, 4)) + "L0,,F,2009-06-01,Max,\n"
    rows += "K1,,F,2004-06-01,Leo,\nK2,,F,2005-06-01,Leo,\n"
    for more in "", "L9,,F,2020-01-01,Max,\n":
        done = desk.take("id,name,sex,born,sire,dam\n" + rows + more)
        done.tells(
            "line 8: L0: its sire R1 (line 2, born 2010-01-01) is left out: it isn't at least a day older (refusal 7); L0 "
            "was born 2009-06-01",
            "to look at: Leo has no row, and is the sire of 2: 2 animals have this name, R2, R3: write the id of the one "
            "that is meant",
        )
        assert "unknown parent" not in done.told and "Max" not in desk.numbers()
        assert [desk.parents()[f"L{at}"][0] for at in range(4)] == ["", "R1", "R1", "R1"]
    assert desk.parents()["L9"] == ("R1", "")


def test_name_of_a_male_and_of_a_female(desk: Desk) -> None:
    """A name is that of the one male as a sire and of the one female as a dam, where all sexes are known; a founder
    that stood for it is no parent any more."""
    young = "L1,,F,2004-01-01,Toni,\nL2,,F,2004-02-01,,toni\nL3,,F,2004-03-01,Toni,Toni\n"
    desk.take("id,name,sex,born,sire,dam\nT1,Toni,M,2001-01-01,,\nT2,Toni,,2001-02-01,,\n" + young)
    assert desk.parents()["L1"] == ("Toni", "") and "T1" in desk.numbers()
    sheet = "id,name,sex,born,sire,dam\nT1,Toni,M,2001-01-01,,\nT2,Toni,F,2001-02-01,,\n" + young
    for more in "", "T3,Toni,F,2009-01-01,,\n":
        done = desk.take(sheet + more, "--drop-gone")
        assert [desk.parents()[id] for id in ("L1", "L2", "L3")] == [("T1", ""), ("", "T2"), ("T1", "T2")]
        assert "Toni" not in desk.numbers() and " 0 added" in done.last
    done = desk.take(sheet, "--book", "new")
    done.tells(
        f"line 4: L1: inferred: its sire 'Toni' is T1 by its name: {MEANT}",
        f"line 5: L2: inferred: its dam 'toni' is T2 by its name: {MEANT}",
        f"line 6: L3: inferred: its sire 'Toni' is T1 by its name: {MEANT}",
        f"line 6: L3: inferred: its dam 'Toni' is T2 by its name: {MEANT}",
    )
    assert " 0 changed" in desk.take(sheet, "--book", "new").last
    # the name says what the id said, so the sire by hand stays
    by_id = sheet.replace("L1,,F,2004-01-01,Toni", "L1,,F,2004-01-01,T1") + "S,,M,2001-03-01,,\n"
    desk.take(by_id, "--book", "hand")
    desk.good("correct", "L1", "--sire", "S", "--book", "hand")
    done = desk.take(by_id.replace("L1,,F,2004-01-01,T1", "L1,,F,2004-01-01,Toni"), "--book", "hand")
    assert " 0 changed" in done.last and "  sire          S" in desk.good("show", "L1", "--book", "hand").out
    # of two males and a female two may be the sire, and the male that is too young stays told as one who may be meant
    done = desk.take(sheet + "T3,Toni,M,2001-03-01,,\n", "--book", "three")
    done.tells(
        "line 4: Toni: added: the sire of L1 and of 1 more has no row: added without parents (2 animals have this name, "
        "T1, T3: write the id of the one that is meant)",
        f"line 5: L2: inferred: its dam 'toni' is T2 by its name: {MEANT}",
    )
    done = desk.take(sheet.replace("T1,Toni,M,2001", "T1,Toni,M,2014"), "--book", "four")
    done.tells("line 4: Toni: added: the sire of L1 and of 1 more has no row: added without parents (is T1 meant?)")


CAPITALS = (
    "id;name;sex;birth;sire;dam\nDE100;Anna;f;1.3.2015;;\nDE101;Bert;m;2.3.2015;;\nDE109;Bert;m;2.3.2016;DE101;DE100\n"
    "DE102;Cora;f;2.3.2019;{};DE100\nDE105;Fips;m;4.3.2020;{};{}\n"
)


@pytest.mark.parametrize("name, other", [("Bert", "bert"), ("BERT", "Bert"), ("Zar", "zar"), ("Bert (alt)", "BERT (alt)")])
def test_parent_without_a_row_in_capitals(desk: Desk, name: str, other: str) -> None:
    """Texts that differ in capitals alone are one animal, which is told, also beside one that the book has."""
    for _ in range(2):
        done = desk.take(CAPITALS.format(name, other, "DE100"))
        done.tells(
            f"line 6: DE105: inferred: its sire '{other}' is {name}, whose id differs only in case, blanks or zeros: if "
            "another is meant, give that one a row"
        )
        assert desk.parents()["DE102"][0] == desk.parents()["DE105"][0] == name
    assert " 0 new, 0 changed" in done.last and " 0 added" in done.last and other not in desk.numbers()
    desk.take("id;name;sex;birth;sire;dam\nDE106;Gina;f;5.3.2021;" + other + ";DE100\n", "--append")
    assert desk.parents()["DE106"] == (name, "DE100")


def test_parents_in_capitals_of_other_roles(desk: Desk) -> None:
    """A sire and a dam are two."""
    desk.take(CAPITALS.format("Uli", "DE101", "uli"))
    assert {"Uli", "uli"} <= desk.numbers().keys()


def test_parents_in_capitals_that_the_book_has(desk: Desk) -> None:
    """Two that the book has stay two."""
    desk.take(CAPITALS.format("Uli", "DE101", "uli"))
    assert " 0 new, 0 changed" in desk.take(CAPITALS.format("Uli", "DE101", "uli")).last


@pytest.mark.parametrize(
    "titles",
    [
        "Tag;Name;Sex;DOB;Sire Name;Sire IAR no.;Sire's sire;Dam Name;Dam IAR no.",
        "IAR no.;Name;Sex;DOB;Sire;Sire UKBAS no.;Dam's sire;Dam;Dam UKBAS no.",
        "N° de travail;Nom;Sexe;Né le;Père;N° de travail du père;Père de la mère;Mère;N° de travail de la mère",
    ],
)
def test_ids_beside_names(desk: Desk, titles: str) -> None:
    """The column that names a parent, and no other one, and has the ids, is the parent's; that is told."""
    rows = "1;Ann;F;2005-03-01;;;;;\n2;Ben;M;2005-03-02;;;;;\n3;Ben;M;2008-03-13;Ben;2;;Ann;1\n4;Dan;F;2011-03-13;Ben;3;2;Ann;1\n"
    done = desk.take(titles + "\n" + rows)
    _, _, _, _, sire, of_sire, _, dam, of_dam = titles.split(";")
    assert desk.parents()["4"] == ("3", "1") and " 0 added" in done.last
    for role, of_ids, names in (("sire", of_sire, sire), ("dam", of_dam, dam)):
        done.shows(f"to look at: {role} is read from '{of_ids}', which has more of the ids, and not from '{names}'")
    assert " 0 new, 0 changed" in desk.take(titles + "\n" + rows).last
    names = "1;Ann;F;2005-03-01;;;;;\n2;Ben;M;2005-03-02;;;;;\n3;Cal;M;2008-03-13;2;Ben;;1;Ann\n"
    assert "which has more of the ids" not in desk.take(titles + "\n" + names, "--book", "two").told


def test_names_where_ids_lack(desk: Desk) -> None:
    """A name beside an empty cell for an id is found as names are, each year; one that others have beside an id without
    a row isn't, and that is told."""
    sheet = "Tag;Name;Sex;DOB;Sire Name;Sire IAR no.;Dam Name;Dam IAR no.\n"
    sheet += "1;Ann;F;2005-03-01;;;;\n2;Ben;M;2005-03-02;;;;\n3;Ben;M;2008-03-13;Ben;2;Ann;1\n4;Dan;F;2011-03-13;Ben;3;Ann;1\n"
    sheet += "5;Eve;F;2012-03-13;Zar;Z9;ANN;\n6;Fay;F;2012-03-14;Zar;;Ann;?\n7;Gil;F;2012-03-15;Xaver;;unknown;\n"
    sheet += "8;Hob;M;2012-03-16;Ben;2;Ann;1\n9;Ida;F;2012-03-17;Ben;2;\";\n"
    for added in 2, 0:
        done = desk.take(sheet)
        done.tells(
            f"line 6: 5: inferred: its dam 'ANN' is 1 by its name: {MEANT}",
            f"line 7: 6: inferred: its dam 'Ann' is 1 by its name: {MEANT}",
        )
        done.shows(
            "to look at: 1 row has nothing in 'Sire IAR no.', and 'Zar' in 'Sire Name', which isn't read, in line 7: this "
            "parent counts as unknown; enter it in 'Sire IAR no.'"
        )
        assert f" {added} added" in done.last and "nothing in 'Dam IAR no.'" not in done.told
        parents = desk.parents()
        assert [parents[id] for id in "56789"] == [("Z9", "1"), ("", "1"), ("Xaver", ""), ("2", "1"), ("2", "1")]
    assert " 0 new, 0 changed" in done.last


def test_names_or_ids(desk: Desk) -> None:
    """Each row has one of them."""
    sheet = "Tag;Name;Sex;DOB;Sire;Sire IAR no.;Dam\n1;Ann;F;2005-03-01;;;\n2;Ben;M;2005-03-02;;;\n3;Cal;M;2008-03-13;;2;1\n"
    desk.take(sheet + "4;Dan;F;2011-03-13;;2;1\n5;Eve;F;2011-03-14;Cal;;1\n")
    assert [desk.parents()[id] for id in "345"] == [("2", "1"), ("2", "1"), ("3", "1")]


def test_other_ids_where_ids_lack(desk: Desk) -> None:
    """Ids in both columns are no names."""
    sheet = "Tag;Sex;DOB;Sire;Sire by DNA;Dam\n1;F;2005-03-01;;;\n2;M;2005-03-02;;;\n3;M;2008-03-13;2;2;1\n4;F;2011-03-13;3;;1\n"
    desk.take(sheet, "--columns", "sire=Sire by DNA")
    assert desk.parents()["3"] == ("2", "1") and desk.parents()["4"] == ("", "1")


BESIDE = "Nr.;Name;Geschlecht;geb.;Vater;Mutter\nD001;Max;m;12.3.2015;;\n47;Rex;m;12.3.2015;;\n"


@pytest.mark.parametrize(
    "sire",
    [
        "Max D001 geb. 2015", "Max D001 (2015)", "Bock D001 vom Huber", "D001 (†)", "D001 †", "D001 verk.", "D001 [HB]",
        "D001/2019", "D001, Max", "Max (D001)", "D001: Max", '"D001"', "Max †", "Max (†)", "Max verk.", "Max (verk.)",
        "† Max",
    ],
)  # fmt: skip
def test_remark_beside_a_parent(desk: Desk, sire: str) -> None:
    """An id or a name is the animal's, whatever stands before it and behind it."""
    quoted = sire.replace('"', '""')
    for _ in range(2):
        done = desk.take(f'{BESIDE}D101;Eins;w;12.3.2020;"{quoted}";\n')
        assert desk.parents()["D101"] == ("D001", "") and " 0 left out, 0 added" in done.last
    assert " 0 new, 0 changed" in done.last


@pytest.mark.parametrize("sire", ["Moritz 47 vom Huber", "Sandro †", "Sandro D999 geb. 2015"])
def test_remark_that_names_no_animal(desk: Desk, sire: str) -> None:
    """A number between words may be another one than an id."""
    desk.take(f"{BESIDE}D101;Eins;w;12.3.2020;{sire};\n")
    assert desk.parents()["D101"] == (sire, "")


def test_number_between_words_beside_its_name(desk: Desk) -> None:
    desk.take(f"{BESIDE}D101;Eins;w;12.3.2020;Rex 47 geb. 2015;\n")
    assert desk.parents()["D101"] == ("47", "")
