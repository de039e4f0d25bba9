"""Dams of embryos, and parents by a test of genes: the genetic dam is the dam, and no other parent is lost in
silence."""
from __future__ import annotations

import pytest

from front_desk.desk import Desk

EWES = "001;m;01.02.2010;;;\n002;w;03.02.2010;;;\n003;w;04.02.2010;;;\n004;w;05.02.2010;;;\n"
LAMBS = "005;w;03.02.2013;001;002;\n006;w;03.02.2013;001;003;004\n"
TITLES = "Ohrmarke;Geschlecht;geb;Vater;{};{}\n"


@pytest.mark.parametrize(
    "title",
    [
        "genetische Mutter", "Spendertier", "Spender", "Donor dam", "Mère génétique", "Biologische Mutter", "Donor",
        "Genetic dam",
    ],
)  # fmt: skip
def test_genetic_dam_beside_the_dams(desk: Desk, title: str) -> None:
    done = desk.take(TITLES.format("Mutter", title) + EWES + LAMBS)
    assert [desk.parents()[id][1] for id in ("005", "006")] == ["002", "004"]
    done.tells(
        f"to look at: the dam of 1 animal is read from '{title}', '004' in line 7: '003' in 'Mutter' carried it, and is no dam"
    )
    assert "not read" not in done.out
    assert " 0 changed" in desk.take(TITLES.format("Mutter", title) + EWES + LAMBS).last
    # a yes names nobody
    other = desk.take(TITLES.format("Mutter", title) + EWES + LAMBS.replace("003;004", "003;ja"), "--book", "other")
    assert " 0 added" in other.last and "is read from" not in other.out


@pytest.mark.parametrize("title", ["Spender", "Donor"])
def test_donor_of_a_prize(desk: Desk, title: str) -> None:
    """Who is written like no animal is no dam."""
    done = desk.take(TITLES.format("Mutter", title) + EWES + LAMBS.replace("003;004", "003;Migros"))
    assert desk.parents()["006"][1] == "003" and " 0 added" in done.last
    assert f"not read: '{title}'" in done.out and "carried" not in done.out


@pytest.mark.parametrize(
    ("carrier", "genetic"),
    [
        ("Leihmutter", "Genetische Mutter"), ("Recipient dam", "Genetic dam"), ("Recipient dam", "Dam"),
        ("Trägertier", "Mutter"), ("Empfängerin", "Mutter"), ("Mère porteuse", "Mère"), ("Porteuse", "Mère génétique"),
    ],
)  # fmt: skip
def test_carrier_is_no_dam(desk: Desk, carrier: str, genetic: str) -> None:
    """Also where hers is the only id; that is told, and a word reads her where no other dam stands."""
    text = TITLES.format(carrier, genetic) + EWES + LAMBS
    done = desk.take(text)
    assert [desk.parents()[id][1] for id in ("005", "006")] == ["", "004"]
    done.shows(
        f"to look at: 1 row has no dam in '{genetic}', and '002' in '{carrier}', in line 6: the animal that carried "
        f"the embryo isn't the dam, which counts as unknown; enter the dam in '{genetic}'"
    )
    [said] = [one for one in done.commands() if f"dam={carrier}" in one]
    if carrier == "Leihmutter":
        assert "carries" not in desk.typed(said).out
        assert [desk.parents()[id][1] for id in ("005", "006")] == ["002", "004"]
    # her state, and one beside a dam, aren't told
    for other in text.replace("005;w;03.02.2013;001;002;", "005;w;03.02.2013;001;ja;"), text.replace("002;\n", "002;003\n"):
        assert "carries" not in desk.take(other, "--book", "other").out


def test_carriers_alone(desk: Desk) -> None:
    """No carrier is offered as a dam, but a column that has ids of the list is."""
    sheet = desk.write("sheet.csv", TITLES.format("Leihmutter", "Farbe") + EWES + LAMBS)
    done = desk.wrong("no column for dam is found", "import", sheet)
    assert [one.partition("--columns ")[2] for one in done.commands()] == ["dam=Farbe", "dam="]


@pytest.mark.parametrize("title", ["Vater gemäss DNA", "Sire by DNA", "Père (ADN)", "Vater 2"])
def test_parent_by_a_test(desk: Desk, title: str) -> None:
    rows = EWES + "005;m;01.03.2010;;;\n006;w;03.02.2013;001;002;005\n007;w;03.02.2013;001;002;\n"
    text = f"Ohrmarke;Geschlecht;geb;Vater;Mutter;{title}\n{rows}"
    done = desk.take(text)
    done.shows(
        f"to look at: '{title}' isn't read, and has another sire than 'Vater' in 1 row: '005' and not '001', in line 7: "
        f"where '{title}' is right, enter that in 'Vater'"
    )
    assert desk.parents()["006"] == ("001", "002")
    lacking = desk.take(text.replace("001;002;005", ";002;005"), "--book", "lacking")
    assert f"1 row has nothing in 'Vater', and '005' in '{title}'" in lacking.out
    # the same parent, and a remark
    for other in "001", "bestätigt", "ja":
        done = desk.take(text.replace("001;002;005", f"001;002;{other}"), "--book", "other")
        assert "another sire" not in done.out, other


FOSTERED = "Tag No.;Name;Sex;DOB;Sire;Dam;Owner;Remarks\nE001;Fionn;bull;30/03/2015;;;Daly;\n"
FOSTERED += "E002;Rose;cow;12/04/2015;;;Daly;\nE005;Peg;cow;12/06/2016;;;Foley;\nE101;Nora;cow;12/03/2021;E001;{};Daly;\n"


@pytest.mark.parametrize(
    "dam",
    [
        "donor: E002, recip: E005", "E002 recip E005", "E002 / recip 4711", "ET aus E002, Empf. E005", "Empf. E005, Spender E002",
        "E002 (Amme: E005)", "E002 foster E005", "E002, E005 (recip)", "embryo de E002, receveuse E005", "Rose, recip Peg",
        "E002 fostered", "E002 (Ammenaufzucht)", "ET ex E002",
    ],
)  # fmt: skip
def test_dam_beside_carrier(desk: Desk, dam: str) -> None:
    """Who carried a young one or brought it up is neither its dam nor another one that may be it."""
    done = desk.take(FOSTERED.format(f'"{dam}"'))
    assert desk.parents()["E101"] == ("E001", "E002") and " 0 left out, 0 added" in done.last


@pytest.mark.parametrize(
    "dam",
    [
        "recip E005", "recip. Peg", "fostered by E005", "reared by Peg", "Amme E005", "E005 (Amme)", "nourrie par E005",
        "reçeveuse E005", "Leihmutter 4711", "E005 nurse", "E005 (foster)",
    ],
)  # fmt: skip
def test_carrier_alone_in_a_cell(desk: Desk, dam: str) -> None:
    """The dam is unknown, and that is told, each year."""
    for _ in range(2):
        done = desk.take(FOSTERED.format(dam))
        done.tells(
            f"line 5: E101: its dam '{dam}' is left out: it names who carried it or brought it up, and the dam counts as "
            "unknown; write the dam's id"
        )
        assert desk.parents()["E101"] == ("E001", "") and " 0 added" in done.last
    assert " 0 new, 0 changed" in done.last


def test_carrier_whose_id_has_a_slash(desk: Desk) -> None:
    desk.take(FOSTERED.format("E/23-05 (Amme)").replace("E005", "E/23-05").replace("E002", "E"))
    assert desk.parents()["E101"] == ("E001", "")


def test_donor_without_a_row_in_a_cell(desk: Desk) -> None:
    desk.take(FOSTERED.format('"donor: E999, recip: E005"'))
    assert desk.parents()["E101"] == ("E001", "E999")


@pytest.mark.parametrize("dam", ["Nurse Betty", "Foster Lass", "Amme Sandra"])
def test_names_like_words_for_carriers(desk: Desk, dam: str) -> None:
    """A name is one, of an animal of the list too, and beside its id."""
    desk.take(FOSTERED.format(dam))
    assert desk.parents()["E101"] == ("E001", dam)
    for cell in dam, f"E005 {dam}":
        desk.take(FOSTERED.format(cell).replace("Peg", dam), "--book", "own")
        assert f" dam E005 {dam} " in " ".join(desk.good("show", "E101", "--book", "own").out.split())
