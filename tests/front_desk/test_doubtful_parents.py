"""Parents of whom the cell says that they aren't sure, or whom it names by how they are related to another one."""
from __future__ import annotations

import pytest

from front_desk.desk import Desk

TITLES = "Nr.;Name;Geschlecht;geb.;Vater;Mutter;Besitzer\n"
OLD = "D001;Max;m;12.3.2015;;;Huber\nD002;Lena;w;12.4.2015;;;Huber\nD003;Vielleicht;m;12.5.2015;;;Huber\n"
YOUNG = "D101;Eins;w;12.3.2020;{};D002;Huber\nD102;Zwei;w;12.8.2020;D001;D002;Huber\nD103;Drei;w;12.8.2021;D001;D002;Huber\n"


def sire_of(desk: Desk, sire: str, more: str = "") -> str:
    """The sire in the book of an animal of which a sheet has this."""
    desk.take(TITLES + OLD + YOUNG.format(sire) + more, "--book", "other")
    shown = " ".join(desk.good("show", "D101", "--book", "other").out.split())
    return shown.partition(" sire ")[2].partition(" dam ")[0]


@pytest.mark.parametrize(
    ("sire", "named"),
    [
        *((one, "D001") for one in (
            "D001 (unsicher)", "vermutl. D001", "wahrsch. D001", "D001 ?", "D001?", "?D001", "D001 (?)", "prob. D001",
            "(D001)", "sans doute D001", "Max (D001?)", "D001 Max ?", "probably D001",
        )),
        *((one, "Max") for one in (
            "Max ?", "Max?", "(Max)", "Max (unsicher)", "vmtl. Max", "probablement Max", "présumé Max", "Max probable",
        )),
        ("D999 ?", "D999"), ("vermutl. D999", "D999"), ("Sandro ?", "Sandro"), ("vermutl. Sandro", "Sandro"),
    ],
)  # fmt: skip
def test_doubtful_parent_is_unknown(desk: Desk, sire: str, named: str) -> None:
    """Whether the one that is named is in the list or not; that is told, and each sheet reads it so."""
    for _ in range(2):
        done = desk.take(TITLES + OLD + YOUNG.format(sire))
        done.tells(
            f"line 5: D101: its sire '{sire}' is left out: it doesn't say for sure that {named} is the sire, which counts as "
            "unknown; where that is sure, write the sire's id alone"
        )
        assert desk.parents()["D101"] == ("", "D002") and " 0 added" in done.last
    assert " 0 new, 0 changed" in done.last


@pytest.mark.parametrize(
    "sire", ["D003 Vielleicht", "Vielleicht", "D001 (2015?)", "D001 geb. ?", "D001 M?ller", "D001 Wohl Peter", "D001 lt. DNA"]
)
def test_parent_without_doubt(desk: Desk, sire: str) -> None:
    """A sign behind a year, and a letter that was lost, are none, and a name is one."""
    assert sire_of(desk, sire).split()[0] == ("D003" if "Vielleicht" in sire else "D001")


@pytest.mark.parametrize("other", ["(D001)", "Max (D001)"])
def test_brackets_that_all_parents_have(desk: Desk, other: str) -> None:
    """They are how the list writes them."""
    more = "".join(f"D20{at};K{at};w;12.8.2022;{other};;Huber\n" for at in range(6))
    assert sire_of(desk, "(D001)", more).startswith("D001")


@pytest.mark.parametrize("sire", ["Bruder v. Max", "Bruder v.Max", "Sohn v. Max", "fils de Max", "brother of Max", "Max dtr"])
def test_parent_by_its_relation(desk: Desk, sire: str) -> None:
    done = desk.take(TITLES + OLD + YOUNG.format(sire))
    done.tells(
        f"line 5: D101: its sire '{sire}' is left out: it says how another animal is related, and counts as unknown; write "
        "the sire's own id"
    )
    assert desk.parents()["D101"] == ("", "D002") and " 0 added" in done.last
