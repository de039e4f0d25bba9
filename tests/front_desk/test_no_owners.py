"""Cells of owners that name nobody: some say that there is no owner, and others are told."""
from __future__ import annotations

import pytest

from front_desk.desk import Desk

TITLES = "KC Number;Name;Sex;Whelped;Sire;Dam;Owner\n"
NONE = ("néant", "Néant", "keine", "keiner", "none", "aucun", "kein Besitzer", "sans propriétaire", "no owner")
WORDS = ("RAS", "Breeder", "Self", "selbst", "Züchter", "éleveur", "moi-même", "do", "nobody", "niemand")
NAMES = ("Frau Selbst", "Self Help Farm", "Gut Keiner", "Rasmussen", "Owen", "Breeders United", "Nero")


def take(desk: Desk, owners: tuple[str, ...]) -> str:
    rows = "".join(f"A{at};Rex {at};m;2019-06-01;;;{owner}\n" for at, owner in enumerate(owners, 101))
    return desk.take(TITLES + rows, "--columns", "id=KC Number").told


def test_no_owner(desk: Desk) -> None:
    """As where `unknown` stands."""
    take(desk, (*NONE, "unknown", "Mrs X"))
    assert desk.owners() == [(1, "Mrs X")]


def test_cross(desk: Desk) -> None:
    """Where the owner stands it says that the animal died, which isn't lost."""
    assert "line 2: A101: to look at: '†' stands where 1 animal has its owner" in take(desk, ("†", "Mrs X"))


def test_no_name(desk: Desk) -> None:
    """Each is told once, and is an owner of this name; so is one whose name has such a word in it."""
    told = take(desk, (*WORDS, *NAMES, WORDS[1])).splitlines()
    assert {owner for _, owner in desk.owners()} == {*WORDS, *NAMES}
    of_two = f"line 3: A102: to look at: '{WORDS[1]}' stands where 2 animals have their owner, and doesn't look like"
    assert len({one for one in told if one.startswith(of_two)}) == 1
    assert {word for word in (*WORDS, *NAMES) if any(f"'{word}' stands where" in one for one in told)} == {*WORDS}


TELEPHONES = ("06 12 34 56 78", "0664/123 45 67", "+353 87 123 4567", "Tel. 02852 12345")
REFERRING = ("idem propriétaire mère", "wie Mutter", "same owner as dam", "comme le père")


def test_telephone_for_an_owner(desk: Desk) -> None:
    told = take(desk, (*TELEPHONES, "Mrs X", "Duval 06 12 34 56 78", "Hof 0612345678", "Ann", "Bob"))
    assert {one for one in TELEPHONES if f"'{one}' stands where 1 animal has its owner" in told} == {*TELEPHONES}
    assert not any(f"'{one}' stands" in told for one in ("Duval 06 12 34 56 78", "Hof 0612345678"))


def test_farms_by_numbers(desk: Desk) -> None:
    """Where half of the owners are written like telephone numbers, these aren't."""
    assert "look like a name" not in take(desk, ("012 345 678", "012 345 679", "012 345 680", "Mrs X"))


def test_owner_of_another(desk: Desk) -> None:
    """What says whose owner is meant, and no names with such words."""
    told = take(desk, (*REFERRING, "Wie Anna", "Mutter Franz", "Oben", "Ober Haus"))
    assert {one for one in REFERRING if f"'{one}' stands where 1 animal has its owner" in told} == {*REFERRING}
    assert not any(f"'{one}' stands" in told for one in ("Wie Anna", "Mutter Franz", "Oben", "Ober Haus"))


@pytest.mark.parametrize("word", ["keine", "néant"])
def test_no_owner_by_hand(desk: Desk, word: str) -> None:
    """Nobody is given an animal by such a word."""
    take(desk, ("Mrs X",))
    desk.wrong("the new owner is missing", "transfer", "A101", "--to", word, "--day", "2020-01-01")


FOR_SALE = ("zu verk.", "zu verkaufen", "à vendre", "A VENDRE", "for sale")


def test_for_sale_in_place_of_an_owner(desk: Desk) -> None:
    """The animal keeps its owner, and the words are told once."""
    take(desk, ("Mrs X",) * 6)
    told = take(desk, ("Mrs X", *FOR_SALE))
    assert desk.owners() == [(1, "Mrs X")] and desk.transfer_days() == []
    assert {one for one in FOR_SALE if f"'{one}' stands where 1 animal has its owner, and says" in told} == {*FOR_SALE}


@pytest.mark.parametrize("cells", [f"{text};" for text in FOR_SALE] + [f";{text}" for text in FOR_SALE])
def test_for_sale_is_no_exit(desk: Desk, cells: str) -> None:
    """In the columns of exits and of a status it gives the animal to nobody, though an owner is written so too."""
    text = cells.strip(";")
    titles = "id;sex;birth;sire;dam;owner;exit;status\n"
    done = desk.take(f"{titles}1;F;2019-06-01;;;Mrs X;{cells}\n2;F;2019-06-01;;;verk. → Eder;;\n")
    assert (1, "Mrs X") in desk.owners() and f"in line 2: '{text}': the animal stays" in done.told
    assert " 0 gone" in done.last and desk.transfer_days() == []
    assert desk.good("list", "--columns", "id,owner").out.splitlines()[1] == "1,Mrs X"
