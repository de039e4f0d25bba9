"""Owners whose names are much alike: of a few rows, where one of many is meant, or written otherwise."""
from __future__ import annotations

import collections
import random
import re
from collections.abc import Callable, Mapping
from types import SimpleNamespace
from typing import cast

import pytest

from front_desk.desk import Desk
from gudokeyi.domain.findings import Finding, Report
from gudokeyi.ingest.animals import SheetAnimal
from gudokeyi.ingest.doubtful_owners import is_no_name
from gudokeyi.ingest.texts import plain
from gudokeyi.reconcile.findings.animals import OwnerMistyped, OwnerRespelt, OwnersAlike, OwnersOtherwise, Spelling
from gudokeyi.reconcile.findings.owners import OwnerOfGeneration, OwnerOfSeveral, OwnerWithInitial, OwnerWithMore
from gudokeyi.reconcile.next_book import NextBook
from gudokeyi.reconcile.owner_words import tell_owners_of_like_words
from gudokeyi.reconcile.owners import (
    MORE, differ_by_one, tell_doubtful_owners, tell_mistyped_owners, tell_owners_alike,
    tell_owners_with_more, tell_respelt_owners,
)  # fmt: skip


@pytest.mark.parametrize(("one", "other", "is_alike"), [
    ("Huber", "Hubber", True), ("HUBER", "hubr", True), ("Huber", "Hufer", True), ("Huber", "Hubre", True),
    ("Xhuber", "Huber", True), ("Huber", "Huberr", True), ("Huber", "Huber", False), ("Huber", "Hufar", False),
    ("Huber", "Hubberr", False), ("Huber", "Hreub", False), ("Meier Hof", "Meier-Hof", False), ("Löwe", "Lowe", False),
    ("Hof 2", "Hof 3", False), ("Hof 12", "Hof 21", False), ("Hof2", "Hof3", False), ("A. Huber", "B. Huber", False),
    ("Hof B", "Hof C", False),
])  # fmt: skip
def test_differ_by_one(one: str, other: str, is_alike: bool) -> None:
    """A letter more, less or otherwise, or two that are swapped; digits, signs and letters alone tell apart."""
    assert differ_by_one(one, other) == differ_by_one(other, one) == is_alike


def told(rows: Mapping[str, int], before: set[str]) -> list[tuple[int, str, str]]:
    """For owners with so many rows: the first line of each that is told, and whom it means. Others have no row."""
    owners = [owner for owner, count in rows.items() for _ in range(count)]
    animals = {f"a{at}": SheetAnimal(f"a{at}", at, owner=owner) for at, owner in enumerate(owners, 2)}
    animals |= {f"b{at}": SheetAnimal(f"b{at}", owner="Hubber") for at in range(9)}
    report = Report()
    next_book = SimpleNamespace(animals=animals, rows_otherwise=lambda: [*animals.values()], report=report)
    tell_mistyped_owners(cast(NextBook, next_book), before)
    found = [(one.line, one.finding) for one in report.entries]
    return [(line, one.owner.text, one.meant.text) for line, one in found if isinstance(one, OwnerMistyped)]


@pytest.mark.parametrize(("rows", "before", "found"), [
    ({"Huber": 10, "Hubber": 2}, set(), [(12, "Hubber", "Huber")]),
    ({"Huber": 9, "Hubber": 2}, set(), []), ({"Huber": 99, "Hubber": 3}, set(), []),
    ({"Huber": 5, "Hubber": 1}, set(), [(7, "Hubber", "Huber")]), ({"Huber": 4, "Hubber": 1}, set(), []),
    ({"Huber": 10, "Hubber": 2}, {"Hubber"}, []), ({"Huber": 10, "Hubber": 2}, {"Huber"}, [(12, "Hubber", "Huber")]),
    ({"Huber": 20, "Hubber": 1, "Hubbera": 10}, set(), [(22, "Hubber", "Huber")]),
    ({"Gros": 5, "Gras": 1, "Abt": 5, "Ast": 1}, set(), [(7, "Gras", "Gros")]),
])  # fmt: skip
def test_mistyped_owners(rows: Mapping[str, int], before: set[str], found: list[tuple[int, str, str]]) -> None:
    """Of two rows at most, where the other has five times as many; of several the one with most. The book's are told no
    more, and in names of three letters each letter counts."""
    assert told(rows, before) == found


@pytest.mark.parametrize(("rows", "before", "found"), [
    (["Meier Meyer", "Meier Meyer"], {"Meier"}, [OwnerRespelt("Meier", "Meyer", 2)]),
    (["Meier Meyer", "Meier Meier"], {"Meier"}, []), (["Meier Meyer", "Meier Maier"], {"Meier"}, []),
    (["Meier Meyer"], {"Meier", "Meyer"}, []), (["Abcd ABCE"], {"Abcd"}, [OwnerRespelt("Abcd", "ABCE", 1)]),
    (["Abcd Abxc"], {"Abcd"}, [OwnerRespelt("Abcd", "Abxc", 1)]), (["Abcd Abxy"], {"Abcd"}, []),
    ([" Meyer"], set(), []),
])  # fmt: skip
def test_owners_that_are_only_respelt(rows: list[str], before: set[str], found: list[OwnerRespelt]) -> None:
    """All rows of an owner have one whom the book didn't have, and three letters of four are the same. A row in whose
    place an owner by hand stays is none of them."""
    pairs = {f"a{at}": row.split(" ") for at, row in enumerate(rows, 2)}
    # an animal without a row, one that is new, and one with an owner by hand
    animals = {id: SheetAnimal(id, int(id[1:]), owner=now) for id, (_, now) in pairs.items()}
    others = SheetAnimal("b", owner="Meier"), SheetAnimal("c", 99, owner="Meyer"), SheetAnimal("d", 98, owner="Maier")
    animals |= {one.id: one for one in others}
    before_it = {id: one for id, (one, _) in pairs.items()} | dict.fromkeys("bd", "Meier")
    records = {id: SimpleNamespace(owner_code=one) for id, one in before_it.items()}
    numbers = {id: SimpleNamespace(registration_number=id) for id in before_it}
    book, report = SimpleNamespace(society_records=numbers, records=records, owner_of=str), Report()
    in_book = SimpleNamespace(numbers={id: id for id in before_it})
    next_book = SimpleNamespace(
        animals=animals, otherwise=animals, rows_otherwise=lambda: [*animals.values()], book=book, report=report,
        kept_owners={"d"}, in_book=in_book,
    )  # fmt: skip
    tell_respelt_owners(cast(NextBook, next_book), before)
    assert [entry.finding for entry in report.entries] == found


def test_owners_alike_by_umlauts() -> None:
    """An umlaut may be written by two letters, or lack its dots; letters that are none of an umlaut tell owners
    apart."""
    owners = ["Müller", "MÜLLER", "Mueller", "Weiß", "Weiss", "Bauer", "Baur", "Jäger", "Jager"]
    animals = {owner: SheetAnimal(owner, 2, owner=owner) for owner in owners}
    report = Report()
    tell_owners_alike(cast(NextBook, SimpleNamespace(animals=animals, report=report)))
    told = [entry.finding for entry in report.entries]
    found = [[spelling.text for spelling in one.spellings] for one in told if isinstance(one, OwnersAlike)]
    assert found == [["Jager", "Jäger"], ["Mueller", "MÜLLER", "Müller"], ["Weiss", "Weiß"]]


def test_owners_alike_have_rows() -> None:
    """Signs alone are no names that are alike."""
    owners = [("Groß A", 2), ("gross a", 3), ("gross a", 4), ("GROSS A", 0), ("?", 5), ("!", 6), ("", 7)]
    animals = {f"{at}": SheetAnimal(f"{at}", line, owner=owner) for at, (owner, line) in enumerate(owners)}
    report = Report()
    tell_owners_alike(cast(NextBook, SimpleNamespace(animals=animals, report=report)))
    assert [entry.finding for entry in report.entries] == [OwnersAlike((Spelling("Groß A", 1), Spelling("gross a", 2)))]

@pytest.mark.parametrize(("rows", "before", "found"), [
    (["Huber", "K. Huber"], set(), [OwnerWithMore("Huber", ("K. Huber",))]),
    (["Huber", "Huber, Karl"], set(), [OwnerWithMore("Huber", ("Huber, Karl",))]),
    (["Müller", "Mueller K."], {"Müller"}, [OwnerWithMore("Müller", ("Mueller K.",))]),
    (["Huber", "K. Huber", "M. Huber"], set(), [OwnerWithMore("Huber", ("K. Huber", "M. Huber"))]),
    (["Karl Huber"], {"Huber"}, [OwnerWithMore("Huber", ("Karl Huber",), "Huber", "Karl Huber")]),
    (["Huber"], {"K. Huber"}, [OwnerWithMore("Huber", ("K. Huber",), "K. Huber", "Huber")]),
    (["Huber", "K. Huber"], {"Huber", "K. Huber"}, []), (["K. Huber", "M. Huber"], set(), []),
    (["Huber", "K. Hubert", "Hof Huber", "Hof B", "Hof", "Huber 2", "K. O. M. Huber", "K"], set(), []),
])  # fmt: skip
def test_owners_with_more(rows: list[str], before: set[str], found: list[OwnerWithMore]) -> None:
    """One has an initial or a first name more: two initials tell owners apart, and so do a farm's name and numbers. A
    name of the book that no row has any more may be written otherwise now."""
    assert report_of(dict.fromkeys(rows, 1), lambda next_book: tell_owners_with_more(next_book, before)) == found


def spellings(*owners: str) -> tuple[Spelling, ...]:
    return tuple(Spelling(owner, 1) for owner in owners)


@pytest.mark.parametrize(("rows", "before", "found"), [
    (["EARL Le Goff", "Le Goff EARL"], set(), [OwnersOtherwise(spellings("EARL Le Goff", "Le Goff EARL"))]),
    (["Mme Tanguy Anne", "Anne Tanguy"], set(), [OwnersOtherwise(spellings("Anne Tanguy", "Mme Tanguy Anne"))]),
    (["Mme Tanguy Anne", "M. Anne Tanguy"], set(), []), (["Anne Tanguy", "Tanguy, Anne"], set(), []),
    (["Le Goff", "Legoff", "Le Goff A. B."], set(), []), (["Hof 2", "Hof 3"], set(), []),
    (["GAEC du Chêne", "GAEC du Ch?ne"], set(), [OwnersAlike(spellings("GAEC du Ch?ne", "GAEC du Chêne"))]),
    (["Andr?", "André"], set(), [OwnersAlike(spellings("Andr?", "André"))]),
    (["Huber ?", "Hubert", "Ch?ne", "Charne", "Ch-ne"], set(), []),
    (["Tanguy A.", "Anne Tanguy"], set(), [OwnerWithInitial("Tanguy A.", ("Anne Tanguy",))]),
    (["Mme A Tanguy", "Tanguy Anne", "Mr Alan Tanguy"], set(), [OwnerWithInitial("Mme A Tanguy", ("Tanguy Anne",))]),
    (["Tanguy A.", "Bob Tanguy", "A. Goff", "Tanguy B. A.", "A. B."], set(), []),
    (["Tanguy A.", "Anne Tanguy"], {"Tanguy A.", "Anne Tanguy"}, []),
    (["Tanguy A."], {"Anne Tanguy"}, [OwnerWithInitial("Tanguy A.", ("Anne Tanguy",))]),
    (["Tanguy A., Ing.", "Ing. Anne Tanguy"], set(), [OwnerWithInitial("Tanguy A., Ing.", ("Ing. Anne Tanguy",))]),
    (["Mayr Josef", "Mayr Josef jun.", "Sen. Josef Mayr"], set(),
     [OwnerOfGeneration("Mayr Josef", ("Mayr Josef jun.", "Sen. Josef Mayr"))]),
    (["Mayr Josef"], {"Mayr Josef jun."}, [OwnerOfGeneration("Mayr Josef", ("Mayr Josef jun.",))]),
    (["Mayr Josef sen.", "Mayr Josef jun.", "Mayr Franz", "Mayr", "Senior", "Frau Huber Toni", "Hr. Huber Toni sen."],
     set(), []),
    ([f"{last} {first}" for last in ("Huber", "Mayr") for first in ("Josef", "Franz", "Maria", "Anna")], set(), []),
])  # fmt: skip
def test_owners_of_like_words(rows: list[str], before: set[str], found: list[Finding]) -> None:
    """The same words in another order, an initial in place of a first name, a name without `jun.` that others have, and
    a sign in place of a letter that was lost: neither a man and a woman, nor two of whom the book had both before."""
    assert report_of(dict.fromkeys(rows, 1), lambda next_book: tell_owners_of_like_words(next_book, before)) == found


@pytest.mark.parametrize(("rows", "is_told"), [
    (["Dr Singh", "Dr A Singh"], True), (["Singh", "Dr A Singh"], True), (["Mr Fox", "Paul Fox"], True),
    (["Mr Fox", "Mrs P Fox"], False), (["Mr Fox", "Fox"], False), (["Dr Singh", "Dr Sing"], False),
])  # fmt: skip
def test_titles_beside_more(rows: list[str], is_told: bool) -> None:
    found = report_of(dict.fromkeys(rows, 1), lambda next_book: tell_owners_with_more(next_book, set()))
    assert bool(found) == is_told


@pytest.mark.parametrize(("rows", "found"), [
    (["Pichler", "Fam. Pichler"], [["Fam. Pichler", "Pichler"]]),
    (["Pichler", "Pichler Fam.", "Familie Pichler"], [["Familie Pichler", "Pichler", "Pichler Fam."]]),
    (["Kelly Brothers", "Kelly Bros", "Kelly", "Brosnan Kelly"], [["Kelly Bros", "Kelly Brothers"]]),
    (["Gebr. Huber", "Gebrüder Huber", "Huber"], [["Gebr. Huber", "Gebrüder Huber"]]),
    (["Moore Ltd.", "Moore Limited", "Moore"], [["Moore Limited", "Moore Ltd."]]),
    (["Fam. Huber", "Huber Franz", "Fam. Huber Karl", "Familie", "Fam. Pichler"], []),
])  # fmt: skip
def test_words_for_families(rows: list[str], found: list[list[str]]) -> None:
    """A name with such a word and without one, and two forms of one word."""
    told = report_of(dict.fromkeys(rows, 1), lambda next_book: tell_owners_alike(next_book))
    spelt = [[one.text for one in finding.spellings] for finding in told if isinstance(finding, OwnersOtherwise)]
    assert spelt == found


def test_generations_in_a_sheet(desk: Desk) -> None:
    """They stay apart."""
    owners = ["Mayr Josef", "Mayr Josef sen.", "Mayr Josef jun.", "Ing. Leitner Walter", "Leitner W., Ing."]
    rows = "".join(f"{at};m;2001-01-01;;;{owner}\n" for at, owner in enumerate(owners, 1))
    desk.take("id;sex;birth;sire;dam;owner\n" + rows).tells(
        "to look at: the owner 'Mayr Josef' may be Mayr Josef jun. or Mayr Josef sen., as its name stands without sen. or "
        "jun.: if they are one, write the name the same way in all rows, and take the sheet again",
        "to look at: the owner 'Leitner W., Ing.' may be Ing. Leitner Walter, whose first name begins with that initial: "
        "if they are one, write the name the same way in all rows, and take the sheet again",
    )
    assert len(desk.owners()) == len(owners)


def test_owners_of_like_words_in_a_sheet(desk: Desk) -> None:
    owners = "EARL Le Goff", "Le Goff EARL", "Anne Tanguy", "Tanguy A.", "GAEC du Chêne", "GAEC du Ch?ne"
    rows = "".join(f"{at};m;2001-01-01;;;{owner}\n" for at, owner in enumerate(owners, 1))
    sheet = "id;sex;birth;sire;dam;owner\n" + rows
    told = desk.take(sheet).told
    assert "'EARL Le Goff' (1 animal) and 'Le Goff EARL' (1 animal) differ" in told
    assert "'Tanguy A.' may be Anne Tanguy" in told and "'GAEC du Ch?ne' (1 animal) and 'GAEC du Chêne'" in told
    assert "Tanguy" not in desk.take(sheet).told


def test_owner_with_a_first_name(desk: Desk) -> None:
    """He is told beside the one without, and is joined by what is suggested alone."""
    text = "id;sex;birth;sire;dam;owner\n001;m;2001-01-01;;;Huber\n002;w;2001-02-01;;;Meier\n"
    desk.take(text)
    now = text.replace("Huber", "Karl Huber")
    done = desk.take(now, "--preview")
    assert "the owner 'Huber' may be Karl Huber" in done.out and "owner: Karl Huber, before Huber" in done.out
    assert "--owner 'Huber=Karl Huber'" in done.out
    assert "owner: " not in desk.take(now, "--owner", "Huber=Karl Huber").out
    assert "may be Karl" not in desk.take(now).out
    assert not any(line.startswith("transfer,") for line in desk.commands())


# Few names are compared of many that are nearly alike, and what is told is what all pairs say.


def drawn(seed: int) -> tuple[dict[str, int], set[str]]:
    """Names that are much alike, with so many rows each, and some that the book had before."""
    chosen = random.Random(seed)
    letters = chosen.choice(["ab", "abc .", "aäbA", "ab12", "aö&/ "])
    names = (" ".join("".join(chosen.choices(letters, k=chosen.randrange(2, 9))).split()) for _ in range(40))
    rows = {name: chosen.choice([1, 2, 5, 10, 20]) for name in names if name}
    return rows, {*chosen.sample(sorted(rows), len(rows) // 5), "ab a", "b"}


def report_of(rows: Mapping[str, int], tell: Callable[[NextBook], None]) -> list[Finding]:
    animals = {f"a{at}": SheetAnimal(f"a{at}", at, owner=owner) for at, owner in enumerate(rows, 2)}
    report = Report()
    tell(cast(NextBook, SimpleNamespace(animals=animals, rows_otherwise=lambda: [*animals.values()], report=report)))
    return [entry.finding for entry in report.entries]


@pytest.mark.parametrize("seed", range(40))
def test_mistyped_of_all_pairs(seed: int) -> None:
    rows, before = drawn(seed)
    meant = {owner: its for _, owner, its in told(rows, before)}
    for owner, count in rows.items():
        near = [one for one in rows if rows[one] >= 5 * count and len(one) >= 4 and differ_by_one(owner, one)]
        assert (owner in meant) == (count <= 2 and len(owner) >= 4 and owner not in before and near != [])
        if owner in meant:
            assert meant[owner] in near and rows[meant[owner]] == max(rows[one] for one in near)


@pytest.mark.parametrize("seed", range(40))
def test_names_within_of_all_pairs(seed: int) -> None:
    rows, before = drawn(seed)
    findings = report_of(rows, lambda next_book: tell_doubtful_owners(next_book, before))
    found = {one.owner: one.others for one in findings if isinstance(one, OwnerOfSeveral)}
    words = {one: " ".join(["", *re.findall(r"[^_\W]+", one.casefold()), ""]) for one in {*rows, *before}}
    for owner in rows.keys() - before:
        within = [one for one in words if one != owner and words[one].strip() and words[one] in words[owner]]
        is_told = MORE.search(owner) and not is_no_name(owner)
        assert found.get(owner, ()) == (tuple(sorted(within)[:5]) if is_told else ())


@pytest.mark.parametrize("seed", range(40))
def test_spellings_of_all_pairs(seed: int) -> None:
    rows, _ = drawn(seed)
    found = [one.spellings for one in report_of(rows, tell_owners_alike) if isinstance(one, OwnersAlike)]
    by_name = collections.defaultdict[str, set[str]](set)
    for owner in rows:
        for name in plain(owner), plain(owner.casefold().replace("ä", "ae").replace("ö", "oe")):
            by_name[name].add(owner)
    several = {frozenset(its) for name, its in by_name.items() if name and len(its) > 1}
    most = {its for its in several if not any(its < other for other in several)}
    assert {frozenset(one.text for one in its) for its in found} == most and len(found) == len(most)


@pytest.mark.parametrize(
    "cell",
    [
        "Huber Hans, 079 123 45 67", "Huber Hans 079/123 45 67", "Huber Hans (Thun)", "Huber Hans, Thun",
        "Huber Hans, hans@example.ch", "Huber Hans, 3600 Thun", "ehemals Huber Hans",
    ],
)  # fmt: skip
def test_owner_with_an_address(desk: Desk, cell: str) -> None:
    """A name with a telephone number, a place or an address behind it is told, and one of another owner isn't."""
    rows = "".join(f"00{at};m;01.02.201{at};Huber Hans\n" for at in range(3))
    rows += f"004;w;3.2.2013;{cell}\n005;w;3.2.2013;Kunz Leo, Bern\n"
    done = desk.take("Ohrmarke;Geschlecht;geb;Besitzer\n" + rows, "--columns", "sire=,dam=")
    done.shows(
        f"line 5: 004: to look at: the owner of 1 animal is written '{cell}', which has the name Huber Hans in it, and "
        "becomes an owner of its own: write only the name of the one who has the animal"
    )
    assert "Kunz" not in done.told
