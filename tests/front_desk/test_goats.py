"""A society of goats: words in cells for days and sexes, parents that are misspelt or written by name, and what pages
say of these."""
from __future__ import annotations

import pytest

from front_desk.desk import Desk
from front_desk.test_exits_in_words import without_day

GOATS = """\
    Ohrmarke;Name;Geschlecht;Geburtsdatum;Vater;Mutter;Besitzer;Abgang
    CH 120.1150.1;Max;Bock;01.03.2015;;;Hof Süd;
    CH 120.1150.2;Clara;Ziege;02.03.2015;;;Hof Süd;
    CH 120.1158.7;Luna;Z;31.02.2017;CH 120.1150.1;CH 120.1150.2;Hof Süd;
    CH 120.1158.9;Leo;B;03.04.2017;CH 120.1150.1;CH 120.1150.2;Hof Nord;geschlachtet 12.11.2022
    CH 120.1160.1;Kuno;B.;09.05.2018;CH 120.1150.8;CH 120.1157.8;Hof Nord;verkauft
    CH 120.1160.2;Max;Bock;09.05.2019;Leo;Luna;Hof Nord;
    CH 120.1160.3;Maja;Ziege;09.05.2021;CH 120.1160.3;Luna;;
    CH 120.1160.4;Mia;Ziege;09.05.2021;CH 120.1160.2;CH 120.1158.9;Hof Nord;lebt
    CH 120.1160.5;Mo;Q;09.05.2021;Max;CH 120.1158.7;Hof Nord;
    CH 120.1160.4;Mira;Ziege;10.05.2021;CH 120.1160.2;CH 120.1158.9;Hof Nord;lebt
    """


def certificate(desk: Desk, id: str, *words: str) -> str:
    desk.good("certificate", id, "--force", "--out", "page.html", *words)
    body = next(part for part in desk.page("page.html") if part.tag.endswith("body"))
    return " ".join(" ".join(body.itertext()).split())


@pytest.fixture
def goats(desk: Desk) -> Desk:
    """A desk with the society's book."""
    desk.take(GOATS)
    return desk


def test_goats(desk: Desk) -> None:
    """What is told of the sheet."""
    done = desk.take(GOATS)
    done.tells(
        (
            "to look at: words for sexes are read as others of the column: 'B' as 'Bock', 'B.' as 'Bock', 'Z' as 'Ziege'"
        ),
        (
            "line 4: CH 120.1158.7: inferred: birth day 2017-02-15, from the month 2017-02, since there is no day "
            "31.02.2017"
        ),
        "line 5: CH 120.1158.9: inferred: exit on 2022-11-12, from 'geschlachtet 12.11.2022'",
        "line 6: CH 120.1160.1: its exit is left out: 'verkauft' has no day; the animal counts as gone",
        (
            "line 6: CH 120.1157.8: added: the dam of CH 120.1160.1 has no row: added without parents (is CH "
            "120.1158.7 meant?)"
        ),
        "CH 120.1150.8: inferred: birth day 2016-05-09, from its offspring (line 6 names it)",
        (
            "to look at: 1 of 9 cells that say something in the column 'Geschlecht' can't be read, the first in line "
            "10: 'Q': write M or F, or say which sex each word is by --sexes; if 'Q' is male, say --sexes Q=m; if 'Q' "
            "is female, say --sexes Q=f"
        ),
        (
            "to look at: an exit without a day stands in 1 of 2 cells that tell of an exit in the column 'Abgang', the "
            f"first in line 6: 'verkauft': {without_day('verkauft')}"
        ),
        "line 10: CH 120.1160.5: the row is left out: its sex can't be read, and no animal has it as a parent",
        (
            "line 11: CH 120.1160.4: the row is left out: line 9 has this id too (name 'Mira', there 'Mia'; birth "
            "'10.05.2021', there '09.05.2021'); line 9 is taken: if this is another animal, give it an id of its own, "
            "also where its offspring name it"
        ),
    )
    assert "book: 10 animals, 8 new, " in done.last
    assert " 2 added, 0 gone" in done.last
    assert "since nothing else is known" not in done.out
    assert sum(line.startswith("exit,") for line in desk.commands()) == 1


def test_advice_for_goats(goats: Desk) -> None:
    """Males that left, and one that was added, aren't listed, but may be named."""
    done = goats.good("mating", "--dam", "Clara")
    assert [line.split(",")[0] for line in done.out.splitlines()] == ["id", "CH 120.1150.1", "CH 120.1160.2"]
    passed = "gudokeyi: males without a row in the sheet: 1 (CH 120.1150.8) aren't listed: name one, if it lives\n"
    assert done.err == "gudokeyi: males that left: 2 aren't listed: --left lists them too\n" + passed
    assert len(goats.listed("mating", "--dam", "Clara", "CH 120.1150.8")) == 1


def test_goats_again(goats: Desk) -> None:
    desk, before = goats, goats.commands()
    again = desk.take(GOATS)
    why = "as in the book, where it was inferred: from its offspring"
    again.tells(f"CH 120.1150.8: inferred: birth day 2016-05-09, {why} (line 6 names it)")
    assert desk.commands() == before
    assert " 0 new, 0 changed" in again.last and "anew" not in again.out


@pytest.mark.parametrize(("language", "left", "since"), [
    ("en", "Left has left, day unknown", "Owner since not known"),
    ("de", "Abgang abgegangen, Tag unbekannt", "Besitzer seit nicht bekannt"),
    ("fr", "Sortie sortie, jour inconnu", "Propriétaire depuis non connu"),
])  # fmt: skip
def test_exit_without_a_day_on_a_certificate(goats: Desk, language: str, left: str, since: str) -> None:
    """What a certificate says of an exit without a day, and of the owner's first day."""
    text = certificate(goats, "Kuno", "--language", language)
    assert "(" not in text.split(left)[0]
    assert left in text
    assert since in text


def test_parents_on_a_certificate(goats: Desk) -> None:
    """What a certificate says of parents that the sheet writes otherwise."""
    text = certificate(goats, "Mia", "--language", "de")
    assert "kein Abgang" in text
    assert "Vatersvater CH 120.1158.9 (erschlossen) Leo" in text
    assert "Mutter unbekannt (in der Tabelle: CH 120.1158.9)" in text
    assert "und wurde weggelassen." in text
    text = certificate(goats, "CH 120.1158.9")
    assert "Left 2022-11-12 Breed" in text
    assert "in the sheet" not in text


def test_pictures_of_goats(goats: Desk) -> None:
    goats.good("pedigree", "Mia", "--language", "de", "--out", "tree.svg")
    text = "".join(goats.page("tree.svg").itertext())
    assert "Abstammung von CH 120.1160.4, Mia" in text
    assert "geboren 09.05.2019" in text
    assert "F\u00a025,00\u00a0%" in text
    goats.good("trend", "--language", "fr", "--out", "trend.svg")
    text = "".join(goats.page("trend.svg").itertext())
    assert "par année de naissance" in text
    assert "2019: 25,00\u202f% en moyenne de 1" in text


def test_corrected_goats(goats: Desk) -> None:
    """A misspelt tag is corrected: what stood for it is gone, and is no sire. An exit may get its day, or be
    withdrawn."""
    desk = goats
    sheet = (
        GOATS.replace("CH 120.1150.8", "CH 120.1150.1")
        .replace("CH 120.1157.8", "CH 120.1158.7")
        .replace("verkauft", "verkauft am 3.4.2020")
    )
    done = desk.take(sheet)
    done.tells(
        "CH 120.1150.8: gone: no animal has it as a parent any more, and stays in the book as it is",
        "line 6: CH 120.1160.1: changed: exit: 2020-04-03, before day unknown",
    )
    done = desk.good("mating", "--dam", "Clara", "--left")
    assert "CH 120.1150.8" not in done.out
    assert len(done.out.splitlines()) == 5
    assert "1 (CH 120.1150.8)" in done.err
    assert "2 (CH 120.1150.8, CH 120.1157.8): added as parents, or gone" in desk.good("list").err
    done = desk.take(sheet.replace("verkauft am 3.4.2020", "lebt").replace("Luna;Z;31.02.2017", "Luna;Q;31.02.2017"))
    done.tells(
        "line 6: CH 120.1160.1: changed: exit: none, before 2020-04-03",
        "line 4: CH 120.1158.7: inferred: female, as in the book, since its cell can't be read",
    )
    assert certificate(desk, "Kuno").count("has not left") == 1
    # a row that is gone is no sire either
    rows = [row for row in sheet.splitlines(keepends=True) if ";Leo;B;" not in row and ";Max;Bock;01" not in row]
    done = desk.take("".join(rows))
    done = desk.run("mating", "--dam", "Clara", "--all")
    assert [line.split(",")[0] for line in done.out.splitlines()] == ["id", "CH 120.1160.2"]
    assert "3 (CH 120.1150.1, CH 120.1150.8, CH 120.1158.9)" in done.err
    # the mark of a parent by name stays while the sheet says no other
    assert "CH 120.1158.9 (inferred) Leo" in certificate(desk, "Mia")
