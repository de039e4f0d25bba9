"""Ids that are written otherwise: as other numbers, with other signs, zeros and letters that look alike."""
from __future__ import annotations

import random

import pytest

from gudokeyi.ingest.spellings import LOOK_LIKE, Spellings, latin, spellings
from gudokeyi.ingest.unknown_parents import UnknownParents

ALIKE = [
    ("1.0", "1"), ("1,0", "1"), ("1e+05", "100000"), ("1.2e5", "120000"), ("+7", "7"), ("007", "7"), ("-2.0", "-2"),
    ("12.10", "12.1"), ("1,234", "1234"), ("1.000", "1000"), ("GB12", "GB-12"), ("gb_12", "GB/12"), ("DE 0012 034", "de-12-34"),
    ("DE 12 34", "DE1234"), ("DE120034", "DE 12 0034"), ("A 1", "a1"), ("O12", "012"), ("I5", "l5"), ("12-1", "121"),
    ("\u041012", "A12"), ("\u03912", "a2"), ("\uff11\uff12", "12"), ("\uff27\uff22 12", "gb-12"), ("\u03f91", "c1"),
    ("\u0405\u051a\u051c7", "SQW7"), ("\u0555\u053c\u054d1", "OLU1"), ("\u0584\u0570\u057d2", "fhu2"), ("\u0437\u0431", "36"),
    ("\u041f1", "\u043f1"), ("\u0141\u00d89", "lo9"), ("\u0407\u04015", "ie5"), ("Zo\u00eb 1", "Zoe 1"), ("Zoe\u0308 1", "Zo\u00eb1"),
]  # fmt: skip
OTHERS = [
    ("1.0", "10"), ("1e+05", "105"), ("-2", "2"), ("12", "120"), ("12", "102"), ("A1", "A2"), ("A1", "1A"), ("L5", "15"),
    ("1e99", "1"), ("x", "1"), ("", "0"), ("-", "?"),
]  # fmt: skip


@pytest.mark.parametrize(("one", "other"), ALIKE)
def test_ids_that_are_meant_alike(one: str, other: str) -> None:
    for id, text in (one, other), (other, one):
        assert Spellings({id, "x9", ""}).meant(text) == id


def test_look_alike_letters() -> None:
    """Each stands in one row of the table, and is read alike whether it is a capital or not."""
    letters = [one for others in LOOK_LIKE.values() for one in others]
    assert len({*letters}) == len(letters) > 100 and not any(one.isascii() for one in letters)
    for letter, others in LOOK_LIKE.items():
        assert all(
            latin(form).casefold() == letter.casefold() for one in others for form in (one, one.upper(), one.lower())
        )


@pytest.mark.parametrize(("one", "other"), OTHERS)
def test_ids_that_are_others(one: str, other: str) -> None:
    assert Spellings({one}).meant(other) == Spellings({other}).meant(one) == ""


def test_the_likeliest_id_is_meant() -> None:
    """A number before one that has its digits, whatever the order."""
    assert Spellings(["1000", "1"]).meant("1.000") == Spellings(["1", "1000"]).meant("1.000") == "1"
    assert Spellings(["GB-12", "G-B12"]).meant("GB12") == "GB-12"


def test_each_of_many_ids_is_found() -> None:
    """One is found of all where one by one has a spelling of the text."""
    draw = random.Random(8)
    ids = {
        "".join(draw.choice("01.oIaA-/ e") for _ in range(draw.randint(1, 5))) + draw.choice("1a") for _ in range(300)
    }
    texts = {
        "".join(draw.choice("01.oIaA-/ e") for _ in range(draw.randint(1, 5))) + draw.choice("1a") for _ in range(300)
    }
    spelled, found = {id: {*spellings(id)} for id in ids}, 0
    for text in texts - ids:
        meant, alike = Spellings(ids).meant(text), {id for id in ids if spelled[id] & {*spellings(text)}}
        assert meant in alike if alike else meant == "", f"{text}: {meant}, {alike}"
        found += bool(meant)
    assert 20 < found < 280


def test_unknown_parents_as_numbers() -> None:
    """As pandas writes them in a column that has empty cells too."""
    unknown = UnknownParents()
    assert all(text in unknown for text in ("-9.0", "-1.0", "0.0", "-99,0", "-9999.00", "nan"))
    assert not any(text in unknown for text in ("-2.0", "-9.5", "9.0", "-19.0", "-9.05"))
