"""Cells of parents that are written like names or words and not like ids, and words for castrated males."""
from __future__ import annotations

import pytest

from front_desk.desk import Desk
from gudokeyi.ingest.sexes import Sexes
from gudokeyi.reconcile.near_names import have_digits, is_like_word

TITLES = "id;name;sex;born;sire;dam\n"
ANIMALS = (
    "DE-001;Fern 16;m;2001-01-01;;\nDE-002;Bella vom Hof;f;2001-01-01;;\nDE-003;Max X Moritz;m;2001-01-01;;\n"
    "DE-004;Kennel Anka;f;2001-01-01;;\n"
)  # fmt: skip
MEANT = "has no row: added without parents (is {} meant?)"


@pytest.mark.parametrize(
    "sire, dam, told",
    [
        ("Ch. Fern 16", "", MEANT.format("DE-001")),
        ("Fern 16 vom Bach", "", MEANT.format("DE-001")),
        ("Fern-16", "", MEANT.format("DE-001")),
        ("Max × Moritz", "", MEANT.format("DE-003")),
        ("", "Anka", MEANT.format("DE-004")),
        ("", "Bella vom Hoff", MEANT.format("DE-002")),
        ("", "Bela vom Hof", MEANT.format("DE-002")),
        ("", "Bella von Hof", MEANT.format("DE-002")),
    ],
)
def test_near_a_name(desk: Desk, sire: str, dam: str, told: str) -> None:
    """One that has a title or a prefix beside an animal's name, or a sign otherwise, is proposed."""
    done = desk.take(f"{TITLES}{ANIMALS}DE-005;;f;2004-01-01;{sire};{dam}\n")
    assert told in done.out and "like no id" not in done.out
    assert f"line 6: {sire or dam}: added: the {'sire' if sire else 'dam'} of DE-005 {told}" in done.out


def test_misspelt_by_a_letter_among_many(desk: Desk) -> None:
    """Also where many parents lack a row; one with another digit is another animal."""
    rows = "".join(f"DE-{at};;f;2004-01-01;DE-001;Founder {at}\n" for at in range(100, 106))
    done = desk.take(f"{TITLES}{ANIMALS}{rows}DE-005;;f;2004-01-01;Fern 17;Bella von Hof\n")
    assert f"line 12: Bella von Hof: added: the dam of DE-005 {MEANT.format('DE-002')}" in done.told
    assert len({line for line in done.told.splitlines() if "meant?" in line}) == 1


@pytest.mark.parametrize("sire", ["KB", "Ch. Hugo 9", "Ch. Fern 17", "IA", "2020-10-01", "1.10.2020"])
def test_like_no_id(desk: Desk, sire: str) -> None:
    """One that means no animal is told among what may be wrong, also where it stands once."""
    done = desk.take(f"{TITLES}{ANIMALS}DE-005;;f;2004-01-01;{sire};\n")
    assert f"{sire} has no row and is written like no id, and is the sire of 1\n" in done.out
    assert "if it means an unknown parent:" in done.out and "meant?" not in done.out
    done = desk.take(f"{TITLES}{ANIMALS}DE-005;;f;2004-01-01;{sire};\n", "--unknown", sire, "--drop-gone")
    assert "like no id" not in done.out and desk.parents()["DE-005"] == ("", "")


def test_without_a_digit_where_parents_have_some(desk: Desk) -> None:
    """Where nearly all parents are written by ids with digits; where many are by names, it may be one."""
    rows = "".join(f"DE-{at};;f;2004-01-01;DE-001;DE-002\n" for at in range(100, 110))
    for parent, is_told in (("DE-002", True), ("Anka", False)):
        done = desk.take(f"{TITLES}{ANIMALS}{rows}".replace("DE-001;DE-002", f"DE-001;{parent}")
                         + "DE-005;;f;2004-01-01;Hermann vom Berg;Berta\n", "--book", parent)  # fmt: skip
        told = "Hermann vom Berg has no row and is written like no id, and is the sire of 1"
        assert (told in done.told) == is_told


def test_no_word(desk: Desk) -> None:
    """An id of a founder is none, nor a word where ids are words; nor is one proposed that can't be the parent."""
    done = desk.take(f"{TITLES}{ANIMALS}DE-005;;f;2004-01-01;DE-900;Ch. Fern 16\n")
    assert "DE-900 has no row" not in done.out and "is DE-001 meant?" not in done.out
    assert "Ch. Fern 16 has no row and is written like no id, and is the dam of 1\n" in done.out
    assert have_digits(["a1", "b2", "c"]) is False and have_digits([*(f"a{at}" for at in range(20)), "c"])
    assert [is_like_word(one) for one in ("KB", "Ch. Fern 16", "Int.Ch. A", "Fern 16", "DE-1", "Berta")] == [
        True, True, True, False, False, False,
    ]  # fmt: skip


def test_words_as_ids(desk: Desk) -> None:
    done = desk.take(f"{TITLES}anna;;f;2001-01-01;;\nbert;;m;2001-01-01;;\ncleo;;f;2004-01-01;kb;anna\n")
    assert "like no id" not in done.out


@pytest.mark.parametrize(
    "text, wanted",
    [
        ("H (ex étalon)", ("M", True, "ex étalon")),
        ("H (ex-étalon)", ("M", True, "ex-étalon")),
        ("ancien étalon", ("M", True, "")),
        ("Wallach, früher Hengst", ("M", True, "früher Hengst")),
        ("étalon (ex poulain)", ("M", False, "étalon")),
        ("étalon", ("M", False, "")),
        ("H", ("M", True, "hongre")),
        ("M (neut)", ("M", True, "M")),
        ("M kastr.", ("M", True, "M")),
        ("F (neut)", ("F", False, "F")),
        ("weiblich, kastriert", ("F", False, "weiblich")),
        ("M (nicht kastriert)", ("M", False, "M")),
        ("châtré", ("M", True, "")),
        ("X F", ("", False, "")),
        ("ex", ("", False, "")),
    ],
)
def test_sex_words(text: str, wanted: tuple[str, bool, str]) -> None:
    assert Sexes(["M", "F", "hongre"], {}).find(text) == wanted


@pytest.mark.parametrize(
    "words, wanted",
    [
        (("ânesse", "Eselin", "Häsin", "jennet", "spayed"), "FFFFF"), (("Rammler", "maennlich"), "MM"),
        (("1,0", "0,1"), "MF"), (("1/0", "0/1"), "MF"), (("1.0", "0.1"), "MF"), (("1.0", "2.0"), "  "),
        (("1,0", "2,0"), "  "),
    ],
)  # fmt: skip
def test_more_sex_words(words: tuple[str, ...], wanted: str) -> None:
    """`1,0` is a male as breeders of small animals count them, where the column has no other numbers."""
    sexes = Sexes([*words], {})
    assert [sexes.find(word).sex or " " for word in words] == [*wanted]


def test_short_for_two() -> None:
    """A letter that is short for a castrated male and for one that isn't is a male."""
    assert Sexes(["Hengst", "hongre"], {}).find("H") == ("M", False, "Hengst")


def test_gelding(desk: Desk) -> None:
    """A stallion that was is a castrated male, and no sire is advised of it."""
    rows = "F-1;Ulysse;H (ex étalon);2001-01-01;;\nF-2;Uranie;F;2001-01-01;;\nF-3;Urban;M;2001-01-01;;\n"
    done = desk.take(TITLES + rows)
    assert "words for sexes are read as others of the column: 'H (ex étalon)' as 'ex étalon'" in done.out
    assert "male, castrated" in desk.good("show", "F-1").out and "castrated" not in desk.good("show", "F-3").out
    assert [line.partition(",")[0] for line in desk.good("mating", "--dam", "F-2").out.splitlines()] == ["id", "F-3"]


@pytest.mark.parametrize("castrated", ["mc", "hongre", "Wallach"])
def test_castrated_males_said(desk: Desk, castrated: str) -> None:
    """By the letters for one, or any word that is known for one."""
    sheet = "id;Sexe;birth;sire;dam\na;Entier;2010-01-01;;\nb;Z;2010-01-01;;\nc;Y;2010-01-01;;\n"
    done = desk.take(sheet, "--sexes", f"Z={castrated},Y=f")
    assert " 0 left out" in done.last
    shown = [desk.good("show", id).out.splitlines()[2].split(maxsplit=1)[1] for id in "abc"]
    assert shown == ["male", "male, castrated", "female"]
    assert " 0 changed" in desk.take(sheet).last
    # a letter that may be one is asked so
    sheet = "id;Sexe;birth;sire;dam\n" + "".join(f"{id};{id};2010-01-01;;\n" for id in ("m", "f", "H", "B"))
    words = "--breed", "HOL", "--country", "GBR", "--book", "two"
    [command] = [one for one in desk.take(sheet, *words).commands() if one.endswith("--sexes H=mc")]
    desk.typed(command)
    assert "male, castrated" in desk.good("show", "H", "--book", "two").out


@pytest.mark.parametrize(
    ("texts", "wanted"),
    [
        (("Entier", "H", "J"), "MCF"), (("Poulain", "H", "J"), "MCF"), (("Wallach", "H", "S"), "CMF"),
        (("mare", "G", "S"), "FCM"), (("Pouliche", "H", "J"), "F  "), (("Entier", "H", "J", "X"), "M   "),
        (("Stute", "H", "W"), "F C"),
    ],
)  # fmt: skip
def test_two_letters_of_three(texts: tuple[str, ...], wanted: str) -> None:
    """A word of the column stands for the third; where there are others, they aren't. `W` is none for a female beside
    one."""
    sexes = Sexes([*texts], {})
    found = [sexes.meaning(text) for text in texts]
    assert "".join("C" if one.is_castrated else one.sex or " " for one in found) == wanted


HORSES = "id;Sexe;birth;sire;dam\nb;{};2011-06-05;;\nj;{};2019-06-27;;\n"


@pytest.mark.parametrize(
    "before, after, had",
    [("Jument", "Hongre", "a female"), ("Hongre", "Jument", "a castrated male"), ("Étalon", "Hongre", ""),
     ("Jument", "Étalon", ""), ("", "Hongre", ""), ("Hongre", "Hongre", "")],
)  # fmt: skip
def test_mare_that_becomes_a_gelding(desk: Desk, before: str, after: str, had: str) -> None:
    """It is taken, and is something to look at; a stallion that was gelded is none."""
    desk.take(HORSES.format(before, "Hongre"))
    done = desk.take(HORSES.format(after, "Hongre"))
    told = f"line 2: b: to look at: its sex is '{after}', and the book has it as {had}: it is taken as the sheet says"
    assert (told in done.out) == bool(had) and done.out.count("the book has it as") == bool(had)
    assert ("changed: sex" in done.told) == (before not in ("Étalon", "Hongre") or after == "Jument")
