"""A list of a society of alpacas: letters for sexes, cells of parents that name nobody, and owners who are written in
two ways."""
from __future__ import annotations

import pytest

from front_desk.desk import Desk

TITLES = "Ohrmarke;Name;Geschl.;Typ;geb. am;Vater;Mutter;Halter\n"


def rows(*sexes: str) -> str:
    return "".join(f"AZV-{at:03};A{at};{sex};H;1.6.{2000 + at};;;Hof\n" for at, sex in enumerate(sexes, 1))


def sexes_of(desk: Desk) -> str:
    return "".join(desk.numbers()[id][6] for id in sorted(desk.numbers()))


@pytest.mark.parametrize(
    "words, sexes, told",
    [
        ("HSWW", "MFMM", "'H' as 'Hengst', 'S' as 'Stute', 'W' (2 times) as 'Wallach'"),
        ("hsw", "MFM", "'h' as 'Hengst', 's' as 'Stute', 'w' as 'Wallach'"),
        (["H", "S", "W", "Hengstfohlen"], "MFMM", "'H' as 'Hengstfohlen', 'S' as 'Stute', 'W' as 'Wallach'"),
        (["H", "S", "W", "weiblich"], "MFFF", "'H' as 'Hengst', 'S' as 'Stute', 'W' as 'weiblich'"),
        ("SMG", "MFM", "'G' as 'gelding', 'M' as 'mare', 'S' as 'stallion'"),
        ("EJH", "MFM", "'E' as 'étalon', 'H' as 'hongre', 'J' as 'jument'"),
        ("MWW", "MFF", ""),
        ("MFM", "MFM", ""),
    ],
)
def test_letters_for_sexes(desk: Desk, words: str | list[str], sexes: str, told: str) -> None:
    """Where a column has those of a male, a female and a castrated male, each stands for its word, which is told."""
    done = desk.take(TITLES + rows(*words))
    assert sexes_of(desk) == sexes
    assert (f"words for sexes are read as others of the column: {told}" in done.out) == bool(told)


def test_letters_that_are_named(desk: Desk) -> None:
    desk.take(TITLES + rows("H", "S", "W"), "--sexes", "W=f,S=f,H=m")
    assert sexes_of(desk) == "MFF"


@pytest.mark.parametrize("cell", ["Leihhengst", "tragend gekauft", "Import Peru", "Herdensprung", "siehe Züchter"])
def test_cells_that_name_no_parent(desk: Desk, cell: str) -> None:
    """They are asked about; a cross alone names nobody."""
    text = TITLES + rows("H", "S", "W") + f"AZV-020;Z;H;H;1.6.2019;{cell};†;Hof\n"
    done = desk.take(text, "--preview")
    assert f"to look at: {cell} has no row and is written like no id, and is the sire of 1" in done.out
    assert "like no id" not in desk.take(text.replace(cell, f"IMP-7 ({cell})"), "--preview").out
    desk.take(text, "--unknown", cell)
    assert desk.parents()["AZV-020"] == ("", "") and len(desk.numbers()) == 4


@pytest.mark.parametrize("sign", ["x", "X", "×"])
def test_names_of_two_parents(desk: Desk, sign: str) -> None:
    """An animal may have the names of both as its own, with a sign between them or a letter: a cell that names it isn't
    taken for the two, which a mating names. The sign alone names nobody."""
    text = TITLES + rows("H", "S", "W") + "AZV-020;A1 X A2;H;H;1.6.2010;;;Hof\nAZV-021;Z;S;H;1.6.2015;{};×;Hof\n"
    done = desk.take(text.format(f"A1 {sign} A2"), "--preview")
    assert (f"'A1 {sign} A2' is AZV-020" if sign != "×" else "(is AZV-020 meant?)") in done.out
    assert "it names two animals" not in done.out and "line 6: ×" not in done.out
    assert "it names two animals" in desk.take(text.replace("A1 X A2", "Zoe").format(f"A1 {sign} A2"), "--preview").out


def test_owners_in_two_ways(desk: Desk) -> None:
    """A first name before or behind the last one, words for a family, titles, articles and words for `and`; those of a
    man and of a woman are two."""
    owners = ["Müller, Petra", "Petra Müller", "Familie Brandt", "Fam. Brandt", "Huber", "Brandt, Ida"]
    owners += ["M. Lefèvre Jean", "Lefèvre Jean", "GAEC Bois Joli", "GAEC du Bois Joli", "K and D Barlow", "K & D Barlow"]
    owners += ["P Okafor", "Dr P. Okafor", "Mr A Smith", "Mrs A Smith", "de Vries", "Vries"]
    text = "".join(f"AZV-{at:03};A{at};m;H;1.6.{2000 + at};;;{one}\n" for at, one in enumerate(owners, 1))
    done = desk.take(TITLES + text)
    way = "differ in the order of first and last name, in a title or an article, or in how Familie, Brothers or and is written"
    for pair in "'Müller, Petra' (1 animal) and 'Petra Müller' (1 animal)", "'Fam. Brandt' (1 animal) and 'Familie Brandt' (1 animal)":
        assert f"the owners {pair} {way}" in done.told
    for one, other in ("Lefèvre Jean", "M. Lefèvre Jean"), ("GAEC Bois Joli", "GAEC du Bois Joli"), \
            ("K & D Barlow", "K and D Barlow"), ("Dr P. Okafor", "P Okafor"):
        assert f"the owners '{one}' (1 animal) and '{other}' (1 animal) {way}" in done.told
    assert sum(way in one for one in done.report) == 6


def test_owner_respelt_while_an_animal_is_sold(desk: Desk) -> None:
    """Nearly all animals of one who is now called otherwise tell of it, also where another has one of them."""
    text = "".join(f"AZV-{at:03};A{at};m;H;1.6.{2000 + at};;;K. Huber\n" for at in range(1, 10)) + rows("H").replace("001", "030")
    desk.take(TITLES + text)
    later = text.replace("K. Huber", "Karl Huber").replace("A9;m;H;1.6.2009;;;Karl Huber", "A9;m;H;1.6.2009;;;Hof")
    assert "the 8 animals of 'K. Huber' are now of 'Karl Huber', whom the book didn't have" in desk.take(TITLES + later).out


SHEEP = (
    "1;Max;W;1.3.2017;;\n2;Alma;{0};1.3.2018;;\n3;Moritz;W;2.3.2019;Max;Alma\n4;Cilia;{0};3.3.2022;Max;Alma\n"
    "5;Kuno;w;4.5.2022;;\n"
)
OF_SHEEP = "Ohrmarke;Name;Geschl.;Geb.;Vater;Mutter\n"


def test_letter_for_males(desk: Desk) -> None:
    """Where a letter for females is named, and `W` is read so too, it is asked whether that stands for the males."""
    told = (
        "to look at: each sex of the column 'Geschl.' is read as female: 'W' (3 animals), 'A' (2 animals): does one of "
        "these words stand for male, 'W' as for Widder or wether?"
    )
    for words in ("--sexes", "A=f"), ():
        # as the book remembers it
        done = desk.take(OF_SHEEP + SHEEP.format("A"), *words)
        assert done.out.splitlines().count(told) == 1 and desk.numbers()["5"][6] == "F"
    [command] = [one for one in done.commands() if one.endswith("--sexes W=m")]
    desk.typed(command)
    assert "".join(number[6] for number in desk.numbers().values()) == "MFMFM"
    assert "each sex of" not in desk.take(OF_SHEEP + SHEEP.format("A")).told
    assert "each sex of" not in desk.take(OF_SHEEP + SHEEP.format("A"), "--sexes", "A=f,W=f", "--book", "two").told


@pytest.mark.parametrize(
    "rows, is_told",
    [
        (SHEEP.format("Aue"), True),
        # a male, a word of one row, no parents, a sire whose row says no sex
        (SHEEP.format("Aue") + "6;M;m;4.5.2022;;\n", False),
        (SHEEP.format("W") + "6;M;Aue;4.5.2022;;\n", False),
        (SHEEP.format("Aue").replace("Max;Alma", ";"), False),
        (SHEEP.format("Aue").replace("Max;W", "Max;"), False),
    ],
)  # fmt: skip
def test_two_words_for_one_sex(desk: Desk, rows: str, is_told: bool) -> None:
    done = desk.take(OF_SHEEP + rows, "--preview")
    told = "is read as female: 'W' (3 animals), 'Aue' (2 animals): does one of these words stand for male?"
    assert (told in done.out) == ("each sex of" in done.out) == is_told
    options = [one.rpartition(" --sexes ")[2] for one in done.commands() if " --sexes " in one]
    assert options == (["W=m", "Aue=m"] if is_told else [])
