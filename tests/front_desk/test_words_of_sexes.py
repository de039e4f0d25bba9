"""Words for sexes of each kind of animal, and short forms of the column's words."""
from __future__ import annotations

import pytest

from gudokeyi.ingest.sexes import Sexes
from front_desk.desk import Desk

TITLES = "N°;Nom;Sexe;Né le;Père;Mère;Propriétaire\n"
PAIR = "A1;Quarto;baudet;12/03/2010;;;Duval\nA2;Ortie;ânesse;14/04/2010;;;Duval\n"
# for males, females, castrated males, and animals of either sex
OF_DONKEYS = "âne, ânon, Esel, Eselhengst", "ânesse, ânonne, Eselin", "âne castré, Eselwallach", "donkey"
OF_CATTLE = "Munikalb, bull calf", "Hfr, Kalbin, génisse", "blk, Str., Ochs, bouvillon", "Kalb, Rind, veau, he"
OF_GOATS = "Bockkitz, buckling", "Geißkitz, goatling, bique", "wether", "Kitz, Gitzi, kid, chevreau"
OF_SHEEP = "Widderlamm, antenais", "theave, Mutterlamm, Zutreterin", "wedder, Hammellamm", "Lamm, agneau"
OF_HORSES = "Deckhengst, entire", "broodmare, Mutterstute, poulinière", "gldg, Jungwallach", "Fohlen, foal"
OF_PIGS = "Zuchteber, verrat", "Jungsau, cochette", "Borg", "Ferkel, pig"
OF_DOGS = "Hund, Deckrüde", "Zuchthündin", "Rüde kastriert", "Welpe, pup"
OF_CATS = "tomcat, chat, matou", "chatte, Zuchtkätzin", "castrat", "cat, kitten"
OF_RABBITS = "Jungrammler, lapin", "Junghäsin, Zuchthäsin, Althäsin, lapine", "Frühkastrat", "Jungtier, lapereau"
OF_POULTRY = "cock, Gockel, drake, dindon", "hen, pullet, Junghenne, dinde", "capon, chapon", "Küken, chick"
OF_ALPACAS = "macho", "hembra", "kastriert", "cria"
KINDS = (
    OF_DONKEYS, OF_CATTLE, OF_GOATS, OF_SHEEP, OF_HORSES, OF_PIGS, OF_DOGS, OF_CATS, OF_RABBITS, OF_POULTRY, OF_ALPACAS,
)  # fmt: skip


def read(*texts: str, of: str = "") -> list[tuple[str, bool]]:
    """What some cells of a column say; of several, all."""
    sexes = Sexes([*texts], {})
    return [sexes.read(text) for text in texts if not of or text == of]


@pytest.mark.parametrize("males, females, castrated, either", KINDS)
def test_kinds_of_animals(males: str, females: str, castrated: str, either: str) -> None:
    """Each word has its own meaning beside all others."""
    words = [text.split(", ") for text in (males, females, castrated, either)]
    texts = [word for some in words for word in some]
    meanings = [("M", False), ("F", False), ("M", True), ("", False)]
    assert dict(zip(texts, read(*texts))) == {word: said for some, said in zip(words, meanings) for word in some}


@pytest.mark.parametrize(
    "text, longer, sex",
    [
        ("Hä.", "Häsin", "F"), ("Ramml.", "Rammler", "M"), ("Kal.", "Kalbin", "F"), ("St", "Stute", "F"),
        # a word, or what may be one
        ("Kalb", "Kalbin", ""), ("Kalb.", "Kalbin", ""), ("he", "heifer", ""), ("génis", "génisse", ""),
        # an animal of either sex may be meant as well
        ("Kal.", "Kalbin, Kalb", ""), ("K", "Kuh, Kalb", ""), ("K", "Kuh", "F"),
    ],
)
def test_short_forms(text: str, longer: str, sex: str) -> None:
    """A short form has a full stop or few letters, and stands for a word of the column."""
    assert read(text, *longer.split(", "), of=text) == [(sex, False)]


def test_males_that_are_called_as_their_kind(desk: Desk) -> None:
    """A male donkey stays one beside a jenny, and its foals of both sexes are known."""
    rows = (
        "A5;Filou;âne;15/03/2015;A1;A2;Duval\nA7;Hector;âne castré;21/04/2017;A1;A2;Leroy\n"
        "A9;Jules;ânon;21/05/2024;A1;A2;Leroy\nA10;Juno;ânonne;21/05/2025;A1;A2;Leroy\n"
    )
    done = desk.take(TITLES + PAIR + rows)
    sexes = {one["id"]: one["sex"] for one in desk.listed("list", "--columns", "id,sex")}
    assert [sexes[id] for id in ("A5", "A7", "A9", "A10")] == ["M", "M", "M", "F"]
    assert "male, castrated" in desk.good("show", "A7").out
    assert "words for sexes" not in done.told


def test_calves(desk: Desk) -> None:
    """A calf beside heifers is none of them: its sex is asked."""
    rows = "101;Stier;3.4.2015;;\n102;Kalbin;5.4.2015;;\n103;Kalb;3.2.2026;101;102\n"
    done = desk.take("Nr.;Geschlecht;geb.;Vater;Mutter\n" + rows)
    assert "'Kalb'" in done.out and "103" not in desk.numbers()
