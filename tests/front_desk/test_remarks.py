"""Cells of columns that nobody reads, as those of remarks: they tell of animals that left, or are castrated."""
from __future__ import annotations

import pytest

from gudokeyi.ingest.many_texts import likely_among
from gudokeyi.ingest.remarks import telling_exits, tells_castration
from front_desk.desk import Desk

TITLES = "Tag,Name,Sex,DOB,Sire,Dam,Exit,Bemerkung\n"
PAIR = "a1,Ann,f,2015-03-01,,,,braun\na2,Ben,m,2015-03-02,,,,left ear\n"
OTHERS = "b1,Ida,f,2015-03-01,,,,lahm\nb2,Ole,m,2015-03-02,,,,gute Wolle\nb3,Pia,f,2015-03-02,,,,scheu\n"
OF_EXITS = "the column 'Bemerkung' isn't read for exits, and "
OF_SEXES = "the column 'Bemerkung' isn't read for sexes, and "


EXITS = [
    "† 3/2020", "eingeschl. 3/2020", "totgeboren", "totgeboren 3.4.2020", "5/2020 tot geboren", "mort-né le 3/9/19",
    "1 Lamm totgeboren; verkauft 2022", "stillborn", "PTS Jan 2022", "put to sleep", "Schlachter 3/20",
    "zum Metzger 3.4.20", "boucherie 2020", "réformée 2020", "vom Wolf gerissen", "gerissen", "R.I.P.", "+ 12.3.20",
    "+ 3/2020", "left 2020", "geschl. 3/20", "mort-né", "Wolfsriss", "Luchs", "vom Hund gerissen",
    "vom Blitz erschlagen 3.7.2020", "Blitzschlag", "abgestürzt auf der Alp", "Notschlachtung 3/20", "vermisst",
    "vermisst seit Herbst 2020", "Diebstahl", "nicht mehr im Bestand", "lebt nicht mehr", "predation", "killed by wolf",
    "struck by lightning", "drowned 2020", "lost", "missing", "missing since May", "theft", "Export",
    "no longer in flock", "prédation", "loup", "attaque de loup le 3/9/19", "disparue", "disparue depuis mai", "foudroyé",
    "tuée par un chien", "perdue", "n'est plus là",
]  # fmt: skip


@pytest.mark.parametrize("text", EXITS)
def test_exits(desk: Desk, text: str) -> None:
    """They are told with the first, but not of an animal whose exit another column has."""
    rows = f"a3,Cal,m,2018-03-13,a2,a1,,{text}\na4,Dan,m,2018-03-13,a2,a1,2020-01-01,{text}\n"
    done = desk.take(TITLES + PAIR + rows + OTHERS)
    done.tells(
        f"to look at: {OF_EXITS}1 cell of it tells that an animal left which has no exit: '{text}' in line 4; the animal "
        "counts as living: if it left, enter that in the column for exits"
    )
    assert OF_SEXES not in done.told


@pytest.mark.parametrize(
    "text",
    [
        "1 Lamm totgeboren 2021", "had a stillborn lamb 2024", "2 agneaux mort-nés", "2 tot geborene Lämmer 3.4.2020",
        "Kitz tot geboren", "2023: 2 stillborn", "2x totgeboren 2021", "veau mort-né", "1 mort-née", "Fohlen mortné 2020",
        "had stillborn 2020",
    ],
)  # fmt: skip
def test_young_born_dead(desk: Desk, text: str) -> None:
    """What is told of a dam's young tells of no exit of hers."""
    done = desk.take(TITLES + PAIR + f"a3,Cal,f,2018-03-13,a2,a1,,{text}\na4,Dan,f,2018-03-13,a2,a1,,totgeboren\n" + OTHERS)
    assert f"{OF_EXITS}1 cell of it tells that an animal left which has no exit: 'totgeboren' in line 5" in done.told


@pytest.mark.parametrize(
    "text",
    [
        "left", "left 12", "lost tag", "Schlachter Müller", "Ohr gerissen", "nicht verkauft", "for sale", "+++", "+4.5",
        "+ 2 kg", "x", "lebt", "retired 2020", "Herkunft: boucherie Martin", "nicht gemerzt",
        "2 Lämmer durch Wolfsriss verloren", "1 agneau noyé 2021", "Mutter abgestürzt", "boucle perdue",
        "Ohrmarke verloren", "tag missing", "one horn missing", "Wolf 2022 gesichtet", "nicht mehr tragend",
        "Export möglich", "Unfall 2020, geheilt",
    ],
)  # fmt: skip
def test_no_exits(text: str) -> None:
    assert not telling_exits([text], "Bemerkung")


@pytest.mark.parametrize("text", ["Wolf", "Luchs", "missing", "lost", "Foudre", "Bär"])
def test_words_of_other_columns(text: str) -> None:
    """In columns of remarks and causes they tell of exits; elsewhere they may be names, colours, or of other things."""
    titles = "Bemerkung", "Ursache", "Cause", "Rufname", "DNA", "Farbe"
    assert [title for title in titles if telling_exits([text], title)] == ["Bemerkung", "Ursache", "Cause"]


def test_exits_beside_a_status(desk: Desk) -> None:
    """Where a column of words is read beside that of the exits remarks are told too."""
    titles = TITLES.replace("Bemerkung", "Status,Bemerkung")
    done = desk.take(titles + "a1,Ann,f,2015-03-01,,,,alive,† 3/2020\na2,Ben,m,2015-03-02,,,,sold 2020-03-04,† 3/2020\n")
    assert "status from 'Status'" in done.out and OF_EXITS + "1 cell of it tells" in done.told


def test_many_remarks(desk: Desk) -> None:
    """They are told also among more different ones than anybody reads, whatever their letters."""
    many = "".join(f"b{at},,m,2015-03-01,,,,{text}\n" for at, text in enumerate(MANY))
    rows = "a3,Cal,m,2018-03-13,a2,a1,,eingeschläfert 3/2020\na4,Dan,m,2018-03-13,a2,a1,,kastriert 5/2019\n"
    done = desk.take(TITLES + PAIR + many + rows, "--preview")
    assert f"{OF_EXITS}1 cell of it tells that an animal left which has no exit: 'eingeschläfert 3/2020' in line" in done.out
    assert OF_SEXES + "1 cell of it tells" in done.out


CASTRATED = ["kastriert 5/2019", "castrated", "castré le 3/9/19", "gelded", "Wallach seit 2019", "wether"]
MANY = [f"Größe {at} cm; gute Wolle" for at in range(2_001)]
OTHERS_WITH_WORDS = ["left ear", "war Sieger", "Schlachter Müller", "ex Herde Huber", "gesterntot", "4.5+", "2 +"]


def test_likely_among_many() -> None:
    """Of very many texts those stay that tell something, as of few, and hardly any others."""
    telling = [*EXITS, *CASTRATED, "ver-kauft 2020", "VERKAUFT!", "mort–né", "DÉCÉDÉ", "ex Hengst 2019", "tot2020", "†"]
    assert all(telling_exits([text], "Bemerkung") or tells_castration(text) for text in telling)
    assert likely_among([*MANY, *telling, *OTHERS_WITH_WORDS]) == telling and likely_among(MANY) == []
    assert likely_among([*map(str, range(3_000))]) == [] and likely_among(few := ["left ear"]) is few


@pytest.mark.parametrize("text", CASTRATED)
def test_castrated(desk: Desk, text: str) -> None:
    """Told of males whose sexes don't say it, with the first."""
    rows = f"a3,Cal,m,2018-03-13,a2,a1,,{text}\na4,Dan,m,2018-03-13,a2,a1,,{text}\na5,Eva,f,2018-03-13,a2,a1,,{text}\n"
    said = f"a6,Fox,m (kastriert),2018-03-13,a2,a1,,{text}\na7,Gus,wether,2018-03-13,a2,a1,,{text}\n"
    done = desk.take(TITLES + PAIR + rows + said)
    done.tells(
        f"to look at: {OF_SEXES}2 cells of it tell that animals are castrated whose sexes don't, the first is '{text}' in "
        "line 4; they count as not castrated: if one is, enter that in the column for sexes, as male castrated"
    )
    assert OF_EXITS not in done.told
    mended = desk.take(TITLES + PAIR + rows.replace(",m,", ",male castrated,"))
    assert OF_SEXES not in mended.told and "male, castrated" in desk.good("show", "a3").out


@pytest.mark.parametrize(
    "text", ["nicht kastriert", "unkastriert", "to be castrated", "soll kastriert werden", "Eier gelegt", "pas castré"]
)
def test_not_castrated(text: str) -> None:
    assert not tells_castration(text)


def test_code_of_a_place(desk: Desk) -> None:
    """A word with a digit behind it is a code, and no castrated animal; the word alone is."""
    titles, row = "id;sex;birth;sire;dam;Postcode\n", "a{};M;200{}-01-01;;;{}\n"
    codes = "".join(row.format(at, at, code) for at, code in enumerate(["OX1", "OX12 3AB", "B1"]))
    assert "castrated" not in desk.take(titles + codes, "--preview").told
    assert "tells that an animal is castrated" in desk.take(titles + codes + row.format(5, 5, "Ox"), "--preview").told


def test_lines_of_remarks(desk: Desk) -> None:
    """Of several all lines are named, and the report has each animal."""
    rows = "".join(f"c{at},Cal,m,2018-03-{at:02},a2,a1,,geschl. 3/{at:02}\n" for at in range(1, 25))
    others = "".join(f"d{at},Eva,f,2018-03-{at:02},a2,a1,,scheu\n" for at in range(1, 25))
    done = desk.take(TITLES + PAIR + rows + others)
    lines = ", ".join(map(str, range(5, 24)))
    told = f"24 cells of it tell that animals left which have no exit, the first is 'geschl. 3/01' in line 4, the others in {lines}"
    done.tells(
        f"to look at: {OF_EXITS}{told} and 4 more; these animals count as living: if one left, enter that in the column "
        "for exits"
    )
    assert "c24" not in done.out
    said = [(row["line"], row["id"]) for row in desk.table("book/report.csv") if "'Bemerkung' says 'geschl. 3/" in row["why"]]
    assert said == [(str(at + 3), f"c{at}") for at in range(1, 25)]
