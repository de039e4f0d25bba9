"""What cells tell of relatives and young of their animals: that these left says nothing of the animal of the row."""
from __future__ import annotations

import pytest

from gudokeyi.ingest.exit_words import tells_of_others
from front_desk.desk import Desk

TITLES = "Tag,Name,Sex,DOB,Sire,Dam,Owner,Bemerkung\n"
PAIR = "a1,Ann,f,2015-03-01,,,Meier,\na2,Ben,m,2015-03-02,,,Meier,\n"
YOUNG = "a3,Cal,m,2018-03-13,a2,a1,Meier,Vater tot\na4,Dan,m,2018-03-13,a2,a1,Meier,mère morte\n"


@pytest.mark.parametrize(
    "text",
    [
        "Vater tot", "mère morte", "sire dead", "Mutter verkauft 2020", "Vater CH0001 tot", "Mutter Heidi verkauft",
        "Mutter bei Geburt gestorben", "Vater † 2019", "Tod der Mutter", "mort de la mère", "Vater und Mutter tot",
        "Großmutter tot", "gesund, Mutter tot", "lebt, Vater tot", "la mère est morte", "Vater (tot)",
        "erster Wurf tot", "Wurf 8 St., 3 tot", "Wurfgeschwister alle eingegangen", "Mutter verendet, Ammenaufzucht",
        "sa mère est morte à sa naissance", "mother died at calving - bucket reared", "lost tag, retagged 4/5/22",
        "twin to 0345, which died at birth", "2 Lämmer verkauft", "1 Lamm verendet", "2. Wurf: alle tot", "left ear",
        "1. Wurf totgeboren", "3 kids sold 3/4/20", "2 agneaux morts", "litter of 8, 3 dead", "her calf died",
        "Zwilling zu 0345, der bei der Geburt verendet ist", "lost an eye 2020",
    ],
)  # fmt: skip
def test_relatives(text: str) -> None:
    assert tells_of_others(text)


@pytest.mark.parametrize(
    "text",
    [
        "verkauft", "mit Mutter verkauft", "with dam sold", "tot, Mutter a1", "Vater unbekannt verkauft 2020",
        "Mutter tot, verkauft 2020", "von der Mutter getötet", "sold to Van Dam", "Vater lebt", "Mutter a1",
        "gestorben nach Tod der Mutter", "Vater a1; verkauft 2020", "Mutterschaf verkauft", "avec sa mère vendue",
        "verkauft an Vater Meier", "gute Mutter, tot", "good mother, died 2020", "Vater von 12 Lämmern, tot",
        "nach Wurf 3.4.22 eingegangen", "beim 2. Wurf gestorben", "mit 2 Lämmern verkauft", "als Kalb verendet",
        "Zwilling verkauft 3.4.20", "lost 3/4/20", "left", "tot, 3 Lämmer", "verkauft, 3 Lämmer tot", "litter A, sold 2020",
        "lost to fox", "Wurf 2019, verendet 3.4.20", "lost tag, sold 2020",
    ],
)  # fmt: skip
def test_animals_themselves(text: str) -> None:
    assert not tells_of_others(text)


def test_no_column_is_offered(desk: Desk) -> None:
    """Remarks on parents offer no column of exits, and nothing is told of them."""
    done = desk.take(TITLES + PAIR + YOUNG + "a5,Eva,f,2018-03-14,a2,a1,Meier,Vater tot\n", "--preview")
    assert "Bemerkung" not in done.out.replace("not read: 'Bemerkung'", "")


def test_others_in_the_column(desk: Desk) -> None:
    """An animal that left itself is told beside them."""
    done = desk.take(TITLES + PAIR + YOUNG + "a5,Eva,f,2018-03-14,a2,a1,Meier,verstorben\n", "--preview")
    assert "1 cell of it tells that an animal left which has no exit: 'verstorben' in line 6" in done.out


def test_column_named_for_exits(desk: Desk) -> None:
    """Where somebody names the column, those whose parents left stay, which is told."""
    done = desk.take(TITLES + PAIR + YOUNG, "--preview", "--columns", "status=Bemerkung")
    assert "2 cells of the column 'Bemerkung' tell of something other than exits, the first in line 4: 'Vater tot'" in done.out
    assert "counts as gone" not in done.out


@pytest.mark.parametrize("titles", ["Exit,Status", "Exit,Reason"])
def test_day_of_an_exit_beside_it(desk: Desk, titles: str) -> None:
    """The day of an exit in its own column stays one, whatever another column says of a parent."""
    rows = "a3,Cal,m,2018-03-13,a2,a1,2020-05-04,Vater tot\na4,Dan,m,2018-03-13,a2,a1,2021-05-04,verkauft\n"
    desk.take(TITLES.replace("Owner,Bemerkung", titles) + "a1,Ann,f,2015-03-01,,,,\na2,Ben,m,2015-03-02,,,,\n" + rows)
    assert len([line for line in desk.commands() if line.startswith("exit")]) == 2


@pytest.mark.parametrize("text", ["erster Wurf tot", "Wurf 8 St., 3 tot", "lost tag, retagged", "twin to 7, which died at birth"])
def test_young_and_tags(desk: Desk, text: str) -> None:
    """Remarks on them aren't counted among those that tell that an animal left."""
    rows = "".join(f"a{at},Eva,f,2018-03-14,a2,a1,Meier,{said}\n" for at, said in enumerate(["verstorben", "scheu", "lahm"], 5))
    done = desk.take(TITLES + PAIR + rows + f'a9,Fee,f,2018-03-14,a2,a1,Meier,"{text}"\n', "--preview")
    assert "1 cell of it tells that an animal left which has no exit: 'verstorben' in line 4" in done.out
