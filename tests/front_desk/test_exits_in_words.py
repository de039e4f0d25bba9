"""What a cell says of an exit in words: with a day, without one, or that the animal lives."""
from __future__ import annotations

import pytest

from front_desk.desk import Desk


def without_day(word: str) -> str:
    """What is told of exits without a day, behind the texts."""
    return (
        "such an animal counts as gone, on a day that isn't known unless the book has it; where you know the day, "
        f"write it as 01.03.2001, or after the word, as {word} 01.03.2001"
    )


def test_exits_in_words(desk: Desk) -> None:
    """What a cell says of an exit: a day within a text, a word alone, or that the animal lives."""
    cells = [
        ("geschlachtet 12.11.2022", "2022-11-12"), ("12.11.2022 (verkauft)", "2022-11-12"),
        ("died 2021-02-03.", "2021-02-03"), ("sold 2020", "2020-12-31"),
        ("verk. 11.2021 an Meier", "2021-11-30"), ("vendu le 03/04/2021", "2021-04-03"),
        ("verkauft 31.02.2020", "2020-02-29"), ("2021-02-03 10:00", "2021-02-03"),
        ("sold 3.4.2020, died 5.6.2021", "gone"), ("tot", "gone"), ("sold for 2020 EUR", "gone"),
        ("12.11.22", "2022-11-12"), ("verkauft 12.11.22", "2022-11-12"), ("about 1950", "gone"), ("ja", "gone"),
        ("nein", ""), ("-", ""), ("im Bestand", ""), ("alive", ""), ("vivante", ""), ("", ""),
    ]  # fmt: skip
    done = desk.take(
        "id;sex;born;sire;dam;exit\n" + "".join(f"a{at};M;2001-01-01;;;{cell}\n" for at, (cell, _) in enumerate(cells)),
        "--unknown",
        "tot",
    )
    left = {line.split(",")[1]: line.split(",")[2] for line in desk.commands() if line.startswith("exit")}
    unknown = {row["id"] for row in desk.table("book/ids.csv") if row["exit"].startswith("day unknown")}
    for at, (cell, wanted) in enumerate(cells):
        id = f"a{at}"
        found = left.get(desk.numbers()[id], "gone" if id in unknown else "")
        assert found == wanted, f"exit {cell!r}: {found!r}; wanted {wanted!r}"
        assert (f": {id}: " in done.told) == bool(wanted and cell[:4] != "2021" and cell != "12.11.22"), f"exit {cell!r} is told: {done}"
    done.tells(
        (
            "to look at: two digits of the year in 2 cells of the column 'exit': '12.11.22' in line 13 is read as "
            "2022-11-12, and the others alike"
        ),
        (
            "line 15: a13: its exit is left out: the day in 'about 1950' would be before its birth; the animal "
            "counts as gone"
        ),
        (
            "to look at: 1 of 15 cells that tell of an exit in the column 'exit' can't be read, the first in line 15: "
            "'about 1950': such an animal counts as gone; write days as 2001-03-01 or 01.03.2001, a word such as sold, "
            "verkauft or vendu where the day isn't known, and nothing or alive, lebt or vivant where the animal hasn't "
            "left; or name another column by --columns; if 'about 1950' tells of no exit, say --unknown 'about 1950'"
        ),
        (
            "to look at: an exit without a day stands in 4 of 15 cells that tell of an exit in the column 'exit', the "
            "first in line 10: 'sold 3.4.2020, died 5.6.2021', 'tot', 'sold for 2020 EUR', "
            f"'ja': {without_day('sold')}"
        ),
    )
    # what a sheet without the column says changes nothing
    before = desk.ids()
    desk.take("id;sex;born;sire;dam\n" + "".join(f"a{at};M;2001-01-01;;\n" for at in range(len(cells))))
    assert desk.ids() == before


def test_exits_in_words_alone(desk: Desk) -> None:
    """A column that has words and no day is taken: what is told says what they mean and how a day is written, and
    that is read."""

    def sheet(*cells: str) -> str:
        rows = (f"a{at};2001-01-01;;;{cell}\n" for at, cell in enumerate(cells))
        return "Tier;geboren;Vater;Mutter;Abgang\n" + "".join(rows)

    done = desk.take(sheet("verkauft", "tot", "verkauft", "sold", "vendu", "lebt", "alive", "vivant", ""))
    done.tells(
        "to look at: an exit without a day stands in 5 of 5 cells that tell of an exit in the column 'Abgang', the "
        f"first in line 2: 'verkauft' (2 times), 'tot', 'sold', 'vendu': {without_day('verkauft')}"
    )
    assert "can't be read" not in done.out
    # two cells are too few for a wrong column
    assert (
        "2 of 2 cells that tell of an exit in the column 'Abgang' can't be read"
        in desk.take(sheet("Hof", "Hof"), "--book", "two").out
    )
    assert [bool(row["exit"]) for row in desk.table("book/ids.csv")] == [True] * 5 + [False] * 4
    done = desk.take(sheet("verkauft 01.03.2001", "01.03.2001", "verkauft", "sold", "vendu", "", "", "", ""))
    assert [line[-16:] for line in desk.commands()[-2:]] == [",2001-03-01,,,,,"] * 2
    # a day that the book has stays where a word replaces it
    done = desk.take(sheet("verkauft", "tot", "verkauft", "sold", "vendu", "", "", "", ""))
    done.tells(
        "line 2: a0: its exit is left out: 'verkauft' has no day; the animal counts as gone",
        "line 2: a0: inferred: exit on 2001-03-01, as in the book, since its cell gives no day",
    )
    # a day that is filed by hand is known, and the word stays with it
    desk.good("exit", "a2", "--day", "2012-01-01")
    assert [row["exit"] for row in desk.table("book/ids.csv")][2:4] == ["'verkauft'", "day unknown: 'sold'"]


@pytest.mark.parametrize(
    "cell, left",
    [
        ("nicht verkauft", "stays"), ("noch da", "stays"), ("not sold", "stays"), ("still here", "stays"),
        ("non vendue", "stays"), ("pas morte", "stays"), ("noch nicht verkauft 3.4.2020", "stays"),
        ("Zugang 13.1.2021", "stays"), ("gekört 13.1.2021", "stays"), ("am Leben", ""), ("vorh.", ""),
        ("im Herdbuch", ""), ("+", "gone"), ("nicht mehr am Leben", "gone"), ("nicht verkauft, verendet", "gone"),
        ("verk. 1.5.20 (zurück 3.6.20)", "doubt"), ("sold then bought back", "doubt"), ("verkauft? 2020", "doubt"),
        ("gest. 3.2.2020", "2020-02-03"), ("schl. 3.2.2020", "2020-02-03"), ("abg. 3.2.2020", "2020-02-03"),
        ("before 2021", "2020-12-31"), ("vor dem 1.3.2020", "2020-02-29"), ("after 1.5.2020", "2020-05-01"),
        ("bis 2020", "2020-12-31"), ("Anf. 2021", "2021-04-30"), ("verk. 3.4.20 50 EUR", "2020-04-03"),
        ("pas de sortie", "stays"), ("13.01.20l9", "gone"),
    ],
)  # fmt: skip
def test_words_that_deny_an_exit(desk: Desk, cell: str, left: str) -> None:
    """A negated exit is none, and is told; one that isn't sure, or after which the animal came back, is told."""
    done = desk.take(f"id;sex;born;sire;dam;exit\na;M;2001-01-01;;;\nb;F;2001-01-02;;;{cell}\n")
    days = [line.split(",")[2] for line in desk.commands() if line.startswith("exit")]
    [animal] = [one for one in desk.table("book/ids.csv") if one["id"] == "b"]
    is_gone = bool(days) or animal["exit"].startswith("day unknown")
    assert is_gone == (left not in ("", "stays"))
    assert days == [left] if left[:2] == "20" else not days or left == "doubt"
    assert ("tells of something other than an exit, in line 3" in done.out) == (left == "stays")
    told = f"line 3: b: to look at: '{cell}' tells of an exit that isn't certain, or after which the animal came back"
    assert (told in done.out) == (left == "doubt")
    assert "tells of no exit" not in done.out or cell[:2] not in ("ge", "sc", "ab")


def test_words_of_a_status_named(desk: Desk) -> None:
    """What a status says where the exit is empty is told of the column of the status."""
    rows = "".join(f"a{at};M;2001-01-0{at};;;;lebt\n" for at in range(1, 7))
    rows += "b;F;2001-01-02;;;;potted\nc;F;2001-01-02;;;;tot\nd;F;2001-01-02;;;Hof;lebt\ne;F;2001-01-02;;;tot;\n"
    done = desk.take("id;sex;born;sire;dam;Left on;Whereabouts\n" + rows, "--unknown", "x")
    done.tells(
        "to look at: 1 of 2 cells that tell of an exit in the column 'Whereabouts' can't be read, the first in line 8: "
        "'potted': such an animal counts as gone; write days as 2001-03-01 or 01.03.2001, a word such as sold, verkauft "
        "or vendu where the day isn't known, and nothing or alive, lebt or vivant where the animal hasn't left; or name "
        "another column by --columns; if 'potted' tells of no exit, say --unknown potted"
    )
    assert "1 of 2 cells that tell of an exit in the column 'Left on' can't be read, the first in line 10: 'Hof'" in done.told
    for title, line in ("Whereabouts", 9), ("Left on", 11):
        told = f"1 of 2 cells that tell of an exit in the column '{title}', the first in line {line}: 'tot'"
        assert told in done.told


@pytest.mark.parametrize("title, yes", [("Dead", "Y"), ("tot", "J"), ("mort", "O"), ("Died", "1"), ("verkauft", "x")])
def test_yes_in_a_column_of_exits(desk: Desk, title: str, yes: str) -> None:
    """It says what the title does, in whatever letter; a no is none."""
    rows = f"a;M;2001-01-01;;;{yes}\nb;F;2001-01-01;;;N\nc;F;2004-01-01;a;b;\n"
    done = desk.take(f"id;sex;born;sire;dam;{title}\n{rows}")
    assert "can't be read" not in done.told and "--unknown" not in done.told
    assert [row["id"] for row in desk.table("book/ids.csv") if row["exit"]] == ["a"]


@pytest.mark.parametrize(
    "cell", ["Verkauf 14.10.2019 rückgängig", "14.10.2019 storniert", "verkauft an Huber 2019, storniert", "sale cancelled"]
)
def test_sale_that_was_undone(desk: Desk, cell: str) -> None:
    """The animal stays with its owner, and that is told."""
    sheet = f"id;sex;born;sire;dam;owner;exit\na;M;2001-01-01;;;Huber;\nb;F;2001-01-01;;;Kunz;{cell}\n"
    done = desk.take(sheet)
    assert f"tells of something other than an exit, in line 3: '{cell}': the animal stays" in done.out
    assert not any(row["exit"] for row in desk.table("book/ids.csv")) and "exit," not in "\n".join(desk.commands())
    assert desk.transfer_days() == []
    desk.take(sheet.replace(cell, f"{cell}, gestorben 2020"), "--book", "dead")
    assert [row["id"] for row in desk.table("dead/ids.csv") if row["exit"]] == ["b"]
    exits = [line for line in desk.text("dead/commands.csv").splitlines() if line.startswith("exit,")]
    assert len(exits) == 1 and ",2020-" in exits[0]


@pytest.mark.parametrize("birth", ["14.3.2018 †", "tot geboren 14.3.2018", "stillborn 14/3/2018"])
def test_death_in_a_birth(desk: Desk, birth: str) -> None:
    """That is told of an animal that counts as living, and of none that has left."""
    sheet = f"id;sex;born;sire;dam;exit\na;M;2001-01-01;;;\nb;F;{birth};;;\nc;F;{birth};;;3.4.2019\n"
    told = [line for line in desk.take(sheet, "--preview").out.splitlines() if "tells of a death" in line]
    assert len(told) == 1 and told[0].startswith(f"line 3: b: to look at: its birth '{birth}' tells of a death")
