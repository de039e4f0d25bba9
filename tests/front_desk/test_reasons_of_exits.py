"""Columns of words beside that of the days of exits: why animals left is kept beside the day, states such as `pet only`
are no exits, and a column of living animals tells which aren't any more."""
from __future__ import annotations

import datetime
import json

import pytest

from front_desk.desk import Desk
from front_desk.test_cells_as_notes import notes
from gudokeyi.domain.provenance import ExitBasis, ExitSource, Period
from gudokeyi.ingest.findings.exits import ExitInferred
from gudokeyi.ingest.words_beside import words_beside

HORSES = "N° SIRE;Nom;Sexe;Né(e) le;Père;Mère;Propriétaire;Sorti le;Motif de sortie\n"
ROWS = (
    "A;Amiral;Étalon;21/02/2010;;;GAEC;14/03/2023;Mort (colique)\nB;Bichette;Jument;05/06/2011;;;Moreau;11/2022;Boucherie\n"
    "C;Jo;Hongre;27/06/2019;A;B;EARL;;\nD;Ja;Hongre;27/06/2019;A;B;EARL;néant;RAS\n"
)


def reason(desk: Desk, id: str) -> tuple[str, str]:
    """The day of an exit, and what is kept beside it."""
    animal = json.loads(desk.good("show", id, "--json").out)["animal"]
    return animal["left"] or "", animal["exit_basis"]["text"]


def exits(desk: Desk) -> dict[str, str]:
    return {row["id"]: row["exit"] for row in desk.table("book/ids.csv") if row["exit"]}


def test_reason_beside_the_day(desk: Desk) -> None:
    """It is shown, listed and told with the history; the same sheet says nothing new, and what a sheet without such a
    column doesn't say stays."""
    assert "can't be read" not in desk.take(HORSES + ROWS).told
    assert reason(desk, "A") == ("2023-03-14", "Mort (colique)") and reason(desk, "B") == ("2022-11-30", "Boucherie")
    assert reason(desk, "C") == reason(desk, "D") == ("", "")
    assert "  exit          2023-03-14 (in the sheet: Mort (colique))\n" in desk.good("show", "A").out
    assert "exit 2023-03-14; exit in the sheet Mort (colique)" in desk.good("history", "1").out
    assert exits(desk) == {"A": "'Mort (colique)'", "B": "the month 2022-11: 'Boucherie'"}
    assert " 0 changed" in desk.take(HORSES + ROWS).last
    without = "".join(f"{row.rpartition(';')[0]}\n" for row in (HORSES + ROWS).splitlines())
    assert " 0 changed" in desk.take(without).last and reason(desk, "A") == ("2023-03-14", "Mort (colique)")
    rows = ROWS.replace("Boucherie", "Accident").replace("Mort (colique)", "").replace("EARL;;", "EARL;2.3.2024;Volé")
    done = desk.take(HORSES + rows)
    done.tells(
        "line 2: A: changed: exit in the sheet: none, before Mort (colique)",
        "line 3: B: changed: exit in the sheet: Accident, before Boucherie",
        "line 4: C: changed: exit: 2024-03-02, before none",
    )
    assert done.told.count("C: changed") == 1
    assert [reason(desk, id)[1] for id in "ABC"] == ["", "Accident", "Volé"]
    desk.good("undo")
    assert reason(desk, "A")[1] == "Mort (colique)"
    desk.good("verify")


def test_reason_and_another_day(desk: Desk) -> None:
    """A reason is that of its day; where the sheet gives the day of the book as a month it stays."""
    desk.take(HORSES + ROWS)
    without = HORSES.replace(";Motif de sortie", "") + "A;Amiral;Étalon;21/02/2010;;;GAEC;{}\n"
    desk.take(without.format("03/2023"), "--anyway")
    assert reason(desk, "A") == ("2023-03-14", "Mort (colique)")
    desk.take(without.format("15/04/2023"), "--anyway")
    assert reason(desk, "A") == ("2023-04-15", "")


def test_reason_of_a_day_that_cannot_be(desk: Desk) -> None:
    """It stands behind the cell: of one that can't be read, and of an exit before offspring were born."""
    rows = ROWS.replace("14/03/2023", "14/13/20x3").replace("11/2022", "01/01/2015")
    desk.take(HORSES + rows)
    assert exits(desk) == {
        "A": "day unknown: '14/13/20x3 (Mort (colique))'", "B": "day unknown: '01/01/2015 (Boucherie)'",
    }  # fmt: skip
    # once the offspring have no such dam the day is taken
    desk.take(HORSES + rows.replace("A;B;EARL", "A;;EARL"))
    assert reason(desk, "B") == ("2015-01-01", "Boucherie")


def test_reason_that_comes_back(desk: Desk) -> None:
    """A list without exits takes one again that was left out, with all of its words."""
    rows = ROWS.replace("11/2022;Boucherie", "2015-01-01;Mort (âge)")
    desk.take(HORSES + rows)
    assert exits(desk)["B"] == "day unknown: '2015-01-01 (Mort (âge))'"
    without = "".join(f"{row.rsplit(';', 2)[0]}\n" for row in (HORSES + rows).replace("A;B;EARL", "A;;EARL").splitlines())
    desk.take(without)
    assert reason(desk, "B") == ("2015-01-01", "Mort (âge)")


def test_reasons_beside_a_status(desk: Desk) -> None:
    """A third column is kept as reasons where the status is another one, which tells of exits; where it is the status
    the other one still tells what disagrees, and whom no exit is known of."""
    titles = "id;sex;birth;sire;dam;Sorti le;Motif de sortie;Statut\n"
    rows = "a;M;2001-01-01;;;2020-01-01;Mort;Sorti\nb;F;2001-01-01;;;2020-01-02;Volée;Vivante\n"
    rows += "d;F;2001-01-01;;;;Vendue;Sortie\n"
    told = "line 3: b: to look at: 'Sorti le' says '2020-01-02', and 'Statut' says 'Vivante': the animal counts as gone"
    done = desk.take(titles + rows)
    assert "status from 'Statut'; kept: 'Motif de sortie'\n" in done.out and told in done.out
    assert exits(desk) == {"a": "'Mort'", "b": "'Volée'", "d": "day unknown: 'Sortie (Vendue)'"}
    states = "Poulinière", "Inscrite", "Sortie", "Foal", "Inscrite", "Foal"
    others = "".join(f"e{at};F;2001-01-01;;;;;{state}\n" for at, state in enumerate(states))
    done = desk.take(titles + rows + others, "--book", "two")
    assert "status from 'Motif de sortie'; not read: 'Statut'\n" in done.out and told in done.out
    done.shows(
        "to look at: the column 'Statut' isn't read for exits, and 1 cell of it tells that an animal left which has no "
        "exit: 'Sortie' in line 7; the animal counts as living: if it left, enter that in the column for exits"
    )


@pytest.mark.parametrize("titles", ["Sorti le;Motif de sortie", "Sorti le;Motif de sortie;Statut"])
def test_reason_that_is_no_exit(desk: Desk, titles: str) -> None:
    """The day of a loan is none of an exit: the animal stays, and that is told. A state that isn't why an animal left
    is told beside the exit."""
    state = {"Statut": ";Sorti"}.get(titles.rpartition(";")[2], "")
    rows = f"a;M;2001-01-01;;;2020-01-01;Mort{state}\nb;F;2001-01-01;;;2020-01-02;Prêtée{state}\n"
    rows += f"d;F;2002-01-01;;;2020-01-03;Vendue{state}\ne;F;2003-01-01;;;2020-01-04;Abattage{state}\n"
    done = desk.take(f"id;sex;birth;sire;dam;{titles}\n{rows}")
    assert "'Prêtée 2020-01-02': the animal stays" in done.out
    assert reason(desk, "b") == ("", "") and reason(desk, "a") == ("2020-01-01", "Mort")
    assert notes(desk)["b"] == {"Sorti le: Prêtée 2020-01-02"}
    rows = "a;M;2001-01-01;;;2020-01-01;Mort\nb;F;2001-01-01;;;2020-01-02;prêtée\nd;F;2001-01-01;;;;vendue\n"
    done = desk.take(f"id;sex;birth;sire;dam;Sorti le;Statut\n{rows}", "--book", "two")
    done.tells("line 3: b: to look at: 'Sorti le' says '2020-01-02', and 'Statut' says 'prêtée': the animal counts as gone, "
               "on the day of the first")  # fmt: skip
    assert "the animal stays" not in done.out


def test_no_reason(desk: Desk) -> None:
    """A cell that says only that there was an exit is none, nor is one that says what the other says."""
    rows = "a;M;2001-01-01;;;{}\nb;M;2001-01-01;;;2020-01-01;oui\nc;M;2001-01-01;;;tot;tot\nd;M;2001-01-01;;;;tot\n"
    desk.take("id;sex;birth;sire;dam;exit;Status\n" + rows.format("2020-01-01;x"))
    assert exits(desk) == {"c": "day unknown: 'tot'", "d": "day unknown: 'tot'"} and reason(desk, "a")[0] == "2020-01-01"
    desk.take("id;sex;birth;sire;dam;exit;Lebt\n" + rows.format("2020-01-01;nein"), "--book", "two", "--columns", "status=Lebt")
    assert not [row for row in desk.table("two/ids.csv") if "nicht" in row["exit"]]


@pytest.mark.parametrize("cell", ["néant", "RAS", "R.A.S.", "keine", "none", "aucune", "nichts", "NIL"])
def test_no_exit(desk: Desk, cell: str) -> None:
    """Such a word stands for no exit, under any title and beside a day."""
    row = "a;M;2001-01-01;;;{}\nb;F;2001-01-01;;;1.2.2010\n"
    for book, titles, cells in (
        ("one", "exit\n", cell), ("two", "exit;Abgangsgrund\n", f";{cell}"), ("three", "Status\n", cell),
    ):  # fmt: skip
        done = desk.take("id;sex;birth;sire;dam;" + titles + row.format(cells), "--book", book)
        assert [one["id"] for one in desk.listed("list", "--living", "--book", book)] == ["a"]
        assert "look at" not in done.out and "left out (" not in done.last


STATES = "Not for export", "Pet only", "Endorsed", "Export ped. not allowed", "Zuchtverbot 3.4.2020"


@pytest.mark.parametrize("titles", ["Died;Status", "Status"])
def test_state_that_is_no_exit(desk: Desk, titles: str) -> None:
    """Of a column of states only words and days of exits count; the others are kept as notes, and told once. What
    stands beside the day of an exit is kept there."""
    beside = ";" * titles.count(";")
    cells = [*STATES, "Deceased", "1.2.2010", "alive", "alive", "dead", "sold", "lost"]
    rows = "".join(f"a{at};M;2001-01-01;;;{beside}{cell}\n" for at, cell in enumerate(cells))
    rows += "p;M;2001-01-01;;;2010-01-01;Endorsed\n" if beside else ""
    done = desk.take(f"id;sex;birth;sire;dam;{titles}\n" + rows)
    told = "5 cells of the column 'Status' tell of something other than exits, the first in line 2: 'Not for export'"
    assert told in done.told
    living = {one["id"] for one in desk.listed("list", "--living")}
    assert living == {"a0", "a1", "a2", "a3", "a4", "a7", "a8"}
    assert [notes(desk)[f"a{at}"] for at in range(5)] == [{f"Status: {cell}"} for cell in STATES]
    assert not beside or reason(desk, "p") == ("2010-01-01", "Endorsed")


GONE = (
    "PTS, pet only", "sold,pet only", "died-colic", "eingeschl., Kolik", "RIP; alt", "put to sleep (colic)", "culled/pet",
    "lebt, verkauft an Weber", "lebt – wurde verkauft", "vivant, mais vendu",
)  # fmt: skip
LIVING = (
    "lebt, verkauft 2 Lämmer", "alive - sold 3 lambs in 2020", "vivante; agneau vendu", "lebt (Lamm geschlachtet)",
    "lebt, Mutter tot", "verkauft: noch nicht", "85 PTS",
)  # fmt: skip


@pytest.mark.parametrize("titles", ["Died;Status", "Status"])
def test_exit_with_more_text(desk: Desk, titles: str) -> None:
    """A cell that begins with an exit tells of it, with what stands behind; one that begins with a word for living
    tells of others. Both are kept."""
    beside = ";" * titles.count(";")
    rows = "".join(f'a{at};M;2001-01-01;;;{beside}"{cell}"\n' for at, cell in enumerate((*GONE, *LIVING)))
    rows += 'p;M;2001-01-01;;;2010-01-01;"PTS, pet only"\nq;M;2001-01-01;;;2010-01-01;"lebt, verkauft 2 Lämmer an Weber"\n'
    sheet = f"id;sex;birth;sire;dam;{titles}\n" + (rows if beside else rows[: rows.index("p;")])
    done = desk.take(sheet)
    kept = {f"a{at}": f"day unknown: '{cell}'" for at, cell in enumerate(GONE)}
    assert exits(desk) == kept | ({"p": "'PTS, pet only'"} if beside else {})
    noted = {f"a{at}": {f"Status: {cell}"} for at, cell in enumerate(LIVING, len(GONE))}
    assert {id: one for id, one in notes(desk).items() if one and id != "q"} == noted
    told = "'Died' says '2010-01-01', and 'Status' says 'lebt, verkauft 2 Lämmer an Weber': the animal counts as gone"
    assert (told in done.told) == bool(beside)
    assert " 0 new, 0 changed" in desk.take(sheet).last


def test_word_that_is_said_to_be_no_exit(desk: Desk) -> None:
    """A column that tells where animals are may have any word: they count as gone, and the command that is suggested
    says that one doesn't."""
    cells = "potted", "sold", "lebt", "lebt", "dead"
    rows = "".join(f"a{at};M;2001-01-01;;;;{cell}\n" for at, cell in enumerate(cells))
    done = desk.take("id;sex;birth;sire;dam;Left on;Whereabouts\n" + rows, "--breed", "HOL", "--country", "GBR")
    assert "the first in line 2: 'potted': such an animal counts as gone; write days as" in done.out
    assert "if 'potted' tells of no exit:\n" in done.out and "if no column tells of exits" not in done.out
    desk.typed(next(one for one in done.commands() if one.endswith("--unknown potted")))
    assert [one["id"] for one in desk.listed("list", "--living")] == ["a0", "a2", "a3"]


@pytest.mark.parametrize(
    "title, yes, no, said",
    [("Alive", "Y", "N", "not Alive"), ("Vivant", "oui", "non", "pas Vivant"), ("Lebt", "ja", "nein", "nicht Lebt"),
     ("Active", "1", "0", "not Active"), ("Vivant", "VRAI", "FAUX", "pas Vivant")],
)  # fmt: skip
@pytest.mark.parametrize("beside", ["", "Died;"])
def test_column_of_the_living(desk: Desk, title: str, yes: str, no: str, said: str, beside: str) -> None:
    """Whom it denies has left, also where no other column tells of exits."""
    cells = ";" * bool(beside)
    rows = f"a;M;2001-01-01;;;{cells}{no}\nb;F;2001-01-01;;;{cells}{yes}\nc;F;2001-01-01;;;{cells}{yes}\n"
    done = desk.take(f"id;sex;birth;sire;dam;{beside}{title}\n" + rows)
    assert exits(desk) == {"a": f"day unknown: '{said}'"}
    assert f"1 of 1 cell that tells of an exit in the column '{title}', the first in line 2: '{said}'" in done.out
    assert " 0 changed" in desk.take(f"id;sex;birth;sire;dam;{beside}{title}\n" + rows).last


def test_exit_within_the_year(desk: Desk) -> None:
    """A month or a year that hasn't ended ends with the day of the import."""

    def told(day: str, period: str) -> str:
        basis = ExitBasis(ExitSource.PERIOD, Period(period))
        return ExitInferred(datetime.date.fromisoformat(day), basis, "").words()

    assert told("2020-12-31", "2020") == "exit on 2020-12-31, the last day of the year 2020"
    assert told("2020-02-29", "2020-02") == "exit on 2020-02-29, the last day of the month 2020-02"
    assert told("2020-02-29", "2020") == "exit on 2020-02-29, the day of the import, as the year 2020 hasn't ended"
    assert told("2020-02-28", "2020-02") == "exit on 2020-02-28, the day of the import, as the month 2020-02 hasn't ended"
    done = desk.take("id;sex;birth;sire;dam;exit\na;M;2001-01-01;;;courant 2020\n")
    done.tells("line 2: a: inferred: exit on 2020-12-31, the last day of the year 2020, from 'courant 2020'")


def test_cross_in_another_status(desk: Desk) -> None:
    """A cross in a column of states that isn't read tells of an exit as a word does."""
    rows = "A;Amiral;Étalon;21/02/2010;;;GAEC;Inscrit;14/03/2023;Mort\nB;Bichette;Jument;2011;;;M;† 03/2026;;\n"
    told = desk.take(HORSES.replace("Propriétaire;", "Propriétaire;Statut;") + rows, "--columns", "status=Motif de sortie")
    told.shows(
        "to look at: the column 'Statut' isn't read for exits, and 1 cell of it tells that an animal left which has no "
        "exit: '† 03/2026' in line 3; the animal counts as living: if it left, enter that in the column for exits"
    )


CELLS = "id;sex;birth;sire;dam;Abgang\n"
WITH_WORDS = (
    "a;F;2001-01-01;;;2024-05-01 geschlachtet\nb;F;2001-01-01;;;geschlachtet 1.5.2024\nc;F;2001-01-01;;;1.5.2024 (Wolf)\n"
    "d;F;2001-01-01;;;verkauft 05/2023\ne;F;2001-01-01;;;x 1.5.2024\nf;F;2001-01-01;;;1.5.2024\n"
)


def test_word_in_the_cell_of_a_day(desk: Desk) -> None:
    """It is kept beside the day as a word of a status is. A list without the word drops it; one that says less of the
    day, or nothing of exits, doesn't."""
    desk.take(CELLS + WITH_WORDS)
    kept = {"a": "'geschlachtet'", "b": "'geschlachtet'", "c": "'Wolf'", "d": "the month 2023-05: 'verkauft'"}
    assert exits(desk) == kept
    assert "  exit          2024-05-01 (in the sheet: Wolf)\n" in desk.good("show", "c").out
    without = "".join(f"{row.rpartition(';')[0]}\n" for row in (CELLS + WITH_WORDS).splitlines())
    for again in CELLS + WITH_WORDS, without, CELLS + WITH_WORDS.replace("1.5.2024 (Wolf)", "05/2024"):
        assert " 0 changed" in desk.take(again).last and exits(desk) == kept
    rows = WITH_WORDS.replace(" geschlachtet", "").replace("geschlachtet 1", "Wolf 1")
    done = desk.take(CELLS + rows)
    done.tells(
        "line 2: a: changed: exit in the sheet: none, before geschlachtet",
        "line 3: b: changed: exit in the sheet: Wolf, before geschlachtet",
    )
    assert " 2 changed" in done.last


def test_word_beside_a_day_by_hand(desk: Desk) -> None:
    """The word of a cell whose day was corrected stays with it, and is another one where the cell has that."""
    desk.take(CELLS + WITH_WORDS)
    desk.good("correct", "c", "--exit", "2024-05-02")
    assert reason(desk, "c") == ("2024-05-02", "Wolf")
    assert " 0 changed" in desk.take(CELLS + WITH_WORDS).last and reason(desk, "c") == ("2024-05-02", "Wolf")
    desk.take(CELLS + WITH_WORDS.replace("Wolf", "Luchs"))
    assert reason(desk, "c") == ("2024-05-02", "Luchs")


@pytest.mark.parametrize(
    "cell, day, kept",
    [
        ("3.4.2020 verkauft", "2020-04-05", "verkauft"), ("gestorben 3.4.2020", "2020-05-03", "gestorben"),
        ("gestorben 3.4.2020", "2021-04-03", "gestorben"), ("gestorben 4/2020", "2020-04-02", "gestorben"),
        ("gestorben", "2020-04-03", "gestorben"), ("verk. Kunz 2020", "2020-01-20", "verk. Kunz"),
        ("3.4.2020 verkauft", "unknown", "verkauft"),
        # another exit, and none
        ("3.4.2020 verkauft", "2022-07-01", ""), ("3.4.2020 verkauft", "none", ""), ("3.4.2020/2021", "2020-04-03", ""),
    ],
)  # fmt: skip
@pytest.mark.parametrize("is_born_by_hand", [False, True])
def test_word_of_an_exit_that_was_corrected(desk: Desk, cell: str, day: str, kept: str, is_born_by_hand: bool) -> None:
    """It stays where the day by hand is that of the same exit, with the correction and with the same sheet."""
    desk.take(f"{CELLS}a;F;2001-01-01;;;{cell}\n")
    if is_born_by_hand:
        desk.good("correct", "a", "--born", "2001-02-01")
    desk.good("correct", "a", "--exit", day)
    after = (day if day[0].isdigit() else "", kept)
    assert reason(desk, "a") == after
    assert " 0 changed" in desk.take(f"{CELLS}a;F;2001-01-01;;;{cell}\n").last and reason(desk, "a") == after
    assert desk.born()["a"] == ("2001-02-01" if is_born_by_hand else "2001-01-01")


def test_exit_filed_beside_a_word(desk: Desk) -> None:
    """The word of a cell without a day stays with the day that is filed."""
    desk.take(f"{CELLS}a;F;2001-01-01;;;gestorben\n")
    desk.good("exit", "a", "--day", "2020-04-03")
    assert reason(desk, "a") == ("2020-04-03", "gestorben")
    assert " 0 changed" in desk.take(f"{CELLS}a;F;2001-01-01;;;gestorben\n").last
    assert reason(desk, "a") == ("2020-04-03", "gestorben")


def test_word_beside_a_day_and_a_status(desk: Desk) -> None:
    """Both are kept, once where they say the same; a day that can't be stays with its cell."""
    rows = (
        "a;F;2001-01-01;;;1.5.2024 (Wolf);gerissen\nb;F;2001-01-01;;;geschl. 1.5.2024;geschl.\nc;F;2010-01-01;;;;\n"
        "d;F;2001-01-01;;;Wolf am 1.5.2004;gerissen\ne;F;2007-01-01;;d;;\nf;F;2008-01-01;;d;;\n"
    )
    desk.take(CELLS.replace("\n", ";Grund\n") + rows, "--columns", "status=Grund")
    assert exits(desk) == {"a": "'Wolf (gerissen)'", "b": "'geschl.'", "d": "day unknown: 'Wolf am 1.5.2004 (gerissen)'"}


@pytest.mark.parametrize(
    "text, words",
    [("Mort (colique) 1.5.2024", "Mort (colique)"), ("Wolf (1.5.2024)", "Wolf"), ("1.5.2024 [Wolf]", "Wolf"),
     ("verkauft am 12.11.22", "verkauft"), ("vendu le 03/04/2021 à M. Dupont", "vendu à M. Dupont"), ("† 1.5.2024", "†"),
     ("verkauft? 1.5.2024", "verkauft?"), ("verkauft ca. 1.5.2024", "verkauft ca. 1.5.2024"), ("ca. 1.5.2024", ""),
     ("verkauft vor 2020", "verkauft vor 2020"), ("vor dem 1.5.2020", ""), ("Herbst 2021", ""), ("courant 2020", ""),
     ("Wolf, Herbst 2021", "Wolf, Herbst 2021"), ("2024-05-31 (inferred)", ""), ("2021-02-03 10:00", ""),
     ("sold 3.4.2020 or 5.6.2021", "sold 3.4.2020 or 5.6.2021"), ("ja, 1.5.2024", ""), ("31.02.2020 verkauft", "verkauft"),
     ("sept.-21", ""), ("44317", ""), ("verk. an Meier 3/24", "verk. an Meier"), ("geschl. März 24", "geschl.")],
)  # fmt: skip
def test_words_beside_a_day(text: str, words: str) -> None:
    assert words_beside(text) == words


# -- causes next to days of exits

CAUSES = "Nr;Nom;Sexe;Né le;Père;Mère;Propriétaire;{}\nA1;Oscar;m;13.4.2009;;;Leroy;{}\nA2;Perle;f;13.8.2015;;;Duval;{}\n"


@pytest.mark.parametrize(
    "titles, cells",
    [
        ("Date de sortie;Motif", "5.6.2023;prêt"), ("Date de sortie;Motif", "2024;castration"),
        ("Grund;Abgang", "Impfung;5.6.2023"), ("Exit date;Reason", "5.6.2023;shearing"),
    ],
)
def test_causes_that_are_no_exits(desk: Desk, titles: str, cells: str) -> None:
    """The animal stays, which is told; a cause of an exit is kept."""
    first = "mort;1.2.2020" if titles.startswith("Grund") else "1.2.2020;mort"
    sheet = CAUSES.format(titles, first, cells)
    done = desk.take(sheet)
    assert "tells of something other than an exit, in line 3: " in done.out and "not read" not in done.out
    assert reason(desk, "A1") == ("2020-02-01", "mort") and reason(desk, "A2")[0] == ""
    assert " 0 changed" in desk.take(sheet).last


@pytest.mark.parametrize("cause", ["nach Kastration", "Leihende, zurück an Eder", "prêt terminé"])
def test_causes_of_what_is_over(desk: Desk, cause: str) -> None:
    """The animal left then."""
    desk.take(CAUSES.format("Date de sortie;Motif", "1.2.2020;mort", f"5.6.2023;{cause}"))
    assert reason(desk, "A2") == ("2023-06-05", cause)


@pytest.mark.parametrize("cause", ["changement de propriétaire", "Besitzerwechsel", "change of ownership", "transfert"])
def test_changes_of_owners_as_causes(desk: Desk, cause: str) -> None:
    """One to an owner of the list is a transfer; of another it is told that the animal counts as gone."""
    sheet = CAUSES.format("Date de sortie;Motif;Destination", "1.2.2020;mort;équarrissage", "5.6.2022;{};{}")
    done = desk.take(sheet.format(cause, "Leroy"))
    assert f"owner Leroy, before Duval: '{cause} à Leroy 5.6.2022' names an owner of the society" in done.told
    assert reason(desk, "A2")[0] == "" and reason(desk, "A1") == ("2020-02-01", "mort")
    for buyer in ("Roux", ""):
        done = desk.take(sheet.format(cause, buyer), "--book", "book")
        assert "words that tell of no exit stands in 1 of 2 cells" in done.told and f"in line 3: '{cause}" in done.told
