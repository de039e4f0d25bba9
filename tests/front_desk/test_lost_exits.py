"""Sheets that lack the column of exits of the last one, or whose column of exits is empty."""
from __future__ import annotations

from front_desk.desk import Desk
from front_desk.test_exits_beside import BEGIN, rows
from front_desk.test_reasons_of_exits import exits, reason

PARENTS = "1.1.2020;", ";2.2.2020"
CALVES = "3.3.2021;", "tot;", "4.4.2021 (Wolf);", ";5.5.2021"
BOTH = BEGIN + "Gestorben am;Verkauft am\n" + rows(PARENTS, *CALVES)
# the same without the first column
SOLD = BEGIN + "Verkauft am\n" + rows(("", "2.2.2020"), "", "", "", "5.5.2021")
LOST = (
    "to look at: no column 'Gestorben am' is found, from which exits were read last time, and 'Verkauft am' tells of "
    "no exit of 4 animals that had left, the first are 1 (line 2), 3 (line 4), 4 (line 5): the book keeps what it has"
)


def days(desk: Desk) -> list[tuple[str, str]]:
    return [reason(desk, id) for id in "123456"]


def test_first_column_of_exits_lost(desk: Desk) -> None:
    """The exits that the sheet doesn't tell any more stay, at each taking, until somebody says that the other column
    has all; an exit that it tells is taken, and once the column is back one that it lacks is taken back."""
    desk.take(BOTH)
    before, of_days = exits(desk), days(desk)
    for _ in range(2):
        done = desk.take(SOLD)
        done.shows(LOST)
        assert " 0 new, 0 changed" in done.last and "count as living again" not in done.told
        assert "columns as last time" not in done.out
        # the sale has no word as why where it is the first column
        assert exits(desk).keys() >= {"4", "5"} and [day for day, _ in days(desk)] == [day for day, _ in of_days]
    assert days(desk)[4] == ("2021-04-04", "Wolf")
    sold = desk.take(SOLD.replace("Meier;\n4", "Meier;6.6.2022\n4"))
    assert "no exit of 3 animals that had left" in sold.out and days(desk)[2][0] == "2022-06-06"
    back = desk.take(BOTH.replace("4.4.2021 (Wolf)", ""))
    assert "is found" not in back.told and "1 animal that had left counts as living again, 5 (line 6)" in back.told
    assert before.keys() - exits(desk).keys() == {"5"}
    assert "no exit of 3 animals" in desk.take(SOLD, "--preview").out
    all_exits = desk.take(SOLD, "--columns", "exit=Verkauft am")
    assert "3 animals that had left count as living again" in all_exits.told
    assert days(desk)[0] == ("", "") and "is found" not in desk.take(SOLD).told


def test_other_columns_of_exits_lost(desk: Desk) -> None:
    """A second column of exits may lack too, or both."""
    desk.take(BOTH)
    before = days(desk)
    died = BEGIN + "Gestorben am\n" + rows(("1.1.2020", ""), "3.3.2021", "tot", "4.4.2021 (Wolf)", "")
    for _ in range(2):
        desk.take(died).shows(
            "to look at: no column 'Verkauft am' is found, from which exits were read last time, and 'Gestorben am' "
            "tells of no exit of 2 animals that had left, the first are 2 (line 3), 6 (line 7): the book keeps what it "
            "has"
        )
        assert days(desk) == before
    neither = BEGIN + "Geschlachtet am\n" + rows(("", ""), "", "", "", "7.7.2022")
    for _ in range(2):
        assert "'Geschlachtet am' tells of no exit of 5 animals that had left" in desk.take(neither).told
        assert [day for day, _ in days(desk)] == [*(day for day, _ in before[:5]), "2022-07-07"]
    assert "is found" not in desk.take(BOTH).told and days(desk) == before
    assert "columns as last time" in desk.take(BOTH).out
    done = desk.take(died, "--columns", "exit=Gestorben am")
    assert "2 animals that had left count as living again" in done.told and "is found" not in desk.take(died).told


def test_column_of_exits_with_another_title(desk: Desk) -> None:
    """Where it tells of all exits nothing is told."""
    desk.take(BOTH)
    done = desk.take(BOTH.replace("Gestorben am", "Todesdatum"))
    assert "is found" not in done.told and " 0 new, 0 changed" in done.last
    assert "columns as last time" in desk.take(BOTH.replace("Gestorben am", "Todesdatum")).out


def test_column_of_exits_emptied(desk: Desk) -> None:
    """It isn't taken where many had left, but where that is wished; a few are told."""
    calves = [f"{at}.3.2021;" for at in range(1, 6)]
    full = BEGIN + "Gestorben am;Verkauft am\n" + rows(PARENTS, *calves)
    empty = BEGIN + "Gestorben am;Verkauft am\n" + rows((";", ";"), *[";"] * 5)
    desk.take(full)
    said = (
        "the column 'Gestorben am' tells of no exit, and 7 animals that had left would count as living again, the first "
        "are 1 (line 2), 2 (line 3), 3 (line 4): was it emptied?"
    )
    sheet = desk.write("sheet.csv", empty)
    refused = desk.wrong(said, "import", sheet)
    assert "if it is right all the same" in refused.err and "if the sheet doesn't tell of exits" in refused.err
    assert len({*exits(desk)} | {id for id in "1234567" if reason(desk, id)[0]}) == 7
    shown = desk.good("import", sheet, "--preview")
    assert said in shown.out and "count as living again, the first are 1 (line 2), 2 (line 3), 3 (line 4): does" not in (
        shown.told
    )
    one = full.replace("1.3.2021", "")
    assert "1 animal that had left counts as living again, 3 (line 4)" in desk.take(one).told
    assert "as living" not in desk.good("import", sheet, "--columns", "exit=").out and reason(desk, "1")[0]
    desk.take(full, "--columns", "exit=Gestorben am")
    assert "7 animals that had left count as living again" in desk.take(empty, "--anyway").told
    few = BEGIN + "Gestorben am\n" + rows(("1.1.2020", "2.2.2020"), "3.3.2021")
    desk.take(few, "--book", "two")
    done = desk.take(BEGIN + "Gestorben am\n" + rows(("", ""), ""), "--book", "two")
    assert "3 animals that had left count as living again" in done.told
