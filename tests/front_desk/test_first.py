"""From a secretary's sheet to a list, certificates and advice, and the same sheet with ten more rows."""
from __future__ import annotations

import fractions
import re

import pytest

import reference
from front_desk.desk import Desk
from front_desk.sheet import TITLES, Secretary, german, sheet_text


@pytest.fixture
def her(secretary: Secretary) -> Secretary:
    return secretary


def test_her_sheet(her: Secretary, desk: Desk) -> None:
    """What is told of the sheet that was taken."""
    done = desk.take(sheet_text(her.rows))
    summary = (
        "book: 201 animals, 200 new, 0 changed, 2 inferred, 2 left out (2 parents), 1 added, 0 gone: "
        "book/report.csv has each"
    )
    assert done.last == summary
    cow = f"its sire {her.cow} (line {her.line_of(her.cow)})"
    done.tells(f"line {her.line_of(her.misled)}: {her.misled}: {cow} is left out: it isn't male (refusal 5)")
    dam = (
        f"its dam {her.grandchild} is left out: {her.grandsire} would be its own ancestor ({her.grandsire} > "
        f"{her.grandchild} > "
    )
    assert f"line {her.line_of(her.grandsire)}: {her.grandsire}: {dam}" in done.out
    assert dam.count(">") == 2
    assert f"line {her.line_of(her.undated)}: {her.undated}: inferred: birth day" in done.told
    assert f"{her.imported}: added: the sire of " in done.told


def test_her_list(her: Secretary, secretary_desk: Desk) -> None:
    desk = secretary_desk
    told = desk.good("list").err
    assert told == f"gudokeyi: animals without a row in the sheet: 1 ({her.imported}): added as parents, or gone\n"
    rows = desk.listed("list")
    assert list(rows[0]) == ["id", "name", "number", "birth", "coefficient", "decimal", "percent"]
    wanted = her.coefficients()
    found = {row["id"]: fractions.Fraction(row["coefficient"]) for row in rows}
    assert found == wanted
    assert max(found.values()) > 0.1
    nearest = fractions.Fraction(1, 2 * 10**10)
    assert all(abs(fractions.Fraction(row["decimal"]) - wanted[row["id"]]) <= nearest for row in rows)
    assert all(row["percent"] == reference.percentage(wanted[row["id"]]) for row in rows)
    marked = {row["id"] for row in rows if row["birth"].endswith(" (inferred)")}
    assert marked == {her.undated, her.imported}
    names = {row["Ohrmarke"]: row["Name"] for row in her.rows} | {her.imported: ""}
    assert {row["id"]: row["name"] for row in rows} == names
    by_age = [line.split(",")[0] for line in reference.inbreeding(desk.text("book/commands.csv")).splitlines()]
    assert [row["number"] for row in rows] == by_age
    text = desk.good("list", "--semicolons").out
    assert text.startswith("id;name;number;")
    assert ";0,25;25,00\n" in text or ";0,125;12,50\n" in text
    assert desk.good("list", "--semicolons", "--out", "list.csv").out == f"list.csv: {len(rows)} rows\n"
    assert (desk.room / "list.csv").read_bytes() == b"\xef\xbb\xbf" + text.encode()


WHOSE = ["the highest coefficient", "calf of an undated dam", "undated", "calf of an added sire", "added", "any"]


def id_of(her: Secretary, whose: str) -> str:
    ids = [
        max(her.coefficients().items(), key=lambda pair: pair[1])[0],
        next(row["Ohrmarke"] for row in her.rows if row["Mutter"] == her.undated),
        her.undated,
        next(row["Ohrmarke"] for row in her.rows if row["Vater"] == her.imported),
        her.imported,
        her.rows[0]["Ohrmarke"],
    ]
    return ids[WHOSE.index(whose)]


@pytest.mark.parametrize("whose", WHOSE)
def test_her_certificate(her: Secretary, secretary_desk: Desk, whose: str) -> None:
    """The certificate of one animal beside the reference's."""
    desk, id = secretary_desk, id_of(her, whose)
    numbers = desk.numbers()
    ids = {number: id for id, number in numbers.items()}
    done = desk.good("certificate", id)
    page = desk.page(done.out.split(" is written")[0])
    words = " ".join(page.itertext())
    certificate = reference.certificates(desk.text("book/commands.csv"), [numbers[id]])
    told = dict(line.split(" ", 1) for line in certificate.splitlines())
    for value in id, numbers[id], told["sex"], told["born"], told["inbreeding"].split(" ")[0]:
        assert value in words
    ancestors = [ids[told[key]] for key in told if set(key) <= {"S", "D"} and told[key] != "0"]
    boxes = [" ".join(box.itertext()) for box in page.iter() if box.get("class") in ("box", "box common")]
    assert len(boxes) == len(ancestors)
    assert all(any(one in box for box in boxes) for one in ancestors)
    unknown = [box for box in page.iter() if box.get("class") == "box unknown"]
    assert len(boxes) + len(unknown) == 14
    inferred = {her.undated, her.imported} & {id, *ancestors}
    assert words.count(" (inferred)") >= len(inferred)
    assert ("(inferred): not known for certain; inferred from" in words) == bool(inferred)


def test_file_and_name_of_her_certificate(her: Secretary, secretary_desk: Desk) -> None:
    """An id is escaped in the file's name and on the page, and a name may stand for it."""
    secretary_desk.good("certificate", her.imported)
    assert "<Zürich>" not in secretary_desk.text("book/certificate-IMP~207~20~3cZürich~3e.html")
    secretary_desk.good("certificate", her.rows[0]["Name"], "--force", "--out", "page.html")
    assert her.rows[0]["Ohrmarke"] in secretary_desk.text("page.html")


def young_dam(her: Secretary) -> str:
    by_number = sorted(her.rows, key=lambda row: row["Ohrmarke"][3:])
    females = (row["Ohrmarke"] for row in by_number if row["Geschlecht"] != "m")
    return next(id for id in females if id.startswith("DE-16"))


def males(her: Secretary, that_left: bool) -> set[str]:
    return {row["Ohrmarke"] for row in her.rows if row["Geschlecht"] == "m" and (that_left or not row["Abgang"])}


@pytest.mark.parametrize(("words", "that_left"), [([], False), (["--all"], False), (["--left"], True)])
def test_her_advice(her: Secretary, secretary_desk: Desk, words: list[str], that_left: bool) -> None:
    """Advice for a dam beside the relationships of the reference."""
    dam, numbers = young_dam(her), secretary_desk.numbers()
    entry = reference.filed(secretary_desk.text("book/commands.csv"))[0].relationships()
    rows = secretary_desk.listed("mating", "--dam", dam, *words)
    assert {row["id"] for row in rows} == males(her, that_left)
    keys = [(fractions.Fraction(row["coefficient"]), row["id"]) for row in rows]
    assert keys == sorted(keys)
    assert keys[-1][0] > 0
    assert all(value == entry(numbers[id], numbers[dam]) / 2 for value, id in keys)


def test_who_is_passed_over_in_her_advice(her: Secretary, secretary_desk: Desk) -> None:
    """Males that left, and one that was added, aren't listed, but may be named."""
    desk, dam, left = secretary_desk, young_dam(her), males(her, True) - males(her, False)
    assert desk.good("mating", "--dam", dam).err == (
        f"gudokeyi: males that left: {len(left)} aren't listed: --left lists them too\n"
        f"gudokeyi: males without a row in the sheet: 1 ({her.imported}) aren't listed: name one, if it lives\n"
    )
    assert [row["id"] for row in desk.listed("mating", "--dam", dam, her.imported)] == [her.imported]
    done = desk.good("mating", "--dam", dam, min(left), her.cow, "Löwe 2")
    assert len(done.out.splitlines()) == 3
    assert done.err == f"gudokeyi: {her.cow}: refused: the sire isn't male (fault 3)\n"


def test_ten_more_rows(her: Secretary, secretary_desk: Desk) -> None:
    """Taken a second time with ten more rows all numbers stay, and what changed is appended and told."""
    desk = secretary_desk
    numbers, before = desk.numbers(), desk.commands()
    unchanged = desk.take(sheet_text(her.rows))
    assert desk.commands() == before
    assert ", 0 new, 0 changed, 2 inferred, 2 left out (2 parents), 0 added, 0 gone" in unchanged.last
    living = [row for row in her.rows if not row["Abgang"] and row["Geburtsdatum"][-4:] == "2015"]
    moved, gone, leaving, orphan = living[:4]
    moved["Besitzer"] = "Neuer Hof, Übersee"
    leaving["Abgang"] = "31.12.2020"
    orphan["Vater"] = "unbekannt" if orphan["Vater"] != "unbekannt" else ""
    orphan["Mutter"] = next(
        row["Ohrmarke"] for row in her.rows if row["Ohrmarke"].startswith("DE-10") and row["Geschlecht"] != "m"
    )
    her.rows.remove(gone)
    calves = [
        dict.fromkeys(TITLES, "")
        | {
            "Ohrmarke": f"AT-17/{at}",
            "Geschlecht": "w",
            "Geburtsdatum": german(2017, 3, at),
            "Vater": "DE-98/001",
            "Mutter": "DE-98/010",
        }
        for at in range(1, 11)
    ]
    calves[0]["Geburtsdatum"] = "1997"
    calves[0]["Vater"] = calves[0]["Mutter"] = ""
    her.rows[5:5] = calves
    done = desk.take(sheet_text(her.rows), "--day", "2021-05-06")
    after = desk.numbers()
    assert after.items() >= numbers.items()
    assert len(after) == 211
    assert sorted(number[7:] for number in after.values()) == [f"{at:012}" for at in range(1, 212)]
    more = desk.commands()
    assert more[: len(before)] == before
    kinds = [line.split(",")[0] for line in more[len(before) :]]
    assert kinds == ["birth"] * 10 + ["parents", "transfer", "exit"]
    assert f"transfer,{numbers[moved['Ohrmarke']]},2021-05-06,,," in "\n".join(more)
    assert ", 10 new, " in done.last
    assert ", 1 gone" in done.last
    done.tells(f"{gone['Ohrmarke']}: gone: it has no row any more, and stays in the book as it is")
    assert "owner: Neuer Hof, Übersee, before " in done.told
    assert "exit: 2020-12-31, before none" in done.told
    counts = re.findall(r"(\d+) (?:new|changed|inferred|left|added|gone)", done.last)
    # what is to be looked at is told, and not counted; of what is changed the animals are
    counted = [row for row in desk.table("book/report.csv") if row["what"] not in ("to look at", "changed")]
    changed = {row["id"] for row in desk.table("book/report.csv") if row["what"] == "changed"}
    assert len(counted) + len(changed) == sum(map(int, counts))
    assert reference.replies(desk.text("book/commands.csv")).count("accepted") == len(more)
