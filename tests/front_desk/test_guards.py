"""Sheets that look like another one than the book's aren't taken, but by `--anyway`."""
from __future__ import annotations

import shlex

import pytest

from front_desk.desk import CALLED, Desk

TITLES = "Ohrmarke;Name;Geburtsdatum;Vater;Mutter"


def flock(letter: str, count: int = 60, day: int = 1) -> list[str]:
    """Rows of a flock: ten parents, and their offspring."""
    rows = [f"{letter}{at};{letter}name{at};2001-01-{day + at:02};;" for at in range(10)]
    for at in range(10, count):
        parents = f"{letter}{at % 5};{letter}{5 + at % 5}"
        rows.append(f"{letter}{at};{letter}name{at};2004-{1 + at % 12:02}-{day + at % 20:02};{parents}")
    return rows


def sheet(rows: list[str], titles: str = TITLES) -> str:
    return "\n".join([titles, *rows]) + "\n"


def refused(desk: Desk, text: str, *told: str, words: tuple[str, ...] = ()) -> None:
    """The sheet isn't taken, with these sentences, and is by `--anyway`."""
    name = desk.write("other.csv", text)
    done = desk.wrong(told[0], "import", name, *words)
    assert all(one in done.err for one in told), done
    anyway = done.commands()[-1]
    assert anyway == f"{CALLED} import {shlex.join([name, *words])} --anyway"
    desk.typed(anyway)


@pytest.fixture
def taken(desk: Desk) -> Desk:
    desk.take(sheet(flock("A")))
    return desk


@pytest.mark.parametrize("words", [(), ("--drop-gone",)])
def test_another_flock(taken: Desk, words: tuple[str, ...]) -> None:
    refused(
        taken, sheet(flock("B")), "60 of the 60 animals that had a row in the last sheet have none in this one: it looks "
        "like the sheet of another flock: name its book by --book", words=words,
    )  # fmt: skip


def test_another_small_flock(desk: Desk) -> None:
    """Of a book of less than ten animals some may be gone, and not all."""
    desk.take(sheet(flock("A")[:5]))
    assert " 3 gone" in desk.take(sheet(flock("A")[:2])).last
    desk.take(sheet(flock("A")[:5]))
    refused(
        desk, sheet(flock("B")[:5]), "5 of the 5 animals that had a row in the last sheet have none in this one: it looks "
        "like the sheet of another flock: name its book by --book", words=("--drop-gone",),
    )  # fmt: skip


def test_another_id(taken: Desk) -> None:
    """The same animals, with another column of ids under the same title, and without the book's column."""
    others = [row.replace("A", "Z", 1) for row in flock("A")]
    told = (
        "it looks like the same animals with another id: name the column that has the book's ids by --columns, with id= "
        "and its title"
    )
    refused(taken, sheet(others), told)


def test_column_of_ids_lacks(taken: Desk) -> None:
    others = [flock("A")[0], *(row.replace("A", "Z", 1) for row in flock("A")[1:])]
    refused(
        taken, sheet(others, TITLES.replace("Ohrmarke", "Lebensnummer")),
        "the sheet lacks the column 'Ohrmarke', which had the book's ids, and no other column has them",
        "it looks like the same animals with another id",
    )  # fmt: skip


def test_older_sheet(taken: Desk) -> None:
    by_age = sorted(flock("A"), key=lambda row: row.split(";")[2])
    told = "15 of the 60 animals that had a row in the last sheet have none in this one: it looks like "
    without = taken.write("youngest.csv", sheet(by_age[15:]))
    taken.wrong(f"{told}a part of the flock", "import", without)
    refused(
        taken, sheet(by_age[:45]),
        f"{told}an older sheet: each of its animals is in the book, and the youngest are missing",
    )


def test_few_are_gone(taken: Desk) -> None:
    """Nine of sixty are few, and dropped only where it is wished."""
    done = taken.take(sheet(flock("A")[:51]))
    assert " 9 gone" in done.last
    assert "51 animals" in taken.take(sheet(flock("A")[:51]), "--drop-gone").last


def test_many_would_be_dropped(taken: Desk) -> None:
    """Animals that are gone one by one aren't dropped at once."""
    for count in 55, 48:
        taken.take(sheet(flock("A")[:count]))
    text = sheet(flock("A")[:48])
    refused(taken, text, "12 of the 60 animals that had a row would be dropped from the book", words=("--drop-gone",))
    assert len(taken.numbers()) == 48


def test_other_animals_with_the_same_ids(taken: Desk) -> None:
    others = [row.replace("Aname", "Bname") for row in flock("A", day=3)]
    refused(taken, sheet(others), "60 of 60 animals have other names and birth days than in the book")
    renamed = [row.replace("Bname", "Cname") for row in others]
    assert " 0 left out" in taken.take(sheet(renamed)).last


def shifted(count: int, field: int) -> list[str]:
    """The flock, in which some animals have the cell of the animal three rows below."""
    rows = [row.split(";") for row in flock("A")]
    for row, below in zip(rows[20 : 20 + count], flock("A")[23:]):
        row[field] = below.split(";")[field]
    return [";".join(row) for row in rows]


@pytest.mark.parametrize(("field", "what"), [
    (1, "names, which are those of others,"), (2, "birth days"), (3, "parents, or none,"), (4, "parents, or none,"),
])  # fmt: skip
def test_columns_sorted_apart(taken: Desk, field: int, what: str) -> None:
    """Five of sixty are an ordinary correction; six are told, whichever column they have otherwise."""
    assert " 0 left out" in taken.take(sheet(shifted(5, field))).last
    taken.take(sheet(flock("A")))
    refused(
        taken, sheet(shifted(6, field)),
        f"6 of 60 animals have other {what} than in the book, the first are A20 (line 22), A21 (line 23), A22 (line "
        "24): it looks like a sheet some of whose columns were sorted without the others",
    )  # fmt: skip


@pytest.mark.parametrize("field", [3, 4])
def test_parents_taken_away(taken: Desk, field: int) -> None:
    rows = [row.split(";") for row in flock("A")]
    rows = [[*row[:field], "", *row[field + 1 :]] for row in rows]
    told = "50 of 60 animals have other parents, or none, than in the book, the first are A10 (line 12), A11 (line 13)"
    refused(taken, sheet([";".join(row) for row in rows]), told)


def test_parents_with_a_new_tag(taken: Desk) -> None:
    """The ten offspring of a parent that has another tag now keep it; with another name it would be another one."""
    rows = [row.replace("A7;Aname7", "B7;Aname7").replace(";A2;A7", ";A2;B7") for row in flock("A")]
    told = "10 of 59 animals have other parents, or none, than in the book, the first are A12"
    refused(taken, sheet([row.replace("B7;Aname7", "B7;Bname7") for row in rows]), told)
    taken.good("undo")
    done = taken.take(sheet(rows))
    told = "line 9: B7: to look at: it has the name, the birth day and the parents of A7"
    assert told in done.out and done.commands()[0].endswith("--new-tag A7=B7")


def test_other_sexes(desk: Desk) -> None:
    """Sexes that were inferred may be others; those that were said are an ordinary correction of a few alone."""
    titles = TITLES + ";Geschlecht"
    rows = [f"{row};{'m' if at % 10 < 5 else 'w' if at % 3 else ''}" for at, row in enumerate(flock("A"))]
    desk.take(sheet(rows, titles))
    said = [f"{row}{'m' if at > 10 else 'w'}" if row.endswith(";") else row for at, row in enumerate(rows)]
    assert "other sexes" not in desk.take(sheet(said, titles)).out
    others = [*said[:10], *(row[:-1] + ("w" if row.endswith("m") else "m") for row in said[10:16]), *said[16:]]
    refused(
        desk, sheet(others, titles), "6 of 60 animals have other sexes than in the book, the first are A10 (line 12)"
    )


def test_most_have_another_owner(desk: Desk) -> None:
    """It is taken, and told in a sentence, for which its column may be a wrong one."""
    titles = TITLES + ";Besitzer;Abgang"
    desk.take(sheet([f"{row};Hof {at % 3};" for at, row in enumerate(flock("A"))], titles))
    for count, is_told in (30, False), (31, True):
        rows = [f"{row};Hof {at % 3 if at >= count else count};2020" for at, row in enumerate(flock("A"))]
        done = desk.take(sheet(rows, titles), "--preview")
        told = f"to look at: {count} of 60 animals have another owner than before: is its column the right one?"
        assert (told in done.out.splitlines()) == is_told
        done.shows(
            "to look at: 60 of 60 animals have another exit than before: is its column the right one?",
            f"changed: exit 60, owner {count}",
        )


@pytest.mark.parametrize(("before", "now"), [
    ("Aname", "Hof Aname"), ("A2;A7", "A2;import"), ("A3;A8", "import;A8"), ("A1;A6", "#REF!;A6"),
])  # fmt: skip
def test_ordinary_corrections(taken: Desk, before: str, now: str) -> None:
    """Names of one's own, parents that have no row, and cells of which the book's parents stay."""
    rows = [row.replace(before, now) for row in flock("A")]
    assert sum(row not in flock("A") for row in rows) >= 10
    taken.take(sheet(rows))
    changed = len({row["id"] for row in taken.table("book/report.csv") if row["what"] == "changed"})
    assert changed == sum(row not in flock("A") for row in rows if "#REF!" not in row)


def test_few_of_many(desk: Desk) -> None:
    """Six of 320 are no more than 2%."""
    rows = flock("A", 320)
    desk.take(sheet(rows))
    others = [row.replace(";2004-", ";2005-") if 100 <= at < 106 else row for at, row in enumerate(rows)]
    assert " 6 changed" in desk.take(sheet(others)).last


def test_ids_written_otherwise(taken: Desk) -> None:
    """Those whose birth days are others too aren't taken as the animals of the book."""
    rows = [row.replace("A", "a ").replace(";20", ";19") for row in flock("A")]
    refused(
        taken, sheet(rows), "it looks like the same animals, whose ids differ in case, blanks or zeros"
    )


def test_years_alone(taken: Desk) -> None:
    """A day of the book stays where a sheet has its year alone."""
    rows = [row.split(";") for row in flock("A")]
    done = taken.take(sheet([";".join([*row[:2], row[2][:4], *row[3:]]) for row in rows]))
    assert " 0 changed" in done.last
    assert taken.born() == {row[0]: row[2] for row in rows}
    # of another year it gives way
    taken.take(sheet([";".join([*row[:2], "2005" if row[0] == "A20" else row[2], *row[3:]]) for row in rows]))
    assert taken.born()["A20"] == "2005-07-02"


def test_days_in_place_of_years(desk: Desk) -> None:
    """Days that were inferred are no other animals' days."""
    rows = [row.split(";") for row in flock("A", 30)]
    desk.take(sheet([";".join([*row[:2], row[2][:4], *row[3:]]) for row in rows]))
    desk.take(sheet(flock("A", 30)))
    assert desk.born() == {row[0]: row[2] for row in rows}


def test_parents_by_name_without_names(desk: Desk) -> None:
    rows = [
        (
            f"T{at};2001-01-{1 + at % 28:02};Sire of "
            f"{'abcdefgh'[at % 8]};{'T0' if at > 35 else 'Dam of ' + 'abcdefgh'[at % 7]}"
        )
        for at in range(40)
    ]
    text = sheet(rows, "Ohrmarke;Geburtsdatum;Vater;Mutter")
    told = "76 of 80 parents have no row, the first are 'Sire of a', 'Dam of a', 'Sire of b': the parents seem to be "
    refused(desk, text, f"{told}written by their names")
    # once they are in the book they aren't asked for again
    assert " 0 new, 0 changed" in desk.take(text).last


def test_parents_with_id_and_name(desk: Desk) -> None:
    """The id is read, with which the cell begins or ends, or which stands in brackets."""
    rows = [f"A{at};2001-01-{1 + at};;" for at in range(9)]
    rows += [f"B{at};2004-01-{1 + at};Max (A{at % 4});A{4 + at % 5} Eva" for at in range(20)]
    desk.take(sheet(rows, "Ohrmarke;Geburtsdatum;Vater;Mutter"))
    assert all(desk.parents()[f"B{at}"] == (f"A{at % 4}", f"A{4 + at % 5}") for at in range(20))
