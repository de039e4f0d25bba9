"""Kinships and tables of matings, compared with the tabular matrix by its definition."""
from __future__ import annotations

import csv
import io
import itertools
import pathlib
import types
from fractions import Fraction
from typing import cast

import pytest

import reference
from breed.drawn import drawn
from front_desk.desk import Desk
from gudokeyi.domain.animals import SocietyRecord
from gudokeyi.domain.messages import MOST_NAMED, Mistake
from gudokeyi.genetics.pedigree import UNKNOWN
from gudokeyi.services.book_program import BookProgram
from gudokeyi.services.relationships import coefficients_told, related, relationships
from gudokeyi.store.book import Book

TITLES = ("id", "sex", "birth", ("sire", "dam"))
SOME = ["GK-17/472c", "GK-02/119b", "GK-11/332b", "GK-98/005c", "GK-14/391c", "GK-18/487c", "IMP-7 (imported)"]


def entries(desk: Desk) -> tuple[dict[str, str], reference.Relationship]:
    """The numbers by ids, and the matrix."""
    return desk.numbers(), reference.filed(desk.text("book/commands.csv"))[0].relationships()


def test_kinship(society_desk: Desk) -> None:
    numbers, entry = entries(society_desk)
    society_desk.write("some.txt", "id\n" + "\n".join(SOME) + "\n")
    pairs = list(itertools.combinations_with_replacement(SOME, 2))
    for words in ([*SOME], ["--among", "some.txt"], [SOME[0], "--among", "some.txt"]):
        rows = society_desk.listed("kinship", *words)
        assert [(row["id"], row["with"]) for row in rows] == pairs, words
        for row in rows:
            value = entry(numbers[row["id"]], numbers[row["with"]])
            assert Fraction(row["relationship"]) == value and Fraction(row["kinship"]) == value / 2
            assert abs(Fraction(row["kinship_decimal"]) - value / 2) <= Fraction(1, 2 * 10**10)
    with_some = society_desk.listed("kinship", "GK-10/294b", "GK-09/271b", "--with", "some.txt")
    assert [(row["id"], row["with"]) for row in with_some] == list(
        itertools.product(["GK-10/294b", "GK-09/271b"], SOME)
    )
    assert all(Fraction(row["relationship"]) == entry(numbers[row["id"]], numbers[row["with"]]) for row in with_some)


@pytest.mark.parametrize("seed", range(2))
def test_drawn_book(desk: Desk, seed: int) -> None:
    """Each question on a drawn book, whose ids are no numbers, and whose animals are inbred."""
    pedigree = drawn(seed, 24, back=8)
    parents = {
        f"No. {at}": tuple("" if rank == UNKNOWN else f"No. {rank}" for rank in ranks)
        for at, ranks in enumerate(zip(pedigree.sires, pedigree.dams))
    }
    facts = zip(parents, ("FM"[male] for male in pedigree.are_male), map(str, pedigree.births), parents.values())
    desk.take("".join(f"{','.join((id, sex, day, *both))}\n" for id, sex, day, both in [TITLES, *facts]))
    numbers, entry = entries(desk)
    ids = list(parents)
    pairs = desk.listed("kinship", *ids)
    assert [(row["id"], row["with"]) for row in pairs] == list(itertools.combinations_with_replacement(ids, 2))
    for row in pairs:
        assert Fraction(row["relationship"]) == entry(numbers[row["id"]], numbers[row["with"]])
    coefficients = {id: str(entry(numbers[id], numbers[id]) - 1) for id in ids}
    assert {row["id"]: row["coefficient"] for row in desk.listed("list")} == coefficients and len(
        {*coefficients.values()}
    ) > 3
    matings = desk.listed(
        "mating", "--dams", desk.write("dams.txt", "\n".join(id for id in ids if numbers[id][6] == "F"))
    )
    assert len(matings) == sum(pedigree.are_male) * (len(ids) - sum(pedigree.are_male))
    for row in matings:
        assert Fraction(row["coefficient"]) == entry(numbers[row["dam"]], numbers[row["sire"]]) / 2
    most = max(ids, key=lambda id: Fraction(coefficients[id]))
    advice = desk.listed("mating", "--dam", matings[0]["dam"])
    assert [row["id"] for row in advice] == [row["sire"] for row in matings if row["dam"] == matings[0]["dam"]]
    shown = desk.good("show", most).out
    assert f"  coefficient   {coefficients[most]} = " in shown and f"  sire          {parents[most][0]}  " in shown
    assert [row["id"] for row in desk.listed("find", "o. 1")] == [id for id in ids if id.startswith("No. 1")]
    exported = {row["id"]: (row["sire"], row["dam"]) for row in desk.listed("export")}
    assert exported == parents and list(exported) == ids


def test_kinship_matrix(society_desk: Desk) -> None:
    numbers, entry = entries(society_desk)
    for kind, times in ("relationship", Fraction(1)), ("kinship", Fraction(1, 2)):
        lines = list(csv.reader(io.StringIO(society_desk.good("kinship", *SOME, "--matrix", kind).out)))
        assert lines[0] == ["id", *SOME] and [line[0] for line in lines[1:]] == SOME
        for line, other in itertools.product(lines[1:], range(len(SOME))):
            value = entry(numbers[line[0]], numbers[SOME[other]]) * times
            assert abs(Fraction(line[other + 1]) - value) <= Fraction(1, 2 * 10**10)
    german = society_desk.good("kinship", *SOME[:2], "--matrix", "relationship", "--semicolons").out
    assert german.splitlines()[1:] == ["GK-17/472c;1,03125;0", "GK-02/119b;0;1,25"]


def test_kinship_mistakes(society_desk: Desk) -> None:
    society_desk.write("wrong.txt", "GK-17/472c\nGK-17/472x\nnobody\n")
    society_desk.wrong("wrong.txt: the book has no animal 'nobody'", "kinship", "--among", "wrong.txt")
    society_desk.wrong("wrong.txt: the book has no animal 'GK-17/472x': is", "kinship", "--among", "wrong.txt")
    society_desk.wrong("kinship needs animals", "kinship")
    for count, more in (MOST_NAMED, []), (MOST_NAMED + 1, ["gudokeyi: and 1 more"]):
        society_desk.write("wrong.txt", "".join(f"nobody{at}\n" for at in range(count)))
        lines = society_desk.run("kinship", "--among", "wrong.txt").err.splitlines()
        assert all("wrong.txt: " in line for line in lines[:MOST_NAMED]) and lines[MOST_NAMED:] == more


def test_matings(society_desk: Desk) -> None:
    """Half of each relationship, and the same that `mating --dam` says."""
    numbers, entry = entries(society_desk)
    society_desk.write("dams.txt", "GK-17/472c\nGK-14/391c\n")
    society_desk.write("sires.txt", "GK-10/294b\nGK-11/332b\nGK-16/446b\n")
    rows = society_desk.listed("mating", "--dams", "dams.txt", "--sires", "sires.txt")
    assert [row["dam"] for row in rows] == ["GK-17/472c"] * 3 + ["GK-14/391c"] * 3
    for row in rows:
        assert Fraction(row["coefficient"]) == entry(numbers[row["dam"]], numbers[row["sire"]]) / 2
    for dam in "GK-17/472c", "GK-14/391c":
        one = society_desk.listed("mating", "--dam", dam, "GK-10/294b", "GK-11/332b", "GK-16/446b")
        asked = [(row["sire"], row["coefficient"], row["decimal"], row["percent"]) for row in rows if row["dam"] == dam]
        assert asked == [(row["id"], row["coefficient"], row["decimal"], row["percent"]) for row in one]
    matrix = society_desk.good("mating", "--dams", "dams.txt", "GK-10/294b", "GK-11/332b", "--matrix").out
    assert matrix.splitlines()[:2] == ["percent,GK-10/294b,GK-11/332b", "GK-17/472c,3.32,26.56"]
    all_males = society_desk.listed("mating", "--dams", "dams.txt")
    living = [row["id"] for row in society_desk.listed("list", "--living", "--sex", "m")]
    assert {row["sire"] for row in all_males} == set(living) and len(all_males) == 2 * len(living)
    society_desk.wrong("GK-17/472c, GK-14/391c: no sire can be female", "mating", "--sires", "dams.txt")
    society_desk.wrong("mating needs a dam", "mating")


def test_too_many_pairs() -> None:
    """The program isn't asked for more than a table can have."""
    book, program = Book(pathlib.Path("none"), None), cast(BookProgram, None)
    with pytest.raises(Mistake, match="these are 2,000,001 pairs, and at most 2,000,000 are written"):
        relationships(book, program, ["one"] * 3, ["other"] * 666_667)
    animals = cast(list[SocietyRecord], [types.SimpleNamespace(registration_number="one")] * 2_000)
    with pytest.raises(Mistake, match="these are 2,001,000 pairs"):
        related(book, program, animals, None)


def test_refused_matings(desk: Desk) -> None:
    """A calf with 61 steps behind it is refused by the program, and isn't in the table; where each sire that is named
    is refused the status tells it."""
    lines = ["id,birth,sex,sire,dam", "A0,1930-01-01,m,,", "B,1930-01-01,f,,", "C,2001-01-01,m,,"]
    for at in range(1, 61):
        # sires and dams in turn
        sex, parents = "f" if at % 2 or at == 60 else "m", f"A{at - 1}," if at % 2 else f",A{at - 1}"
        lines.append(f"A{at},{1930 + at}-01-01,{sex},{parents}")
    desk.take("\n".join(lines) + "\n")
    desk.write("dams.txt", "A60\nB\n")
    done = desk.good("mating", "--dams", "dams.txt", "C")
    assert done.out == "dam,sire,coefficient,decimal,percent\nB,C,0,0,0.00\n"
    assert "longer than 60 steps (fault 5): A60 with C" in done.err
    assert desk.good("mating", "--dams", "dams.txt", "C", "--matrix").out == "percent,C\nA60,\nB,0.00\n"
    for words in ["--dam", "A60", "C"], ["--dam", "B", "A60"], ["--dams", desk.write("dam.txt", "A60\n"), "C"]:
        done = desk.run("mating", *words)
        assert (done.status, done.out.count("\n")) == (3, 1) and "refused" in done.err, f"{words}: {done}"
    # one that isn't refused is enough, and of all living ones none was asked for
    desk.good("mating", "--dam", "B", "C", "A60")
    desk.good("mating", "--dam", "A60")


def test_who_may_be_mated(desk: Desk) -> None:
    """Advice, tables and plans take the same animals: living ones that have a row, and no castrated ones, which are
    told; whoever is named is taken."""
    rows = """
        id,sex,birth,sire,dam,exit
        dam,ewe,2001-03-01,,,
        ram,ram,2001-03-01,,,
        wether,Hammel,2001-03-01,,,
        other wether,Hammel,2001-03-02,,,
        gone,ram,2001-03-01,,,2010-01-01
        calf,ram,2003-03-01,added,dam,
        old,ewe,2001-03-01,,,2010-01-01
    """
    desk.take("\n".join(line.strip() for line in rows.strip().splitlines()))
    told = (
        "males without a row in the sheet: 1 (added) aren't listed: name one, if it lives",
        "castrated males: 2 (wether, other wether) aren't listed: name one, if its semen is stored",
    )
    for words, sires in (("mating --dam dam", "id"), ("mating --dams dams.txt", "sire"), ("plan --table", "sire")):
        desk.write("dams.txt", "dam\n")
        done = desk.good(*words.split())
        assert {row[sires] for row in csv.DictReader(io.StringIO(done.out))} == {"ram", "calf"}, words
        assert all(f"gudokeyi: {sentence}\n" in done.err for sentence in told), words
    assert [row["id"] for row in desk.listed("mating", "--dam", "dam", "wether", "added", "gone")] == [
        "added",
        "gone",
        "wether",
    ]
    desk.good("exit", "ram", "--day", "2020-01-01")
    desk.good("exit", "calf", "--day", "2020-01-01")
    told_of_none = "no living male that may be a sire (passed over: 3 left, 2 castrated ones, 1 without a row)"
    desk.wrong(f"{told_of_none}: name one, or ask for those that left too by --left", "mating", "--dam", "dam")
    for word in "mating --dams dams.txt", "plan":
        desk.wrong(f"{told_of_none}: name some in a file, as --sires FILE", *word.split())


def test_dams_of_whom_none_is_named(desk: Desk) -> None:
    """They are taken as sires are, and who is passed over is told; one dam may have sires of a file."""
    desk.take("id,sex,birth,sire,dam\nbull,m,2001-03-01,,added\ncow,f,2001-03-01,,\nother,f,2001-03-01,,\n")
    for name in "bull", "cow":
        desk.write(f"{name}.txt", f"{name}\n")
    done = desk.good("mating", "--sires", "bull.txt")
    assert done.out == "dam,sire,coefficient,decimal,percent\ncow,bull,0,0,0.00\nother,bull,0,0,0.00\n"
    assert done.err == "gudokeyi: females without a row in the sheet: 1 (added) aren't listed: name one, if it lives\n"
    done = desk.good("mating", "--dam", "other", "--sires", "bull.txt")
    assert (done.out, done.err) == ("dam,sire,coefficient,decimal,percent\nother,bull,0,0,0.00\n", "")
    desk.wrong("bull: no dam can be male: take these out of --dams", "mating", "--dams", "bull.txt")
    desk.wrong("cow: no sire can be female: take these out of --sires", "mating", "--sires", "cow.txt")
    for id in "cow", "other":
        desk.good("exit", id, "--day", "2010-01-01")
    told = "no living female that may be a dam (passed over: 2 left, 1 without a row)"
    desk.wrong(f"{told}: name some in a file, as --dams FILE", "mating", "--sires", "bull.txt")


def test_pairs_are_asked_for_together(monkeypatch: pytest.MonkeyPatch) -> None:
    """Of each pair half the relationship is told, and nothing of one of deep animals that the program refuses to
    mate."""
    asked = []

    class Program(BookProgram):
        def ask(self, words: list[str], book: Book) -> list[str]:
            asked.append(words[0])
            if words[0] == "mating":
                return [f"{sire},refused,63" if sire == "s2" else f"{sire},1/8,12.50" for sire in words[3:]]
            return [f"{one},{other},1/4" for one, other in itertools.combinations_with_replacement(words[1:], 2)]

    monkeypatch.setattr("gudokeyi.services.relationships.deep_animals", lambda book: {"d1"})
    monkeypatch.setattr("gudokeyi.services.relationships.PAIRS_AT_ONCE", 2)
    pairs = [("d1", "s1"), ("d1", "s2"), ("d2", "s2")]
    told = coefficients_told(Book(pathlib.Path("none"), None), Program(), pairs)
    assert list(told) == [(pairs[0], "1/8"), (pairs[1], ""), (pairs[2], "1/8")]
    assert asked == ["relationships", "mating", "relationships"]
