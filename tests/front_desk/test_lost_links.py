"""Links of a pedigree that can't stand in a book: nothing is taken, since coefficients would change."""
from __future__ import annotations

import pathlib
import shlex

import pytest

from front_desk.desk import Desk
from gudokeyi.domain.findings import Report
from gudokeyi.ingest.files import GivenFile
from gudokeyi.ingest.pedigrees import read_triples
from gudokeyi.ingest.unknown_parents import UnknownParents
from gudokeyi.reconcile.doubtful_founders import Counts, founders_in_doubt

REFUSED = [
    (
        "a 0 0\nb 0 0\nc a b\nd b c\ne b 0\nf 0 b\n",
        "1 animal is both sire and dam: b (a sire in line 4, a dam in line 3)",
    ),
    ("a 0 0\nb a a\n", "1 animal is both sire and dam: a (both parents of b in line 2)"),
    ("a b 0\nb c 0\nc a 0\n", "would be its own ancestor"),
    ("a 0 0\nb 0 0\nc a b\nc 0 b\n", "line 4: c: the line is left out: line 3 has this id too, with other parents"),
    ("id sire dam sex\na 0 0 F\nb a 0 M\n", "line 3: b: its sire a (line 2) is left out: it isn't male (refusal 5)"),
    ("id sire dam born\na 0 0 2005\nb a 0 2001\n", "it isn't at least a day older (refusal 7)"),
    (
        "a1 0 0\nb A1 0\n",
        "1 parent has no line, and an animal that has one differs in capitals, blanks, signs, zeros, look-alike "
        "letters or the form of a number: A1",
    ),
    ("7 0 0\n9 0 0\n8 007 9\n", "007 (of 8 in line 3; is 7 meant?)"),
    # as pandas, R and spreadsheets write numbers beside empty cells, and long ones
    ("id,sire,dam\n1,,\n2,,\n3,1.0,2.0\n", "1.0 (of 3 in line 4; is 1 meant?), 2.0 (of 3 in line 4; is 2 meant?)"),
    ("100000 NA NA\n99999 NA NA\n8 1e+05 99999\n", "write them as whole numbers, without a point or an exponent"),
    (
        "id;sire;dam\n1,23457E+11;;\n9;;\n8;1,23457E+11;9\n",
        "1 id is a number in the short form, in which digits may be",
    ),
    (
        "1 0 0\n9 0 0\n8 1 9\n8.0 1 9\n",
        "1 id is the number of another animal in another form: 8.0 (line 4; is 8 meant?)",
    ),
    ("GB-12 0 0\n9 0 0\n8 GB12 9\n", "GB12 (of 8 in line 3; is GB-12 meant?)"),
    ("A12 0 0\n9 0 0\n8 \u041012 9\n", "\u041012 (of 8 in line 3; is A12 meant?)"),
]


@pytest.mark.parametrize(("text", "told"), REFUSED)
def test_links_that_would_be_lost(desk: Desk, text: str, told: str) -> None:
    """Nothing is taken, and no folder made; with `--leave-out` the link is left out."""
    pedigree = desk.write("odd.txt", text)
    done = desk.wrong(told, "import", "--pedigree", pedigree)
    assert "nothing is taken" in done.err and "--leave-out" in done.err
    assert not (desk.room / "book").exists()
    assert "book: " in desk.good("import", "--pedigree", pedigree, "--leave-out").last


def test_sire_of_the_book_that_is_a_dam(desk: Desk) -> None:
    """A second pedigree says otherwise than the book's."""
    desk.good("import", "--pedigree", desk.write("first.txt", "a 0 0\nb 0 0\nc a b\n"))
    told = "1 animal is both sire and dam: a (a sire of c in the book, a dam in line 3)"
    desk.wrong(told, "import", "--pedigree", desk.write("second.txt", "id sire dam\ny 0 0\nx y a\n"))


def test_links_of_animals_that_are_not_kept(desk: Desk) -> None:
    """What is wrong with animals that aren't taken keeps no others from being taken."""
    pedigree = desk.write("alike.txt", "a1 0 0\nb A1 0\nc a1 0\nd c 0\nd a1 0\n")
    done = desk.good("import", "--pedigree", pedigree, "--keep", desk.write("kept.txt", "c\n"))
    assert " 2 animals, " in done.last and " 0 left out, " in done.last


def test_parents_in_another_column(desk: Desk) -> None:
    """The column that has the parents is suggested for the ids, and that which was read can be said to be theirs."""
    lines = ["id name sire dam", "1 Rex 0 0", "2 Fee 0 0", "3 Bo Rex Fee", "4 Li Rex Fee", "5 Zo Bo Li"]
    told = "of 4 parents 4 stand in the column 'name', and 0 in 'id', which is read for the ids"
    done = desk.wrong(told, "import", "--pedigree", desk.write("names.txt", "\n".join(lines)))
    by_name, by_id = done.commands()
    assert "4 added" in desk.typed(f"{by_id} --anyway").last
    assert "0 added" in desk.typed(f"{by_name} --drop-gone").last
    assert [(row["id"], row["coefficient"]) for row in desk.listed("list")][-1] == ("Zo", "1/4")


def test_ids_of_families(desk: Desk) -> None:
    """An id that two families have is that of two animals; without a refusal they would be one."""
    pedigree = desk.write("families.txt", "FID IID PAT MAT\nA 1 0 0\nA 2 1 0\nB 1 0 0\n")
    told = "line 4: the id '1' is that of line 2 too, which has another family: give each animal an id of its own"
    desk.wrong(told, "import", "--pedigree", pedigree)
    desk.wrong(told, "import", "--pedigree", pedigree, "--leave-out")


def test_parents_alike_of_animals_that_are_kept(desk: Desk) -> None:
    """Also where the line that is meant isn't kept, since no parent is it."""
    pedigree = desk.write("alike.txt", "GB-12 0 0\nb GB12 0\nc b 0\n")
    kept = desk.write("kept.txt", "c\n")
    desk.wrong("GB12 (of b in line 2; is GB-12 meant?)", "import", "--pedigree", pedigree, "--keep", kept)


def test_words_that_may_be_unknown_parents(desk: Desk) -> None:
    """One that is a parent of several is asked about, and each answer is a command."""
    rows = "a 0 0\nb 0 0\nc a Missing\nd a Missing\ne -2 b\nf -2 b\n"
    told = "2 words have no line and are parents of several animals: Missing (of c in line 3 and 1 more), -2 (of e in line 5 and"
    done = desk.wrong(told, "import", "--pedigree", desk.write("words.txt", rows))
    *unknown, known = done.commands()
    assert " 2 added, " in desk.typed(f"{known} --book known").last
    for command, other in zip(unknown, reversed(unknown)):
        done = desk.run(*shlex.split(command)[1:])
        assert done.status == 1 and "1 word has no line and is a parent of several animals" in done.err
        assert done.commands()[:1] == [f"{command} {other.split('words.txt ')[1]}"]
    assert " 0 added, " in desk.typed(done.commands()[0]).last
    assert desk.parents()["c"] == ("a", "") and desk.parents()["e"] == ("", "b")


# ids of several forms, and words that look like none of them
FORMS = ("a{}", "30{}", "DE 0{}", "27600{}")
WORDS_WITH_DIGITS = ("9", "UNK1", "1999", "N.N.1", "12345", "9.0", "99", "unknown-2")


def of_word(word: str, form: str, count: int) -> str:
    """A pedigree of two founders and their offspring, of which so many have a word for a dam."""
    animals = [f'"{form.format(at)}"' for at in range(10, 10 + count + 2)]
    return "".join(f"{one} 0 0\n" for one in animals[:2]) + "".join(
        f"{one} {animals[0]} {word}\n" for one in animals[2:]
    )


def doubted(text: str) -> list[str]:
    """What is asked about the founders of a pedigree."""
    unknown = UnknownParents()
    file = GivenFile(pathlib.Path("p.txt"), text.encode())
    animals = read_triples(file, {}, unknown, {}, Report()).animals
    those = [*animals.values()]
    return [one.words() for one in founders_in_doubt(those, Counts.of(those), animals.keys(), unknown)]


@pytest.mark.parametrize("form", FORMS)
@pytest.mark.parametrize("word", WORDS_WITH_DIGITS)
def test_words_with_digits(form: str, word: str) -> None:
    """Those that no animal's id looks like, and parents of many, are asked about."""
    told = (
        f"1 word has no line and is a parent of several animals: {word} (of {form.format(12)} in line 3 and 5 more). To"
    )
    assert doubted(of_word(word, form, 6))[0].startswith(told)


def test_answers_about_a_word_with_digits(desk: Desk) -> None:
    """It is asked about before the import and in the preview; each answer is a command."""
    pedigree = desk.write("words.txt", of_word("1999", "a{}", 6))
    told = "1 word has no line and is a parent of several animals: 1999 (of a12 in line 3 and 5 more)"
    unknown, known = desk.wrong(told, "import", "--pedigree", pedigree).commands()
    preview = desk.good("import", "--pedigree", pedigree, "--preview")
    assert told in preview.told
    assert [one.replace(" --preview", "") for one in preview.commands()] == [unknown, known]
    assert " 0 added, " in desk.typed(f"{unknown} --book unknown").last and "--unknown 1999" in unknown
    assert " 1 added, " in desk.typed(f"{known} --book known").last and "--known 1999" in known


def test_founders_that_are_not_asked_about() -> None:
    """Those that look like the other animals, have few offspring, or begin as ids with a line do."""
    gap = "".join(f"{at} 1 2\n" for at in range(3, 10))
    few = "".join(f"a{at} 0 0\nb{at} a{at} 0\n" for at in range(12)) + "".join(f"c{at} a1 1999\n" for at in range(4))
    herds = "".join(f"NN{at} 0 0\n" for at in range(10, 16)) + "c NN9 0\nd NN9 0\n"
    bulls = "".join(f"a{at} 0 0\n" for at in range(9)) + "".join(
        f"b{at} HOLUSA7723{at // 3} a{at}\n" for at in range(9)
    )
    assert doubted(gap) == doubted(few) == doubted(herds) == []
    assert [one.partition(":")[0] for one in doubted(bulls)] == ["3 of 12 parents have no line, though others have"]


def test_a_word_of_a_tenth() -> None:
    """Whatever a parent without a line looks like, it is asked about where more than a tenth of all have it."""
    rows = "".join(f"a{at} 0 0\n" for at in range(90)) + "".join(f"b{at} a{at} 0\n" for at in range(89))
    tenth = "".join(f"c{at} X7 b{at}\n" for at in range(10))
    told = "1 word has no line and is a parent of several animals: X7 (of c0 in line 180 and 9 more)"
    assert doubted(rows + tenth)[0].startswith(told) and doubted(f"{rows}d a1 0\ne a2 0\n{tenth}") == []


@pytest.mark.parametrize(
    ("form", "parent"),
    [("DE {}", "12"), ("DE 276 00{}", "0012"), ("2760{}", "012"), ("{}/2001", "12"), ("{}-A", "12"), ("AT.{}", ".12")],
)
def test_ids_without_their_beginning_or_end(form: str, parent: str) -> None:
    """Also one among parents that have lines, where many ids begin or end so; where few do it may be another animal."""
    ids = [f'"{form.format(at)}"' for at in range(10, 60)]
    rows = "".join(f"{id} 0 0\n" for id in ids) + "".join(
        f'"{form.format(at)}" {id} 0\n' for at, id in enumerate(ids[5:], 70)
    )
    told = f"1 parent has no line, and lacks what many ids begin or end with: {parent} (of y in line 96; is "
    assert doubted(f"{rows}y {parent} 0\n")[0].startswith(f"{told}{form.format(12)} meant?). To take founders")
    few = "".join(f"X{at + 100}Z 0 0\n" for at in range(1000))
    assert doubted(f"{few}{rows}y {parent} 0\n") == []


def test_answer_about_ids_without_their_beginning(desk: Desk) -> None:
    rows = "".join(f"DE{at} 0 0\n" for at in range(10, 30)) + "".join(f"DE{at + 30} DE{at} 0\n" for at in range(10, 30))
    told = "1 parent has no line, and lacks what many ids begin or end with: 12 (of y in line 41; is DE12 meant?)"
    done = desk.wrong(told, "import", "--pedigree", desk.write("cut.txt", f"{rows}y 12 0\n"))
    assert " 1 added, " in desk.typed(done.commands()[0]).last


def test_many_parents_without_a_line(desk: Desk) -> None:
    """More than a tenth of them are asked about, where others have a line."""
    rows = "".join(f"{at} 0 0\n" for at in range(1, 10)) + "".join(f"c{at} {at} 0\n" for at in range(1, 10))
    pedigree = desk.write("tenth.txt", f"{rows}d 100 0\n")
    assert " 1 added, " in desk.good("import", "--pedigree", pedigree).last
    pedigree = desk.write("more.txt", f"{rows}d 100 0\ne 102 0\n")
    told = "2 of 11 parents have no line, though others have: 100 (of d in line 19), 102 (of e in line 20). To take founders"
    done = desk.wrong(told, "import", "--pedigree", pedigree, "--book", "more")
    assert " 2 added, " in desk.typed(done.commands()[0]).last
    assert " 2 added, " in desk.good(
        "import", "--pedigree", desk.write("all.txt", "c a1 b1\nd a1 b1\n"), "--book", "all"
    ).last


def test_ids_in_part(desk: Desk) -> None:
    """Where no parent has a line: most have the digits of one that has."""
    rows = "".join(f"DE{at:04} 0 0\n" for at in range(1, 5)) + "DE0007 0001 0002\nDE0008 0003 0004\n"
    told = "none of 4 parents has a line, and 4 have the digits of an id: 0001 (of DE0007 in line 5; is DE0001 meant?), 0002"
    done = desk.wrong(told, "import", "--pedigree", desk.write("part.txt", rows))
    assert " 4 added, " in desk.typed(done.commands()[0]).last
    few = desk.write("few.txt", rows.replace("0001 0002", "s1 d12").replace("0003 0004", "s2 d9"))
    assert " 4 added, " in desk.good("import", "--pedigree", few, "--book", "few").last


def test_line_that_says_the_same_again(desk: Desk) -> None:
    done = desk.good("import", "--pedigree", desk.write("twice.txt", "a 0 0\nb 0 0\nc a b\nc a b\n"))
    done.tells("line 4: c: the line is left out: line 3 has this id too")
    assert desk.parents()["c"] == ("a", "b")


def test_many_ids_in_a_message(desk: Desk) -> None:
    """The first dozen are named, and how many there are."""
    done = desk.wrong("animals are both sire and dam", "import", "--pedigree", desk.write("trees.txt", selfed(20)))
    assert "20 animals are both sire and dam: t0 (both parents of t1 in line 2), t1 " in done.err
    assert "t11 (both parents of t12 in line 13) and 8 more" in done.err and "t12 (" not in done.err
    round_again = desk.write("round.txt", "".join(f"a{at} a{(at + 1) % 40} 0\n" for at in range(40)))
    path = " > ".join(["a39", *(f"a{at}" for at in range(10)), "29 more", "a39"])
    desk.wrong(f"a39 would be its own ancestor ({path})", "import", "--pedigree", round_again)


def selfed(generations: int) -> str:
    return "t0 0 0\n" + "".join(f"t{at + 1} t{at} t{at}\n" for at in range(generations))
