"""Each command that is suggested is taken out of the text and typed into a shell as it stands: it is done, and what it
answers isn't asked again."""
from __future__ import annotations

import pathlib

import pytest

from front_desk.desk import Desk, Done
from front_desk.test_guards import flock, sheet, shifted

NAME, BOOK = "Herde 'neu' & alt.csv", ("--book", "das Buch")
TITLES = "id;name;sex;birth;sire;dam;owner;exit\n"
PAIR = "s;Max;M;2001-03-01;;;Meier;\nd;Eva;F;2001-03-02;;;Meier;2010-01-01\n"
CALVES = "".join(f"c{at};;F;2004-03-0{at};s;d;Meier;sold\n" for at in range(1, 5))


def titled(titles: str, rows: str) -> str:
    return f"{titles}\n{rows}"


NAMES = [f"{one}{other}" for one in "KLMNO" for other in ("oro", "ira", "una", "eno", "ax", "ebe")]
# the sheet of the book, if there is one, the one that is taken then, the words, and how many commands are suggested
ASKED: dict[str, tuple[str, str, tuple[str, ...], int]] = {
    "young parents": ("", TITLES + PAIR + "c;;F;2001-08-01;s;d;;\n", ("--youngest", "300"), 1),
    "near births": ("", TITLES + PAIR + "a;;F;2004-01-01;s;d;;\nb;;F;2004-02-01;s;d;;\n", ("--apart", "90"), 1),
    "unknown word": ("", TITLES + "a;;F;2004;o' Hara;;;\nb;;F;2004;o' Hara;;;\n", ("--known", "o' Hara"), 1),
    "unknown number": ("", TITLES + "a;;F;2004;-7;-7;;\nb;;F;2004;-7;;;\n", (), 1),
    "unknown sign": ("", TITLES + "a;;F;2004;-frei-;;;\nb;;F;2004;-frei-;;;\n", (), 1),
    "sexes": ("", TITLES + "a;;Q;2004;;;;\nb;;F;2004;a;;;\n", ("--sexes", "X=m"), 2),
    "most sexes": ("", TITLES + "a;;Q Q;2004;;;;\nb;;Q Q;2004;;;;\nc;;Q Q;2004;;;;\n", (), 2),
    "exits": ("", TITLES + PAIR + "a;;F;2004;;;;Hof\nb;;F;2004;;;;Hof\n", (), 2),
    "months": ("", TITLES + "a;;F;03/25/2004;;;;\n", (), 1),
    "days": ("", TITLES + "a;;F;25/03/2004;;;;\n", ("--month-first",), 1),
    "either": ("", TITLES + "a;;F;03/05/2004;;;;\n", (), 1),
    "no parents": ("", "id;birth\na;2004\n", (), 1),
    "another day": ("", "id;Day;Note;sire;dam\na;2001-03-01;1001;;\nb;2004;1002;a;\n", (), 2),
    "other parents": ("", "id;birth;Note;V 1;M 1\na;2001;x;;?\nb;2002;x;?;\nc;2004;x;a;b\nd;2005;x;a;b\n", (), 2),
    "other titles": ("", "Marke;gz;V1;M1\na;2001;;\nb;2002;;\nc;2004;a;b\n", (), 1),
    "lost": ("id;birth;sire;dam;sex\na;2001;;;f\n", "id;birth;sire;dam;Nature\na;2001;;;f\n", (), 2),
    "rows": ("", "Nr;Code;birth;sire;dam\n1;a;2001;;\n2;b;2002;;\n3;c;2004;;\n", (), 1),
    "another title": ("", "Ohrmarke;birth;sire;dam\na;2004;;\n", ("--columns", "id=Ohrmarken"), 1),
    "strictly": ("", TITLES + PAIR + "a;;F;2004;d;;;\n", ("--strict",), 1),
    "ids of others": ("", titled("id;tag;birth;sire;dam", "1;A;2001;;\n2;B;2001;;\n3;C;2004;A;B\n4;D;2004;A;B\n"), (), 1),
    "likelier": ("id;birth;sire;dam;Abgang\na;2001;;;\n", "id;birth;sire;dam;Abgang;Abgangsdatum\na;2001;;;;\n", (), 1),
    "gone": (TITLES + PAIR, TITLES + PAIR.splitlines()[0], (), 1),
    "withdrawn": (TITLES + PAIR + CALVES, TITLES + PAIR + CALVES.replace("sold", ""), (), 1),
    "respelt": (TITLES + PAIR, TITLES + PAIR.replace("Meier", "Meyer"), (), 1),
    "respelt, in a preview": (TITLES + PAIR, TITLES + PAIR.replace("Meier", "Meyer"), ("--preview",), 1),
    "renamed": (TITLES + PAIR, TITLES + PAIR.replace("Meier", "Weiß") + "c;;F;2001-08-01;s;;Weiß;\n",
                ("--owner", "Meier=Weiß"), 1),
    "used again": (TITLES + PAIR, TITLES + PAIR.replace("Eva;F;2001", "Ida;F;2009"), (), 1),
    "another flock": (sheet(flock("A")), sheet(flock("B")), ("--drop-gone",), 1),
    "another flock, in a preview": (sheet(flock("A")), sheet(flock("B")), ("--preview",), 2),
    "sorted apart": (sheet(flock("A")), sheet(shifted(9, 2)), (), 1),
    "parents by name": ("", "id;birth;sire;dam;Hundchen\n" + "".join(
        f"{at};20{at:02};{NAMES[at - 1] if at else ''};;{NAMES[at] if at < 22 else ''}\n" for at in range(26)), (), 2),
}  # fmt: skip


def asked(desk: Desk, name: str) -> Done:
    before, now, words, _ = ASKED[name]
    if before:
        desk.good("import", desk.write(NAME, before), *BOOK)
    return desk.run("import", desk.write(NAME, now), *BOOK, *words)


@pytest.mark.parametrize("name", ASKED)
def test_suggested_commands(desk: Desk, tmp_path: pathlib.Path, name: str) -> None:
    done = asked(desk, name)
    commands = done.commands()
    assert len(commands) == ASKED[name][3], done.out + done.err
    for at, command in enumerate(commands):
        again = desk.copy_to(tmp_path / f"typed {at}").typed(command)
        assert command.partition(" && ")[2] or command not in again.commands(), f"{command}: {again.out}"
        assert "(refused" not in again.out


def test_suggestions_of_a_pedigree(desk: Desk) -> None:
    """Sires that are dams, and a word that may mean an unknown parent: each command ends one of them."""
    desk.write("linie 1.txt", "a x x\nb x 0\nc 0 b\nd b a\n")
    done = desk.run("import", "--pedigree", "linie 1.txt", *BOOK)
    unknown, known = done.commands()
    assert done.status == 1 and unknown.endswith(" --unknown x") and known.endswith(" --known x")
    done = desk.run("import", "--pedigree", "linie 1.txt", *BOOK, "--known", "x")
    assert done.status == 1
    leave_out, unknown = done.commands()
    assert " 1 left out (1 parent)" in desk.typed(leave_out).last
    desk.write("linie 1.txt", "a x x\nb x 0\nc 0 b\nd b a\n".replace("d b a", "d 0 a"))
    # the word stays in the book, as an animal without a line
    last = desk.typed(unknown).last
    assert last.startswith("das Buch: 5 animals") and ", 1 gone: " in last


def test_suggestions_for_titles_of_a_pedigree(desk: Desk) -> None:
    """The columns that are left, in their order, and a title that is nearly the one that is named."""
    desk.write("linie 1.txt", "ANIMAL PARENT1 PARENT2\na 0 0\nb 0 0\nc a b\n")
    done = desk.run("import", "--pedigree", "linie 1.txt", *BOOK)
    assert "gudokeyi:   if 'PARENT1' has the sires and 'PARENT2' has the dams:" in done.err
    assert desk.typed(done.commands()[0]).last.startswith("das Buch: 3 animals")
    desk.wrong(
        "no title for the sire and the dam", "import", "--pedigree", desk.write("kurz.txt", "ANIMAL PARENT1\na 0\n")
    )
    assert not desk.run("import", "--pedigree", "kurz.txt").commands()
    done = desk.run("import", "--pedigree", "linie 1.txt", "--columns", "sire=PARENT,dam=PARENT2", "--book", "other")
    assert desk.typed(done.commands()[0]).last.startswith("other: 3 animals")
    desk.write(NAME, "id;birth;PARENT1;PARENT2\na;2001;;\nb;2001;;\nc;2004;a;b\n")
    done = desk.run("import", NAME, "--columns", "sire=PARENT,dam=PARENT2")
    assert " 0 left out, 0 added" in desk.typed(done.commands()[0]).last


def test_suggested_sheet(desk: Desk) -> None:
    """Where there is no book, the only sheet of the folder is suggested."""
    desk.write(NAME, TITLES + PAIR)
    done = desk.run("list", *BOOK)
    assert desk.typed(done.commands()[0]).last.startswith("das Buch: 2 animals")
    desk.write("zweite.csv", TITLES + PAIR)
    assert not desk.run("list").commands()
