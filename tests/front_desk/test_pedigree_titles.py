"""Pedigrees as the usual programs write them: titles, columns by option, comments, and standard input."""
from __future__ import annotations

import os
import subprocess

import pytest

from front_desk.desk import SECONDS, TOP, Desk

# the same six animals, as eight programs write them: a calf of full sibs and what is not its parents' sexes
BODY = [("a", "0", "0"), ("b", "0", "0"), ("c", "a", "b"), ("d", "a", "b"), ("e", "c", "d")]
FILES = {
    "Indiv Sire Dam Sex Born": ("{0} {1} {2} {3} {4}", "NA"),
    "id dadid momid sex": ("{0} {1} {2} {3}", "0"),
    "label sire dam": ("{0} {1} {2}", "NA"),
    "Calf,Sire,Dam,Sex": ("{0},{1},{2},{3}", ""),
    "Anim S D": ("{0} {1} {2}", "."),
    "FID IID PAT MAT SEX": ("1 {0} {1} {2} {5}", "0"),
    "## of PLINK 2\n#FID\tIID\tPAT\tMAT\tSEX": ("1\t{0}\t{1}\t{2}\t{5}", "0"),
    "Progeny Father Mother": ("{0} {1} {2}", "-9"),
    "Label Pai Mãe": ("{0} {1} {2}", "*"),
    "Individuo;Padre;Madre;Sexo;FechaNacimiento": ("{0};{1};{2};{5};{4}", "0"),
    "id dam sire": ("{0} {2} {1}", "unk"),
    "animal\tdam\tsire\tyob": ("{0}\t{2}\t{1}\t{4}", "-1"),
}


@pytest.mark.parametrize("titles", FILES)
def test_titles_of_programs(desk: Desk, titles: str) -> None:
    row, unknown = FILES[titles]
    lines = [titles]
    for at, (id, sire, dam) in enumerate(BODY):
        sire, dam = (unknown if parent == "0" else parent for parent in (sire, dam))
        male = id in "ac"
        lines.append(row.format(id, sire, dam, "M" if male else "F", 1990 + at, "1" if male else "2"))
    done = desk.good("import", "--pedigree", desk.write("pedigree.txt", "\n".join(lines) + "\n"))
    assert "columns: id from '" in done.out and " 5 new" in done.last and " 0 left out, 0 added" in done.last
    found = {row["id"]: (row["coefficient"], row["birth"]) for row in desk.listed("list")}
    assert {id: coefficient for id, (coefficient, _) in found.items()} == dict.fromkeys("abcd", "0") | {"e": "1/4"}
    has_birth = any(title in titles for title in ("Born", "yob", "Fecha"))
    assert found["e"][1].startswith("1994-") == has_birth
    assert ("birth days" in done.out) != has_birth
    assert ("the sexes" in done.out) != ("sex" in titles.lower())


def test_unknown_sexes_and_births(desk: Desk) -> None:
    """The codes and words that stand for them are nothing that can't be read."""
    rows = "a 0 0 1 1990\nb 0 0 2 NA\nc a b 3 .\nd a b 4 -9\ne a b 0 1995\nf a b 9 1995\ng a b unk 1995\n"
    done = desk.good("import", "--pedigree", desk.write("codes.txt", f"id dadid momid sex born\n{rows}"))
    assert ": 7 animals, 7 new, " in done.last and " 0 left out, 0 added" in done.last


def test_titles_by_option(desk: Desk) -> None:
    text = "x1 x2 x3 x4\na 0 0 f\nb a 0 m\n"
    pedigree = desk.write("odd.txt", text)
    desk.wrong("line 1: 'x1 x2 x3 x4' has 4 cells", "import", "--pedigree", pedigree)
    done = desk.good("import", "--pedigree", pedigree, "--columns", "id=x1,dam=x2,sire=x3,sex=x4")
    assert "columns: id from 'x1', sire from 'x3', dam from 'x2', sex from 'x4'" in done.out
    assert desk.parents() == {"a": ("", ""), "b": ("", "a")}
    desk.wrong("there is no column 'y'", "import", "--pedigree", pedigree, "--columns", "id=x1,sire=y,dam=x2")
    desk.wrong("--columns owner=: of a pedigree", "import", "--pedigree", pedigree, "--columns", "owner=x1")


def test_first_line_is_told(desk: Desk) -> None:
    """A first line without a known title is an animal."""
    done = desk.good("import", "--pedigree", desk.write("plain.txt", "king 0 0\nqueen 0 0\nheir king queen\n"))
    done.tells("line 1: 'king 0 0' has none of the known titles, and is taken for an animal")
    assert " 3 animals, 3 new" in done.last


def test_ids_that_begin_as_comments(desk: Desk) -> None:
    """No line is lost without a word, and lists of ids have them."""
    told = "line 3: the parent '#1' of b has no line, since a line that begins with # is a comment"
    desk.wrong(told, "import", "--pedigree", desk.write("lost.txt", "#1 a 0\na 0 0\nb #1 0\n"))
    pedigree = desk.write("quoted.txt", '"#1" a 0\na 0 0\nb #1 0\n')
    done = desk.good("import", "--pedigree", pedigree, "--keep", desk.write("ids.txt", "# comment\n#1\n#1\n"))
    assert "kept: 1 animal of " in done.out
    assert desk.parents() == {"#1": ("a", ""), "a": ("", "")}


def test_standard_input(desk: Desk, program: str) -> None:
    words = [str(TOP / "gudokeyi"), "import", "--pedigree", "-"]
    env = {**os.environ, "HERDBOOK": program}
    given = "a 0 0\nb a 0\n"
    done = subprocess.run(words, cwd=desk.room, env=env, input=given, capture_output=True, text=True, timeout=SECONDS)
    assert done.returncode == 0 and "standard input: the sexes and birth days of 2 animals" in done.stdout
    assert desk.parents() == {"a": ("", ""), "b": ("a", "")}
    done = subprocess.run(words, cwd=desk.room, env=env, input="", capture_output=True, text=True, timeout=SECONDS)
    assert done.returncode == 1 and "standard input has no animals" in done.stderr
