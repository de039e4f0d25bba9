"""Pedigrees without a book, from arrays and files, beside the tabular method in fractions."""
from __future__ import annotations

import gzip
import io
import pathlib
import random
from fractions import Fraction
from typing import Any, cast

import numpy as np
import pandas
import pytest

import gudokeyi
from reference_pedigree import Pedigree as Reference
from reference_pedigree import drawn, mrode


@pytest.fixture(autouse=True)
def by_program(program: str, monkeypatch: pytest.MonkeyPatch) -> None:
    monkeypatch.setenv("HERDBOOK", program)


def shuffled(seed: int) -> tuple[Reference, list[str], list[tuple[str, str, str]]]:
    """A drawn pedigree, the ids of its animals, and its lines in any order."""
    draw, reference = random.Random(seed), drawn(seed)
    ids = [
        f"{draw.choice(('DE', 'x-', 'Ö '))}{number}" for number in draw.sample(range(100, 1000), len(reference.parents))
    ]
    names = [*ids, "0"]
    sires, dams = ([names[-1 if it is None else it] for it in parents] for parents in zip(*reference.parents))
    lines = [*zip(ids, sires, dams)]
    draw.shuffle(lines)
    return reference, ids, lines


@pytest.mark.parametrize("seed", range(12))
def test_drawn(seed: int) -> None:
    """Selfing, both roles and half-known parents, in any order of lines: all that is exact is the tabular method's."""
    reference, ids, lines = shuffled(seed)
    pedigree = gudokeyi.Pedigree(*zip(*lines), anyway=True, leave_out=True)
    assert pedigree.ids == [id for id, _, _ in lines] and pedigree.given == len(lines)
    table, wanted = reference.relationships, reference.coefficients()
    assert pedigree.inbreeding(ids, exact=True) == wanted
    assert pedigree.inbreeding(ids).tolist() == [float(one) for one in wanted]
    assert pedigree.relationships(ids, exact=True) == table
    assert pedigree.relationships(ids[:3], ids).tolist() == [[float(one) for one in row] for row in table[:3]]
    assert pedigree.kinship(ids, ids[-2:], exact=True) == [[one / 2 for one in row[-2:]] for row in table]
    means = [sum(row, Fraction(0)) / len(ids) / 2 for row in table]
    assert pedigree.mean_kinship(exact=True) == [means[ids.index(id)] for id in pedigree.ids]
    variances = [
        1 - sum((table[it][it] for it in pair if it is not None), Fraction(0)) / 4 for pair in reference.parents
    ]
    assert pedigree.mendelian_sampling_variances(ids, exact=True) == variances
    some = ids[len(ids) // 2 :][:2]
    kept = pedigree.keep(some)
    assert {*kept.ids} == {*some, *pedigree.ancestors(some)} == {*some} | ancestors(reference, ids, some)
    assert kept.inbreeding(some).tolist() == pedigree.inbreeding(some).tolist()
    inverse, half = pedigree.inverse(), pedigree.half_inverse()
    dense = np.array(pedigree.relationships(inverse.ids))
    assert np.allclose(inverse.matrix @ dense, np.eye(len(ids)), atol=1e-9)
    assert np.allclose((half.matrix.T @ half.matrix).toarray(), inverse.matrix.toarray(), atol=1e-9)


def ancestors(reference: Reference, ids: list[str], some: list[str]) -> set[str]:
    found: set[int] = set()
    new = [ids.index(id) for id in some]
    for place in new:
        new += [it for it in reference.parents[place] if it is not None and it not in found]
        found.update(it for it in reference.parents[place] if it is not None)
    return {ids[place] for place in found}


def test_columns_of_pandas(tmp_path: pathlib.Path) -> None:
    """Whole numbers beside empty cells, which pandas has as 1.0, are the ids that they were; NaN, NA and None are
    unknown."""
    frame = pandas.read_csv(io.StringIO("calf,dad,mom\n3,1,2\n1,,\n2,,\n4,1,\n5,4,3\n6,5,2\n"))
    assert frame["dad"].dtype == float
    pedigree = gudokeyi.Pedigree(frame["calf"], frame["dad"], frame["mom"])
    assert pedigree.ids == ["3", "1", "2", "4", "5", "6"]
    frame["F"] = pedigree.inbreeding(frame["calf"])
    assert frame.set_index("calf")["F"].to_dict() == {1: 0, 2: 0, 3: 0, 4: 0, 5: 0.125, 6: 0.125}
    nullable = frame.astype({"dad": "Int64", "mom": "Int64"})
    assert gudokeyi.Pedigree(nullable["calf"], nullable["dad"], nullable["mom"]).inbreeding([6.0]).tolist() == [0.125]
    made = pedigree.to_frame()
    assert made.columns.tolist() == ["id", "sire", "dam", "inbreeding"]
    assert made.loc[0].tolist() == ["3", "1", "2", 0] and made.loc[1, "sire"] is None
    made.to_csv(tmp_path / "again.csv", index=False)
    assert gudokeyi.read_pedigree(tmp_path / "again.csv").inbreeding().tolist() == pedigree.inbreeding().tolist()


def test_founders_without_a_place() -> None:
    """They come behind the others, and are told."""
    pedigree = gudokeyi.Pedigree(["c", "d"], ["s", "s"], ["d1", "c"], anyway=True)
    assert pedigree.ids == ["c", "d", "s", "d1"] and pedigree.given == 2
    assert pedigree.told == ("2 parents without a line are founders: s, d1",)
    assert pedigree.inbreeding().tolist() == [0, 0.25, 0, 0] and pedigree.inverse().ids == pedigree.ids


def test_variances_near_nothing() -> None:
    """After 29 generations of selfing 1 - F is 2^-29, and the inverse has it without loss."""
    ids = range(1, 31)
    pedigree = gudokeyi.Pedigree(ids, range(30), range(30))
    assert pedigree.inbreeding([30], exact=True) == [1 - Fraction(1, 2**29)]
    assert pedigree.mendelian_sampling_variances([30]).tolist() == [2.0**-29]
    assert pedigree.inverse().matrix[29, 29] == 2.0**29


WRONG_ARRAYS = [
    ((["a", "b"], ["b", "a"], ["0", "0"]), "2 animals are their own ancestors, each a parent of the one before: a (line 1), b (line 2)"),
    ((["a"], ["0"], ["a"]), "a (line 1) is a parent of itself"),
    ((["a", "b", "a"], ["0", "0", "b"], ["0"] * 3), "line 3: a has another line, 1 (there 0 and 0; here b and 0)"),
    ((["a", "b"], ["0"], ["0", "a"]), "differ in length"),
    (([0, 1], [-1, 0], [-1, -1]), "line 1: '0' is a word for an unknown parent, and stands for an animal"),
    ((["a", "b"], ["0", 1.5], ["0", "a"]), "sires: 1.5 is no id"),
    # a column of pandas with empty cells: 276000000000000001 is rounded there
    (([276000000000000001, 2], [None, 276000000000000001.0], [0, 0]), "sires: 276000000000000000 is a floating point number"),
    ((np.array([16777217, 1], np.float32), [0, 0], [0, 0]), "ids: 16777216 is a floating point number"),
    ((["a1", "b"], ["0", "A1"], ["0", "0"]), "A1 (of b in line 2; is a1 meant?)"),
    ((range(1, 63), range(62), [0] * 62), "more than 60 steps, as 62 - 61 - 60 - 1, and F can't be had exactly then"),
    ((range(1, 64), [*range(2, 64), 0], [0] * 63), "or of ancestors of theirs: 2 (line 2)"),
]  # fmt: skip


@pytest.mark.parametrize(("arrays", "told"), WRONG_ARRAYS)
def test_refused_arrays(arrays: tuple[list[object], list[object], list[object]], told: str) -> None:
    with pytest.raises(gudokeyi.Mistake) as refused:
        gudokeyi.Pedigree(*arrays).inbreeding()
    assert told in "\n".join(refused.value.sentences)


def test_one_value() -> None:
    """One id may stand for a list of one, and no column is one value."""
    pedigree, five, columns = gudokeyi.Pedigree([5, 6], [0, 5], [0, 5]), cast(Any, 5), cast(Any, ([1, 2], 0, [0, 1]))
    assert pedigree.inbreeding(five).tolist() == pedigree.inbreeding("5").tolist() == [0]
    assert pedigree.relationships(five, "6").tolist() == [[1]] and pedigree.keep(five).ids == ["5"]
    with pytest.raises(gudokeyi.InvalidValue, match="sires: 0 is one value: give a list, an array or a column"):
        gudokeyi.Pedigree(*columns)


def test_no_such_animal() -> None:
    with pytest.raises(gudokeyi.AnimalNotFound, match="no animal of the pedigree has the id x, y"):
        gudokeyi.Pedigree(["a"], [None], [None]).kinship(["a", "x", "y"])


MRODE = "1 0 0\n2 0 0\n3 1 2\n4 1 0\n5 4 3\n6 5 2\n"
# Mrode's six animals as files are written, all of which say the same
WRITTEN = {
    "blanks.txt": MRODE,
    "comments.txt": "# from a book\n1 0 0 # a, b\n\n2\t0 0\n3 1 2   #; c\n4 1 0\n5 4 3 x\n6 5 2\n".replace(" x\n", " # x\n"),
    "tabs.tsv": "Ind\tDad\tMum\tweight\n" + "".join(f"{line}\t3.5\n".replace(" ", "\t") for line in MRODE.splitlines()),
    "any_order.csv": "sire,dam,id\n5,2,6\n4,3,5\n1,NA,4\n1,2,3\n,,2\n,,1\n",
    "semicolons.csv": 'id;sire;dam\n"1";.;.\n2;?;?\n3;1;2\n4; 1 ;-9\n5;4;3 # as told\n6;5;2\n6;5;2\n',
    "text.csv": "ID,Father ID,Mother ID\n'-1a,0,0\n2,0,0\n3,'-1a,2\n4,'-1a,0\n5,4,3\n6,5,2\n",
    "plink.fam": "".join(f"F1 {line} 0 -9\n" for line in MRODE.splitlines()),
    "titled.fam": "#FID IID PAT MAT SEX PHENO\n" + "".join(f"F1 {line} 0 -9\n" for line in MRODE.splitlines()),
    "spaces.txt": '"the 1" 0 0\n2 0 0\n3 "the 1" 2\n4 "the 1" 0\n5 4 3\n6 5 2\n',
}  # fmt: skip


@pytest.mark.parametrize("name", WRITTEN)
@pytest.mark.parametrize("is_packed", (False, True))
def test_files(tmp_path: pathlib.Path, name: str, is_packed: bool) -> None:
    file = tmp_path / (f"{name}.gz" if is_packed else name)
    file.write_bytes(gzip.compress(WRITTEN[name].encode()) if is_packed else WRITTEN[name].encode())
    pedigree = gudokeyi.read_pedigree(file)
    assert pedigree.inbreeding(["2", "3", "4", "5", "6"], exact=True) == mrode().coefficients()[1:]
    assert len(pedigree) == 6


WRONG_FILES = [
    ("1 0 0\n1 0 2\n2 0 0\n", "line 2: 1 has another line, 1 (there 0 and 0; here 0 and 2)"),
    ("id sire dam\n1 0 0\nid sire dam\n", "line 3: 'id sire dam' is that of the titles again"),
    ("1 0\n", "line 1: '1 0' has 2 cells: write an id, its sire and its dam"),
    ("1 0 0\n2 1 0 M\n", "line 2: '2 1 0 M' has 4 cells, and without titles"),
    ("1 0 0\n2 1 #3\n", "the parent '#3' has no line, since a line that begins with # is a comment"),
    ("id,sire,dam\n1,,\n2,1,3 # x\n", "line 3: is '3 # x' an id, or does a comment begin in it?"),
    ("fid,iid,pat,mat\nA,1,,\nB,1,,\n", "line 3: 1 has another line, 2 (there family A; here family B)"),
    ("ped id father mother\n1 1 0 0\n2 1 0 0\n", "line 3: 1 has another line, 2 (there family 1; here family 2)"),
    ("id,sire,dam,tag\n1,,,x\n2,,,y\n3,x,y,z\n", "tag"),
    ("id sire dam\n1.0 0 0\n1 0 0\n2 1 0\n", "1 id is the number of another animal in another form: 1.0"),
    ("1 0 0\n2 0 0\n3 1 Missing\n4 1 Missing\n5 2 Missing\n", "Missing (of 3 in line 3 and 2 more)"),
    ("kind,animal,day,sire,dam,from,to\n", "is a command file"),
    ("", "has no animals"),
    ("id,sire\n1,\n", "dam"),
]


@pytest.mark.parametrize(("text", "told"), WRONG_FILES)
def test_refused_files(tmp_path: pathlib.Path, text: str, told: str) -> None:
    (tmp_path / "p.txt").write_text(text)
    with pytest.raises(gudokeyi.Mistake) as refused:
        gudokeyi.read_pedigree(tmp_path / "p.txt")
    assert told in "\n".join(refused.value.sentences)


def test_options_of_files(tmp_path: pathlib.Path) -> None:
    """Other titles, words for unknown parents, and what is taken though it is doubtful."""
    (tmp_path / "p.csv").write_text("id,sire,dam,a,b,c\n9,9,9,1,zz,zz\n8,8,8,2,zz,zz\n7,7,7,3,1,2\n")
    pedigree = gudokeyi.read_pedigree(tmp_path / "p.csv", columns={"id": "a", "sire": "b", "dam": "c"}, unknown=["zz"])
    assert pedigree.ids == ["1", "2", "3"] and pedigree.sires() == [None, None, "1"]
    (tmp_path / "q.txt").write_text("b1 0 0\nc B1 0\nd B1 c\n")
    assert gudokeyi.read_pedigree(tmp_path / "q.txt", leave_out=True).ids == ["b1", "c", "d", "B1"]
    with pytest.raises(gudokeyi.InvalidValue, match="columns has 'father': .* id, sire and dam"):
        gudokeyi.read_pedigree(tmp_path / "p.csv", columns={"father": "b"})


def test_columns_that_are_not_read(tmp_path: pathlib.Path) -> None:
    """Sexes and birth years aren't needed, and what is told says so; a line may end before them."""
    (tmp_path / "p.csv").write_text("sire,dam,id,sex,yob\n,,1,m,2001\n,,2,f\n1,2,3\n")
    pedigree = gudokeyi.read_pedigree(tmp_path / "p.csv")
    assert pedigree.told == ("columns: id from 'id', sire from 'sire', dam from 'dam'; not read: 'sex', 'yob'",)
    assert pedigree.sires() == [None, None, "1"]


def test_one_word() -> None:
    """A text by itself is one word, not its letters."""
    assert gudokeyi.Pedigree(["x", "b"], ["xy", "x"], ["XY", "xy"], unknown="xy").sires() == [None, "x"]
    assert gudokeyi.Pedigree(["na", "b"], ["0", "na"], ["0", "0"], known="NA").sires() == [None, "na"]


def test_larger_than_a_chunk() -> None:
    """Ids, order and coefficients of more animals than are parted or written at a time: trees of full sibs,
    backwards."""
    count = 230_000
    ids = np.arange(count, 0, -1)
    parents = np.where(ids % 23 == 1, 0, ids - 1)
    pedigree = gudokeyi.Pedigree(ids, parents, parents)
    steps = (ids - 1) % 23
    assert pedigree.inbreeding().tolist() == (1 - 0.5**steps).tolist()
