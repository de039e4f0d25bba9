"""The recipes for SciPy and R, and exported triples and the inverse in both."""
from __future__ import annotations

import csv
import shutil
import subprocess
import sys

import pytest

from front_desk.desk import SECONDS, TOP, Desk

# the solutions of Mrode's example 3.1 as printed (Linear Models for the Prediction of Animal Breeding Values, 2014)
SOLUTIONS = {
    "male": 4.358, "female": 3.404, "1": 0.098, "2": -0.019, "3": -0.041, "4": -0.009, "5": -0.186, "6": 0.177,
    "7": -0.249, "8": 0.183,
}  # fmt: skip


def test_recipes_by_scipy(desk: Desk) -> None:
    """Breeding values of the textbook's calves, and kinships, from the inverse."""
    desk.good("import", "--pedigree", str(TOP / "examples/growth.txt"))
    desk.good("inverse", "--matrix-market", "inverse.mtx")
    found = recipe(desk, "blup_scipy.py", "inverse.mtx", str(TOP / "examples/growth.csv"), "2")
    assert {name: float(value) for name, value in found} == pytest.approx(SOLUTIONS, abs=0.00101)
    desk.write("other.csv", "id,sex,gain\n4,male,4.5\n004,male,4.5\n")
    with pytest.raises(subprocess.CalledProcessError):
        recipe(desk, "blup_scipy.py", "inverse.mtx", "other.csv", "2")
    with pytest.raises(subprocess.CalledProcessError):
        recipe(desk, "kinship_scipy.py", "inverse.mtx", "7", "007")
    kinships = recipe(desk, "kinship_scipy.py", "inverse.mtx", "7", "8", "5")
    wanted = [0.5, 0.125, 0.25, 0.5, 0.1875, 0.5]
    assert [float(value) for _, _, value in kinships] == wanted


def recipe(desk: Desk, name: str, *words: str) -> list[list[str]]:
    command = [sys.executable, str(TOP / "examples/recipes" / name), *words]
    done = subprocess.run(command, cwd=desk.room, capture_output=True, text=True, timeout=SECONDS, check=True)
    return [line.split() for line in done.stdout.splitlines()]


# ids that are no names for R, or have signs that do something in its files
ODD_IDS = ["001", "#2 x", "it's", 'a "b"', "back\\slash", "Löwe, ü", "TRUE", "1e5"]
# the pedigree as R reads it, and whether the inverse is that of its tabular matrix
READ_BY_R = r"""
library(Matrix)
pedigree <- read.table("all.txt", header = TRUE, colClasses = "character", encoding = "UTF-8")
inverse <- as.matrix(readMM("inverse.mtx"))
ids <- readLines("inverse.mtx.ids", encoding = "UTF-8")
stopifnot(identical(pedigree$id, ids))
A <- matrix(0, length(ids), length(ids), dimnames = list(ids, ids))
for (at in seq_along(ids)) {
  parents <- na.omit(c(pedigree$sire[at], pedigree$dam[at]))
  before <- seq_len(at - 1)
  for (parent in parents) A[at, before] <- A[at, before] + A[parent, before] / 2
  A[before, at] <- A[at, before]
  A[at, at] <- 1 + if (length(parents) == 2) A[parents[1], parents[2]] / 2 else 0
}
stopifnot(max(abs(A %*% inverse - diag(length(ids)))) < 1e-9)
cat(sprintf("%.6f\n", diag(A) - 1), sep = "")
"""


def test_triples_are_read_again(desk: Desk) -> None:
    """By `take` and, where it is installed, by R: the same ids and parents."""
    pairs = ["", "", *[f'001,"{ODD_IDS[1]}"'] * 2, *['it\'s,"a ""b"""'] * 2, *['back\\slash,"Löwe, ü"'] * 2]
    escaped = ['"' + id.replace('"', '""') + '"' for id in ODD_IDS]
    lines = [f"{id},{'mf'[at % 2]},200{at}-01-01,{pair or ','}" for at, (id, pair) in enumerate(zip(escaped, pairs))]
    desk.take("\n".join(["id,sex,birth,sire,dam", *lines]) + "\n")
    desk.good("export", "--triples", "--out", "all.txt")
    desk.good("import", "--pedigree", "all.txt", "--book", "again")
    coefficients = {row["id"]: row["decimal"] for row in desk.listed("list")}
    assert list(coefficients) == ODD_IDS
    assert {row["id"]: row["decimal"] for row in desk.listed("list", "--book", "again")} == coefficients
    desk.good("inverse", "--matrix-market", "inverse.mtx")
    if shutil.which("Rscript"):
        assert read_by_r(desk) == [f"{float(value):.6f}" for value in coefficients.values()]


def test_ids_that_r_cannot_read(desk: Desk) -> None:
    """No file is written in which a link would be lost."""
    rows = "NA,m,2001-01-01,,\nb\\,f,2001-01-02,,\nc,f,2004-01-01,NA,b\\\n"
    desk.take(f"id,sex,birth,sire,dam\n{rows}", "--known", "NA")
    for id, told in ("NA", "'NA' stands for an unknown parent in R"), ("b\\", "'b\\' ends with a backslash"):
        desk.wrong(told, "export", "--triples", "--keep", desk.write("kept.txt", f"{id}\n"))


def test_exported_society(society_desk: Desk) -> None:
    """The triples of the example, in SciPy and, where it is installed, in R: the tabular matrix of what is read is the
    inverse's inverse."""
    import numpy
    from scipy.io import mmread

    desk = society_desk
    desk.good("export", "--triples", "--out", "all.txt")
    desk.good("inverse", "--matrix-market", "inverse.mtx")
    with open(desk.room / "all.txt", newline="", encoding="utf-8") as file:
        rows = list(csv.DictReader(file, delimiter=" ", escapechar="\\"))
    ranks = {row["id"]: rank for rank, row in enumerate(rows)}
    assert list(ranks) == desk.text("inverse.mtx.ids").splitlines()
    matrix = numpy.eye(len(rows))
    for rank, row in enumerate(rows):
        parents = [ranks[row[role]] for role in ("sire", "dam") if row[role] != "NA"]
        matrix[rank, :rank] = matrix[:rank, rank] = sum(matrix[parent, :rank] for parent in parents) / 2
        matrix[rank, rank] += matrix[tuple(parents)] / 2 if len(parents) == 2 else 0
    assert abs(mmread(desk.room / "inverse.mtx") @ matrix - numpy.eye(len(rows))).max() < 1e-9
    inbred = [f"{value - 1:.6f}" for value in matrix.diagonal()]
    assert [f"{float(row['decimal']):.6f}" for row in desk.listed("list")] == inbred
    if shutil.which("Rscript"):
        assert read_by_r(desk) == inbred


def read_by_r(desk: Desk) -> list[str]:
    """The coefficients of inbreeding that R computes from `all.txt`; it is seen that `inverse.mtx` fits them."""
    done = subprocess.run(["Rscript", "-e", READ_BY_R], cwd=desk.room, capture_output=True, text=True, timeout=SECONDS)
    assert done.returncode == 0, done.stderr
    return done.stdout.split()
