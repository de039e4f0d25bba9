"""The package for R, as R checks and runs it, and beside what Python says of the same."""
from __future__ import annotations

import csv
import os
import pathlib
import re
import shutil
import subprocess
from collections.abc import Mapping

import pytest

import gudokeyi
from gudokeyi.domain.kinds import Field
from gudokeyi.ingest.pedigree_files import OF_FIELD, SHORT_OF_FIELD
from gudokeyi.ingest.unknown_parents import KNOWN_UNKNOWN, UnknownParents
from reference_pedigree import drawn

TOP = pathlib.Path(__file__).resolve().parents[2]
SECONDS = 900
NOT_THERE = (
    "R isn't there: as root `apt install r-base-core r-cran-matrix r-cran-testthat r-cran-knitr r-cran-markdown`"
)
pytestmark = pytest.mark.skipif(not shutil.which("Rscript"), reason=NOT_THERE)


def run(words: list[str], room: pathlib.Path, variables: Mapping[str, str]) -> str:
    known = {**os.environ, "LC_ALL": "C.UTF-8", **variables}
    done = subprocess.run(words, cwd=room, env=known, capture_output=True, text=True, timeout=SECONDS)
    assert done.returncode == 0, f"{words}: {done.stdout[-3000:]} {done.stderr[-3000:]}"
    return done.stdout


@pytest.fixture(scope="module")
def checked(program: str, tmp_path_factory: pytest.TempPathFactory) -> pathlib.Path:
    """A folder in which R has built and checked the package."""
    room = tmp_path_factory.mktemp("r")
    shutil.copytree(TOP / "r", room / "gudokeyi")
    # no list of R's packages is fetched
    variables = {"HERDBOOK": program, "R_REPOSITORIES": "NULL"}
    run(["R", "CMD", "build", "gudokeyi"], room, variables)
    run(["R", "CMD", "check", "--no-manual", *map(str, room.glob("*.tar.gz"))], room, variables)
    return room


def test_checked_without_a_warning(checked: pathlib.Path) -> None:
    """Its tests are run with the program, and none is skipped; its vignette shows what Mrode prints."""
    log = (checked / "gudokeyi.Rcheck/00check.log").read_text(encoding="utf-8")
    assert re.search(r"^Status: (OK|\d NOTEs?)$", log, re.MULTILINE), log
    told = (checked / "gudokeyi.Rcheck/tests/testthat.Rout").read_text(encoding="utf-8")
    counts = re.search(r"FAIL (\d+) \| WARN (\d+) \| SKIP (\d+) \| PASS (\d+)", told)
    assert counts and counts.groups()[:3] == ("0", "0", "0") and int(counts[4]) > 100, told
    vignette = (checked / "gudokeyi.Rcheck/gudokeyi/doc/mrode.html").read_text(encoding="utf-8")
    assert all(text in vignette for text in ("1/8", "2.533333", "-0.249", "4.358", "0.183"))


def test_version() -> None:
    """The program of another version isn't taken, so the package has the program's."""
    description = (TOP / "r/DESCRIPTION").read_text(encoding="utf-8")
    assert f"Version: {gudokeyi.__version__}\n" in description


def by_r(checked: pathlib.Path, program: str, script: str) -> str:
    library = f'library(gudokeyi, lib.loc = "{checked}/gudokeyi.Rcheck")'
    return run(["Rscript", "-e", f"{library}\n{script}"], checked, {"HERDBOOK": program})


def test_words(checked: pathlib.Path, program: str) -> None:
    """What R takes for an unknown parent, or for a title, Python takes for the same."""
    others = ["N.A.", "-", "--", "?", "*", "0.0", "00", "-9.0", "#N/A", "#REF!", "Err:502", "x", "-2", "E1", "NA12"]
    others += ["unbekannt (Weide)", "Unbek. (Stall 3)", "nn (x)", "Bella (unbekannt)", "fremd", "Zukauf 2019"]
    words = [*KNOWN_UNKNOWN, *others]
    (checked / "words.txt").write_text("".join(f"{word}\n" for word in words), encoding="utf-8")
    script = """
    words <- readLines("words.txt", encoding = "UTF-8")
    cat(gudokeyi:::is_unknown(words), sep = "\\n")
    for (field in names(gudokeyi:::titles)) cat("title", field, gudokeyi:::titles[[field]], "\\n")
    """
    lines = by_r(checked, program, script).splitlines()
    unknown = UnknownParents()
    assert lines[: len(words)] == [str(word in unknown).upper() for word in words]
    assert unknown.among(words) == {word for word in words if word in unknown}
    for line in lines[len(words) :]:
        _, field, *titles = line.split()
        assert {*titles} <= {*OF_FIELD[Field(field)], *SHORT_OF_FIELD.get(Field(field), ())}


def test_measures(checked: pathlib.Path, program: str, monkeypatch: pytest.MonkeyPatch) -> None:
    """They are Python's, in which they are exact: of plants, each of which may be selfed."""
    monkeypatch.setenv("HERDBOOK", program)
    script = """
    for (seed in 0:5) {
      drawn <- read.csv(paste0(seed, ".csv"), colClasses = "character")
      found <- measures(drawn, among = tail(drawn$id, 9))
      write.csv(found, paste0(seed, ".measures.csv"), row.names = FALSE)
    }
    """
    wanted = []
    for seed in range(6):
        places = [(at, *pair) for at, pair in enumerate(drawn(seed).parents)]
        numbers = [[str((it if it is not None else -1) + 1) for it in line] for line in places]
        with open(checked / f"{seed}.csv", "w", encoding="utf-8", newline="") as file:
            csv.writer(file).writerows([("id", "sire", "dam"), *numbers])
        pedigree = gudokeyi.Pedigree(*zip(*numbers))
        values = {one.name.value: one.value for one in pedigree.measures(pedigree.ids[-9:])}
        wanted.append({name: value for name, value in values.items() if "interval" not in name and "year" not in name})
    by_r(checked, program, script)
    for seed, values in enumerate(wanted):
        with open(checked / f"{seed}.measures.csv", encoding="utf-8", newline="") as file:
            rows = [(row["measure"], row["value"]) for row in csv.DictReader(file)]
        told = {name: None if value == "NA" else float(value) for name, value in rows}
        assert told == pytest.approx(values, rel=1e-9), seed
