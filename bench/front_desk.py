#!/usr/bin/env python3
"""Takes a narrow book by the front desk and asks it, and prints what each word takes of the processor.

    front_desk.py PROGRAM [SCRIPT..] [--animals 60000] [--runs 3] [--words take,list,..] [--work FOLDER]

PROGRAM is the built herdbook. SCRIPT is the script `gudokeyi` of a clone, or `society/society` of version 0.12, that of
this one where none is named: of several each takes the same sheet into a book of its own, and they are asked in turn,
so that two versions are compared on a machine that others use too. The sheet has ids, names, sexes, days, parents and
owners, none of its days after today. For each word and clone the seconds of the processor (user and system) stand there
of the run with the least: of the front desk itself, behind a + of the program that it runs, and the most memory of
either, which is never less than this script's. `take` is one run. """

from __future__ import annotations

import argparse
import csv
import datetime
import json
import os
import pathlib
import random
import shutil
import subprocess
import sys

from command_file import command_file, work_folder

HERE = pathlib.Path(__file__).resolve().parent
EPOCH = datetime.date(1900, 1, 1)
NAMES = ("Berta", "Anna", "Löwe", "Gräfin", "Max", "Flora", "Kira", "Hugo", "Emil", "Rosa", "Ümit", "Otto")
# runs the front desk's words in this process, and tells what the process and its children took
ASKING = """
import json, os, resource, sys
here = os.path.dirname(os.path.realpath(sys.argv[1]))
sys.path[:0] = [os.path.join(here, "src"), os.path.dirname(here)]
sys.argv = sys.argv[1:]
try:
    from gudokeyi.cli.main import main
except ImportError:  # a clone of version 0.12
    from society.command_line.main import main
told = os.dup(2)
status = main(sys.argv[1:])
sys.stdout.flush()
kinds = (resource.getrusage(kind) for kind in (resource.RUSAGE_SELF, resource.RUSAGE_CHILDREN))
used = [(one.ru_utime + one.ru_stime, one.ru_maxrss) for one in kinds]
os.write(told, ("\\n" + json.dumps([status, used])).encode())
"""


def sheet(work: str, animals: int) -> pathlib.Path:
    """A sheet of a narrow book, with the days of a command file as near to one another as today asks for."""
    births = command_file(work, f"narrow-{animals}.csv", "narrow", animals)
    path = pathlib.Path(work) / f"narrow-{animals}-sheet.csv"
    draw = random.Random(1)
    with open(births, encoding="ascii") as file:
        rows = list(csv.DictReader(file))
    last = max(datetime.date.fromisoformat(row["day"]) for row in rows)
    share = min(1.0, (datetime.date(2025, 1, 1) - EPOCH) / (last - EPOCH))
    with open(path, "w", newline="", encoding="utf-8") as file:
        writer = csv.writer(file)
        writer.writerow(["id", "name", "sex", "birth", "sire", "dam", "owner"])
        for row in rows:
            day = EPOCH + (datetime.date.fromisoformat(row["day"]) - EPOCH) * share
            name = f"{draw.choice(NAMES)} {draw.randrange(9999)}"
            parents = tag(row["sire"]), tag(row["dam"])
            writer.writerow([tag(row["animal"]), name, row["animal"][6], day, *parents, f"Farm {draw.randrange(80)}"])
    return path


def tag(number: str) -> str:
    """The society's id for an animal of the command file."""
    return "" if number == "0" else f"DE-{number[-9:-6]}/{number[-6:]}"


def words_of(work: str, path: pathlib.Path) -> dict[str, list[str]]:
    """The words that are asked, of the youngest animals; lists of some are files of the folder."""
    with open(path, encoding="utf-8") as file:
        rows = sorted(csv.DictReader(file), key=lambda row: row["birth"])
    dams, sires = ([row["id"] for row in rows if row["sex"] == sex] for sex in "FM")
    files = {}
    for name, ids in ("dams", dams[-500:]), ("sires", sires[-20:]), ("fifty", dams[-50:]):
        files[name] = os.path.join(os.path.abspath(work), f"{name}.txt")
        pathlib.Path(files[name]).write_text("\n".join(ids) + "\n", encoding="utf-8")
    return {
        "list": ["list"], "show": ["show", dams[-1]], "find": ["find", "löwe 93"],
        "kinship": ["kinship", "--among", files["fifty"]], "export": ["export"],
        "table": ["mating", "--dams", files["dams"], "--sires", files["sires"]],
        "mating": ["mating", "--dam", dams[-1]],
        "certificate": ["certificate", dams[-1], "--force", "--out", "page.html"],
        "inverse": ["inverse", "--force", "--matrix-market", "inverse.mtx"],
    }  # fmt: skip


class Clone:
    """A front desk with a book in a folder of its own, which is new."""

    def __init__(self, at: int, script: str, given: argparse.Namespace) -> None:
        self.script = script
        self.room = pathlib.Path(given.work) / f"front-desk-{at}"
        shutil.rmtree(self.room, ignore_errors=True)
        self.room.mkdir()
        env = {name: value for name, value in os.environ.items() if name != "PYTHONDONTWRITEBYTECODE"}
        self.env = env | {"HERDBOOK": given.program}

    def asked(self, words: list[str]) -> tuple[float, float, int]:
        """Seconds of the front desk and of what it runs, and the most memory of either in megabytes."""
        command = ["/usr/bin/python3", "-c", ASKING, self.script, *words]
        done = subprocess.run(command, cwd=self.room, env=self.env, capture_output=True)
        told = done.stderr.decode().splitlines()
        status, used = json.loads(told[-1]) if told and told[-1].startswith("[") else (1, [])
        if status:
            sys.exit(f"{self.script} {' '.join(words)}: {done.stderr.decode()[-500:]}")
        (own, most), (others, most_of_others) = used
        return own, others, max(most, most_of_others) // 1024


def main() -> None:
    parser = argparse.ArgumentParser(description=__doc__, formatter_class=argparse.RawDescriptionHelpFormatter)
    parser.add_argument("program", metavar="PROGRAM", type=os.path.abspath)
    parser.add_argument("clones", metavar="SCRIPT", nargs="*", default=[str(HERE.parent / "gudokeyi")])
    parser.add_argument("--animals", type=int, default=60_000)
    parser.add_argument("--runs", type=int, default=3)
    parser.add_argument("--words", default="")
    parser.add_argument("--work", default=work_folder())
    given = parser.parse_args()
    os.makedirs(given.work, exist_ok=True)
    path = sheet(given.work, given.animals)
    clones = [Clone(at, os.path.abspath(one), given) for at, one in enumerate(given.clones)]
    words = words_of(given.work, path)
    # `take` is its word in version 0.12, and is understood since
    take = ["take", str(path), "--breed", "HOL", "--country", "GBR"]
    tell("import", [clone.asked(take) for clone in clones])
    for word in given.words.split(",") if given.words else words:
        runs = [[clone.asked(words[word]) for clone in clones] for _ in range(given.runs)]
        tell(word, [min(of_clone) for of_clone in zip(*runs)])


def tell(word: str, found: list[tuple[float, float, int]]) -> None:
    print(
        f"{word:12}",
        *(f"{own:6.2f} + {others:.2f} s, {most:4} MB" for own, others, most in found),
        sep="   ",
        flush=True,
    )


if __name__ == "__main__":
    main()
