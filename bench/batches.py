#!/usr/bin/env python3
"""Files births of another program into a book of 59,000 animals, and prints what each call takes of the processor.

    batches.py PROGRAM [--runs 3] [--work FOLDER]

PROGRAM is the built herdbook. A call is one birth by the word `birth`, one by `file`, and 1,000 by `file` as one change:
seconds of the processor (user and system) of the front desk and of all that it runs, the least of the runs. Before they
are timed the first `file` sees that the book is whole. Behind a figure stands what it is to be at most; the status is 1
where it is more."""
from __future__ import annotations

import argparse
import csv
import json
import os
import pathlib
import sys

from command_file import work_folder
from front_desk import HERE, Clone, sheet

ANIMALS, DAY = 59_000, "2025-06-01"
MOST = {"file 1": 0.4, "file 1000": 5.0}


def births(path: pathlib.Path, name: str, count: int, dam: str) -> str:
    """A file of births, each with a request of its own."""
    lines = (
        {"request": f"{name} {at}", "kind": "birth", "id": f"{name} {at}", "sex": "f", "day": DAY, "dam": dam}
        for at in range(count)
    )
    path.write_text("".join(f"{json.dumps(line)}\n" for line in lines), encoding="utf-8")
    return str(path)


def main() -> None:
    parser = argparse.ArgumentParser(description=__doc__, formatter_class=argparse.RawDescriptionHelpFormatter)
    parser.add_argument("program", metavar="PROGRAM", type=os.path.abspath)
    parser.add_argument("--runs", type=int, default=3)
    parser.add_argument("--work", default=work_folder())
    given = parser.parse_args()
    os.makedirs(given.work, exist_ok=True)
    path = sheet(given.work, ANIMALS)
    with open(path, encoding="utf-8") as file:
        dam = [row["id"] for row in csv.DictReader(file) if row["sex"] == "F"][0]
    clone = Clone(0, str(HERE.parent / "gudokeyi"), given)
    clone.asked(["import", str(path), "--breed", "HOL", "--country", "GBR"])
    room = clone.room.absolute()
    clone.asked(["file", births(room / "first.jsonl", "first", 1, dam)])
    found: dict[str, list[float]] = {"birth": [], "file 1": [], "file 1000": []}
    for run in range(given.runs):
        one = births(room / "one.jsonl", f"one {run}", 1, dam)
        found["file 1"].append(sum(clone.asked(["file", one])[:2]))
    many = births(room / "many.jsonl", "many", 900, dam)
    found["file 1000"].append(sum(clone.asked(["file", many])[:2]) * 1000 / 900)
    for run in range(given.runs):
        found["birth"].append(sum(clone.asked(["birth", f"by hand {run}", "--sex", "f", "--day", DAY, "--dam", dam])[:2]))
    for word, seconds in found.items():
        print(f"{word:10} {min(seconds):6.2f} s" + (f" (at most {MOST[word]} s)" if word in MOST else ""))
    sys.exit(any(min(found[word]) > most for word, most in MOST.items()))


if __name__ == "__main__":
    main()
