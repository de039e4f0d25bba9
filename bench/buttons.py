#!/usr/bin/env python3
"""Looks at a large sheet as the process beside the served desk does, and prints what each button of it takes.

    buttons.py PROGRAM [--rows 60000] [--runs 3] [--buttons youngest,unknown,..] [--work FOLDER]

PROGRAM is the built herdbook. A book is made of last year's list, in a new folder below FOLDER, and this year's list is
looked at in it: some animals are gone, some are new, some were sold, left or are written otherwise, and some cells are
wrong. Each button is pressed behind a look without it. Printed are the seconds of the processor of the look that it
leads to, of the front desk and of the program: of the first press, of which less is known than of others, and the
least, the median and the most of all.

The status is 1 where the first press of one takes more than 2 seconds. """
from __future__ import annotations

import argparse
import datetime
import gc
import os
import pathlib
import random
import resource
import statistics
import subprocess
import sys
import tempfile

TOP = pathlib.Path(__file__).resolve().parent.parent
sys.path[:0] = [str(TOP / "src")]

from gudokeyi.process import is_for_one_change, with_cells_of_any_length, with_short_turns  # noqa: E402
from gudokeyi.web import worker_process  # noqa: E402
from gudokeyi.web.sheet_work import Chosen, Look, looked_at  # noqa: E402

MOST_SECONDS = 2
TITLES = "Ohrmarke,Name,Sex,Geburt,Vater,Mutter,Besitzer,Abgang,Status,Bemerkung"
NAMES = ("Berta", "Anna", "Löwe", "Gräfin", "Max", "Flora", "Kira", "Hugo", "Emil", "Rosa", "Ümit", "Otto")
# what somebody may press: the choices of the page's form, and the titles for fields
BUTTONS: dict[str, tuple[dict[str, str], dict[str, str]]] = {
    "drop_gone": ({"drop_gone": "1"}, {}),
    "youngest": ({"youngest": "120"}, {}),
    "apart": ({"apart": "20"}, {}),
    "unknown": ({"unknown": "Nachbars Bock"}, {}),
    "known": ({"known": "fremd"}, {}),
    "sexes": ({"sexes": "Aue=f"}, {}),
    "no_animal": ({"no_animal": "Züchterliste"}, {}),
    "animal": ({"animal": "Summe"}, {}),
    "new_tag": ({"new_tag": "DE-7=DE-7A"}, {}),
    "owner": ({"owner": "Hof 7=Hofgut 7"}, {}),
    "day": ({"day": "2025-06-01"}, {}),
    "month_first": ({"month_first": "1"}, {}),
    "no column of names": ({}, {"name": ""}),
    "no column of sexes": ({}, {"sex": ""}),
    "no column of sires": ({}, {"sire": ""}),
    "no column of owners": ({}, {"owner": ""}),
    "no column of exits": ({}, {"exit": ""}),
}


class Lists:
    """The lists of two years, of animals with parents that live not long before."""

    def __init__(self, rows: int) -> None:
        self.draw = random.Random(83)
        self.before, self.now = list[list[str]](), list[list[str]]()
        females, males = list[str](), list[str]()
        for at in range(rows - rows // 500):
            year = 1985 + at * 40 // rows
            id, sex = f"DE-{at}", "m" if self.draw.random() < 0.12 else "w"
            sire, dam = (self.older(of, most) for of, most in ((males, 300), (females, 4500)))
            day = datetime.date(min(year, 2025), 1, 1) + datetime.timedelta(self.draw.randrange(330))
            left = f"{min(year + 8, 2024)}-12-01" if at < rows * 4 // 5 and at % 8 else ""
            row = [id, f"{self.draw.choice(NAMES)} {at % 9000}", sex, f"{day}", sire, dam, f"Hof {at % 300}", left,
                   "", "" if at % 40 else "zahm"]  # fmt: skip
            if at < rows - rows // 50:
                self.before.append(row)
            if at % 101 or at < rows // 2:
                self.now.append(self.a_year_later(at, [*row]))
            (males if sex == "m" else females).append(id)
        self.now += [["Summe", f"{len(self.now)}"] + [""] * 8, ["Züchterliste 2025"] + [""] * 9]

    def older(self, of: list[str], most: int) -> str:
        """One of those that are neither the youngest nor very old."""
        return of[-self.draw.randrange(most // 2, most)] if len(of) > most else ""

    def a_year_later(self, at: int, row: list[str]) -> list[str]:
        """The same row, of which something may be otherwise, or wrong."""
        which = self.draw.randrange(4000)
        if which < 40:
            row[6] = f"Hof {which}"
        elif which < 80 and not row[7]:
            row[7] = "2025-03-01"
        elif which < 120 and not row[7]:
            row[8] = self.draw.choice(("tot", "geschlachtet Herbst 2024", "verkauft an Hof 12", "lebt"))
        elif which < 140:
            row[1] += "a"
        elif which < 150:
            row[4] = self.draw.choice(("Nachbars Bock", "fremd", "DE-12 oder DE-19", f"DE-{at}O"))
        elif which < 155:
            row[2] = "Aue"
        elif which < 160:
            row[3] = self.draw.choice(("3.2.13", "31.02.2021", "ca. 3/2019", "03/04/2015"))
        elif which < 165:
            row[6] = row[6].replace("Hof", "Hoff")
        return row

    def write(self, room: pathlib.Path) -> tuple[pathlib.Path, pathlib.Path]:
        paths = room / "before.csv", room / "now.csv"
        for path, rows in zip(paths, (self.before, self.now)):
            path.write_text("\n".join([TITLES, *map(",".join, rows)]) + "\n", encoding="utf-8")
        return paths


def seconds() -> float:
    """What this process and those that it ran took of the processor."""
    kinds = (resource.getrusage(kind) for kind in (resource.RUSAGE_SELF, resource.RUSAGE_CHILDREN))
    return sum(one.ru_utime + one.ru_stime for one in kinds)


class Looking:
    """The process beside the server, which keeps what it read."""

    def __init__(self, folder: pathlib.Path, path: pathlib.Path) -> None:
        self.folder, self.path = folder, path
        gc.set_threshold(worker_process.OBJECTS, worker_process.ROUNDS, worker_process.ROUNDS)
        with_short_turns()
        with_cells_of_any_length()
        is_for_one_change()

    def look(self, options: dict[str, str], columns: dict[str, str]) -> float:
        """The seconds of a look, behind which is tidied up as behind that of a page."""
        before = seconds()
        found = looked_at(self.folder, self.path, Chosen.of(columns, options), (), lambda _: None)
        taken = seconds() - before
        assert isinstance(found, Look)
        if found.told:
            sys.exit(f"{options or columns}: the sheet can't be read: {found.told[0]}")
        del found
        gc.collect()
        if not gc.get_freeze_count():
            gc.freeze()
        return taken


def main() -> int:
    parser = argparse.ArgumentParser(description=__doc__, formatter_class=argparse.RawDescriptionHelpFormatter)
    parser.add_argument("program", metavar="PROGRAM", type=os.path.abspath)
    parser.add_argument("--rows", type=int, default=60_000)
    parser.add_argument("--runs", type=int, default=3)
    parser.add_argument("--buttons", default=",".join(BUTTONS))
    parser.add_argument("--work", default=None)
    given = parser.parse_args()
    os.environ["HERDBOOK"] = given.program
    with tempfile.TemporaryDirectory(dir=given.work) as folder:
        room = pathlib.Path(folder)
        before, now = Lists(given.rows).write(room)
        words = [str(TOP / "gudokeyi"), "import", str(before), "--anyway", "--breed", "SKU", "--country", "DEU"]
        subprocess.run(words, cwd=room, check=True, stdout=subprocess.DEVNULL)
        looking = Looking(room / "book", now)
        print(f"{'first look':20} {looking.look({}, {}):6.2f} s", flush=True)
        first_presses = []
        for button in given.buttons.split(","):
            runs = []
            for _ in range(given.runs):
                looking.look({}, {})
                runs.append(looking.look(*BUTTONS[button]))
            first_presses.append(runs[0])
            all_runs = f"{min(runs):6.2f} {statistics.median(runs):6.2f} {max(runs):6.2f} s"
            print(f"{button:20} {runs[0]:6.2f}   {all_runs}", flush=True)
    return 1 if max(first_presses) > MOST_SECONDS else 0


if __name__ == "__main__":
    sys.exit(main())
