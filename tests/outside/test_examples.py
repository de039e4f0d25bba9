"""The society's spreadsheet of `examples/`, and the recipes on its book."""
from __future__ import annotations

import importlib.util
import os
import pathlib
import shutil
import subprocess
import sys
from collections.abc import Callable
from fractions import Fraction

from outside.rooms import Rooms
from outside.runs import SECONDS, wrote

# what `take` counts, in its last line
TAKEN = (
    "book: 502 animals, 500 new, 0 changed, 4 inferred, 2 left out (1 row, 1 parent), 2 added, 0 gone: "
    "book/report.csv has each"
)


class TestExamples(Rooms):
    def test_examples(self) -> None:
        """The spreadsheet becomes a book of which nothing is refused."""
        room = self.example_room("examples")
        taken = self.shell("./gudokeyi import examples/society.csv --breed HOL --country GBR", room)
        is_told = taken.out.splitlines()[-1:] == [TAKEN.encode()]
        self.count(taken.status == 0 and is_told, f"the society's spreadsheet: {taken}")
        book = (room / "book/commands.csv").read_text()
        accepted = "".join(f"{serial},accepted\n" for serial in range(1, 503))
        self.expect("the society's book", wrote(accepted), ["file"], book)
        self.summary(room, book)
        self.inverse(room, book)

    def summary(self, room: pathlib.Path, book: str) -> None:
        """The recipe that sums up the list."""
        listed = self.run(["inbreeding"], book).out.decode()
        (room / "list.csv").write_text(listed)
        rows = [line.split(",") for line in listed.splitlines()]
        mean = sum(float(percent) for _, _, percent in rows) / len(rows)
        wanted = f"{len(rows)} animals, {sum(of != '0' for _, of, _ in rows)} inbred, mean {mean:.2f} %\n"
        self.recipe(room, ["awk", "-f", "examples/recipes/summary.awk", "list.csv"], lambda out: out == wanted)

    def inverse(self, room: pathlib.Path, book: str) -> None:
        """The recipes that read the inverse, where what they need is installed."""
        oldest_first = self.run(["inbreeding"], book).out.decode().splitlines()
        youngest = oldest_first[-1].split(",")[0]
        last = inverse_element(self.run(["inverse"], book).out.decode(), youngest, youngest)
        written = self.shell("./gudokeyi inverse --matrix-market inverse.mtx", room)
        id = (room / "inverse.mtx.ids").read_text().splitlines()[-1]
        is_there = f"502 502 {float(last)!r}" in (room / "inverse.mtx").read_text()
        self.count(written.status == 0 and is_there, f"the inverse: {written}")

        def with_last(out: str) -> bool:
            return id in out and f"{float(last):.3f}"[:5] in out

        if importlib.util.find_spec("scipy"):
            self.recipe(room, [sys.executable, "examples/recipes/inverse_scipy.py", "inverse.mtx"], with_last)
        if shutil.which("Rscript"):
            self.recipe(room, ["Rscript", "examples/recipes/inverse.R", "inverse.mtx"], with_last)

    def recipe(self, room: pathlib.Path, words: list[str], is_right: Callable[[str], bool]) -> None:
        env = {"PATH": os.environ["PATH"], "LC_ALL": "C", "HOME": str(room)}
        done = subprocess.run(words, cwd=room, env=env, input="", capture_output=True, text=True, timeout=SECONDS)
        right = done.returncode == 0 and is_right(done.stdout)
        self.count(right, f"{words}: {done.stdout[-300:]!r}, {done.stderr[-300:]!r}")


def inverse_element(text: str, row: str, column: str) -> Fraction:
    """An element of the inverse: what the animals add to it, summed up."""
    parts = (line.split(",") for line in text.splitlines())
    return sum((Fraction(value) for _, r, c, value in parts if {r, c} == {row, column}), Fraction(0))
