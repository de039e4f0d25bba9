"""Runs of the front desk in a folder of its own. Each tells by an assertion what every run has to keep."""
from __future__ import annotations

import contextlib
import csv
import dataclasses
import io
import os
import pathlib
import shlex
import shutil
import sqlite3
import subprocess
import textwrap
import xml.etree.ElementTree as xml
from typing import Callable

from front_desk import prepared

TOP, SECONDS = prepared.TOP, prepared.SECONDS
# how the front desk is called
CALLED = shlex.quote(str(TOP / "gudokeyi"))


@dataclasses.dataclass(frozen=True, repr=False)
class Done:
    """What a run ended with."""

    status: int
    out: str
    err: str
    # the sentences of the book's report after it
    report: tuple[str, ...] = ()

    def __repr__(self) -> str:
        return f"status {self.status}, output {self.out[-500:]!r}, error {self.err[-500:]!r}"

    @property
    def last(self) -> str:
        return self.out.splitlines()[-1] if self.out else ""

    @property
    def told(self) -> str:
        """What is told on the screen and in the report, each sentence in a line of its own."""
        return "\n".join([self.out, *self.report])

    def tells(self, *sentences: str) -> None:
        """Each of these is a line of the screen, or a sentence of the report."""
        for sentence in sentences:
            assert sentence in self.told.splitlines(), f"{sentence!r} isn't told: {self.told}"

    def shows(self, *sentences: str) -> None:
        """Each of these is a line of the screen."""
        for sentence in sentences:
            assert sentence in self.out.splitlines(), f"{sentence!r} isn't shown: {self.out}"

    def commands(self) -> list[str]:
        """The commands that are suggested, each in a line of its own."""
        return [line.strip() for line in (self.out + self.err).splitlines() if line.startswith(f"    {CALLED} ")]


class Desk:
    """A folder of its own, in which the front desk runs with a program."""

    # whether a call is the script's, in a process that reads all modules anew, as a test of the process needs it
    begins_anew = False

    def __init__(self, room: pathlib.Path, program: str) -> None:
        self.room, self.program = room, program
        self.room.mkdir(exist_ok=True)

    def copy_to(self, room: pathlib.Path) -> Desk:
        """A desk with the same files."""
        shutil.copytree(self.room, room, dirs_exist_ok=True)
        return Desk(room, self.program)

    def run(self, *words: str, program: str | None = None) -> Done:
        """Whatever the words are, no fault of the front desk itself comes of it."""
        known = {
            "PATH": os.environ["PATH"], "HERDBOOK": program or self.program, "LANG": "C", "PYTHONPATH": str(self.room),
            "XDG_CACHE_HOME": os.environ.get("XDG_CACHE_HOME", ""), "GUDOKEYI_NUMBERS": os.environ.get("GUDOKEYI_NUMBERS", ""),
        }  # fmt: skip
        if self.begins_anew:
            command = [str(TOP / "gudokeyi"), *words]
            done = subprocess.run(command, cwd=self.room, env=known, capture_output=True, timeout=SECONDS)
        else:
            done = prepared.run(words, self.room, known)
        found = Done(done.returncode, done.stdout.decode(), done.stderr.decode(), self.report(words))
        is_well = "Traceback" not in found.err and "fault of the front desk" not in found.err
        assert is_well, f"{words}: {found}"
        if words[:1] == ("import",) and not {"--help", "--preview"} & {*words}:
            rows = sum(-(-len(line) // 80) for line in found.out.splitlines())
            assert rows <= 24, f"{words}: {rows} rows of 80 letters are more than a screen: {found.out}"
        return found

    def report(self, words: tuple[str, ...]) -> tuple[str, ...]:
        """The sentences of the report of the book that the words name."""
        path = self.room / (words[words.index("--book") + 1] if "--book" in words else "book") / "report.csv"
        if words[:1] != ("import",) or not path.is_file():
            return ()
        text = path.read_text(encoding="utf-8-sig")
        rows = csv.DictReader(io.StringIO(text), delimiter=text[4])
        return tuple(
            (f"line {row['line']}: " if row["line"] else "")
            + (f"{row['id']}: " if row["id"] else "")
            + (f"{row['what']}: " if row["what"] != "left out" else "")
            + row["why"]
            for row in rows
        )

    def good(self, *words: str) -> Done:
        done = self.run(*words)
        assert done.status == 0, f"{words}: {done}"
        return done

    def typed(self, command: str) -> Done:
        """A command as it is suggested, typed into a shell."""
        own = {name: os.environ.get(name, "") for name in ("XDG_CACHE_HOME", "GUDOKEYI_NUMBERS")}
        known = {"PATH": os.environ["PATH"], "HERDBOOK": self.program, "LANG": "C", **own}
        done = subprocess.run(["sh", "-c", command], cwd=self.room, env=known, capture_output=True, timeout=SECONDS)
        assert done.returncode == 0, f"{command}: {done.stderr.decode()}"
        return Done(done.returncode, done.stdout.decode(), done.stderr.decode())

    def write(self, name: str, text: str | bytes) -> str:
        (self.room / name).write_bytes(text if isinstance(text, bytes) else textwrap.dedent(text).encode())
        return name

    def take(self, text: str | bytes, *words: str) -> Done:
        return self.good("import", self.write("sheet.csv", text), *words)

    def wrong(self, told: str, *words: str) -> Done:
        """The words are a mistake, or what they ask for can't be done: it is told in a sentence, and no file is
        changed."""
        before = self.files()
        done = self.run(*words)
        is_told = done.status in (1, 2, 3) and told in done.err and not done.out
        assert is_told, f"{words}: {done}; wanted {told!r}"
        is_kept = self.files() == before
        assert is_kept, f"{words}: a file was changed"
        return done

    def files(self) -> dict[str, bytes]:
        """All files, but for what stands beside a book as long as somebody asks it, and has nothing of it."""
        paths = [path for path in sorted(self.room.rglob("*")) if path.is_file() and "__pycache__" not in path.parts]
        found = {str(path.relative_to(self.room)): path.read_bytes() for path in paths if path.suffix != ".sqlite-shm"}
        return {name: text for name, text in found.items() if text or not name.endswith(".sqlite-wal")}

    def text(self, name: str) -> str:
        return (self.room / name).read_text(encoding="utf-8")

    def commands(self) -> list[str]:
        return self.text("book/commands.csv").splitlines()[1:]

    def transfer_days(self) -> list[str]:
        """The days of the transfers of the book, in order."""
        return [line.split(",")[2] for line in self.commands() if line.startswith("transfer")]

    def numbers(self) -> dict[str, str]:
        return {row["id"]: row["number"] for row in self.table("book/ids.csv") if row["row"] != "dropped"}

    def ids(self) -> list[dict[str, str]]:
        """What `ids.csv` has, but for the number of the change."""
        return [{title: cell for title, cell in row.items() if title != "change"} for row in self.table("book/ids.csv")]

    def owners(self) -> list[tuple[int, str]]:
        """The herds and the owners that they stand for."""
        with contextlib.closing(sqlite3.connect(self.room / "book/book.sqlite")) as connection:
            return connection.execute("SELECT herd, name FROM owner ORDER BY herd").fetchall()

    def born(self) -> dict[str, str]:
        days = {line.split(",")[1]: line.split(",")[2] for line in self.commands() if line.startswith("birth")}
        return {id: days[number] for id, number in self.numbers().items()}

    def parents(self) -> dict[str, tuple[str, str]]:
        """The parents of each animal after the last command that sets them, by ids."""
        found = {
            line.split(",")[1]: line.split(",")[3:5]
            for line in self.commands()
            if line.split(",")[0] in ("birth", "parents")
        }
        ids = {number: id for id, number in self.numbers().items()} | {"0": ""}
        return {ids[number]: (ids[sire], ids[dam]) for number, (sire, dam) in found.items()}

    def table(self, name: str) -> list[dict[str, str]]:
        with open(self.room / name, newline="", encoding="utf-8") as file:
            return list(csv.DictReader(file))

    def listed(self, *words: str) -> list[dict[str, str]]:
        return list(csv.DictReader(io.StringIO(self.good(*words).out)))

    def page(self, name: str) -> xml.Element:
        return xml.fromstring(self.text(name).replace("<!DOCTYPE html>", ""))


# makes desks in folders of their own, each empty
NewDesk = Callable[[], Desk]
