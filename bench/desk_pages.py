#!/usr/bin/env python3
"""Times the pages of the desk in a browser of a narrow book, and a command that is filed by a form.

    desk_pages.py PROGRAM [SCRIPT] [--animals 60000] [--runs 5] [--work FOLDER]

PROGRAM is the built herdbook, SCRIPT the script `gudokeyi` of a clone, that of this one where none is named. The sheet
of `front_desk.py` is taken once into the folder FOLDER/desk-pages, and the desk opens a copy. Each page is asked for by
a request of its own, as often as runs are asked for, once all of them were asked for. For each stands there the median
of the seconds by the clock and the most, and what the server and its session took of the processor for one; at the end
the most memory of the server, and of the session. The breed's measures and the plan are asked for while they are made,
and when they are there. """

from __future__ import annotations

import argparse
import contextlib
import csv
import os
import pathlib
import re
import shutil
import statistics
import subprocess
import time
import urllib.error
import urllib.parse
import urllib.request
from collections.abc import Callable, Iterator
from http.cookiejar import CookieJar

from command_file import work_folder
from front_desk import sheet, words_of

HERE = pathlib.Path(__file__).resolve().parent
TICKS = os.sysconf("SC_CLK_TCK")


class Desk:
    """The word `open` in a folder, asked as a browser asks."""

    def __init__(self, script: str, program: str, room: pathlib.Path) -> None:
        command = [script, "open", "--no-browser"]
        self.process = subprocess.Popen(
            command, cwd=room, env=os.environ | {"HERDBOOK": program}, stdout=subprocess.PIPE, text=True
        )
        assert self.process.stdout
        link = self.process.stdout.readline().strip()
        self.base = link.partition("/enter")[0]
        self.browser = urllib.request.build_opener(urllib.request.HTTPCookieProcessor(CookieJar()))
        self.get(link.removeprefix(self.base))

    def get(self, path: str) -> str:
        return self.ask(urllib.request.Request(self.base + path))

    def post(self, path: str, page: str, **fields: str) -> str:
        """Sends a form of a page."""
        hidden = dict(re.findall(r'type="hidden" name="([^"]+)" value="([^"]*)"', page))
        body = urllib.parse.urlencode(hidden | fields).encode()
        return self.ask(urllib.request.Request(self.base + path, body))

    def ask(self, request: urllib.request.Request) -> str:
        try:
            with self.browser.open(request) as answer:
                return str(answer.read().decode())
        except urllib.error.HTTPError as told:
            # as that there are too many pairs for a plan
            if told.code != 400:
                raise
            return str(told.read().decode())

    def processes(self) -> list[int]:
        """The server, and behind it what it runs."""
        task = pathlib.Path(f"/proc/{self.process.pid}/task")
        children = " ".join((one / "children").read_text() for one in task.iterdir())
        return [self.process.pid, *map(int, children.split())]

    def processor(self) -> float:
        """The seconds of the server and of what it runs and has run."""
        return sum(map(seconds_of, self.processes()))

    def end(self) -> None:
        self.process.terminate()
        self.process.wait()


def seconds_of(pid: int) -> float:
    with contextlib.suppress(OSError):
        fields = pathlib.Path(f"/proc/{pid}/stat").read_text().rpartition(")")[2].split()
        return sum(map(int, fields[11:15])) / TICKS
    return 0.0


def most_megabytes(pid: int) -> int:
    found = re.search(r"VmHWM:\s+(\d+)", pathlib.Path(f"/proc/{pid}/status").read_text())
    return int(found[1]) // 1024 if found else 0


def pages_of(desk: Desk, dam: str) -> dict[str, str]:
    """The addresses of the pages, by what they show."""
    word = urllib.parse.quote(dam)
    found = re.search(r'href="/animal/(\w+)"', desk.get(f"/animals?words={word}"))
    assert found
    number = found[1]
    return {
        "start": "/", "animals": "/animals", "animals by words": "/animals?words=l%C3%B6we+93",
        "animals by filters": "/animals?living=1&sex=F&owner=Farm+7", "animals by coefficient": "/animals?order=coefficient&down=1",
        "last page of animals": "/animals?page=99999", "search while typing": "/search?words=93",
        "an animal": f"/animal/{number}", "certificate": f"/animal/{number}/certificate",
        "pedigree": f"/animal/{number}/pedigree?generations=8", "sheet": "/sheet", "forms": "/file", "form of a birth": "/file/birth",
        "form of parents": f"/file/parents?id={word}", "matings": f"/matings?dam={word}", "form of a plan": "/matings/plan",
        "plan": "/matings/plan?made=1", "breed": "/breed", "history": "/history", "a change": "/history/1", "settings": "/settings",
    }  # fmt: skip


def timed(desk: Desk, ask: Callable[[], object], runs: int) -> tuple[float, float, float]:
    """The median and the most of the seconds by the clock, and the mean of the processor's."""
    before, clock = desk.processor(), []
    for _ in range(runs):
        begun = time.perf_counter()
        ask()
        clock.append(time.perf_counter() - begun)
    return statistics.median(clock), max(clock), (desk.processor() - before) / runs


def filings(desk: Desk, dam: str) -> Iterator[Callable[[], object]]:
    """Births by a form, each of another calf; the form is shown before it is timed."""
    for at in range(1, 1_000_000):
        page = desk.get("/file/birth")
        fields = {"id": f"NEW-{at}", "sex": "F", "day": "2025-06-01", "dam": dam}
        yield lambda: desk.post("/file/birth", page, **fields)


def corrections(desk: Desk, id: str) -> Iterator[Callable[[], object]]:
    """Corrections of one animal's parents by a form: none, and those that it had, in turn."""
    page = desk.get(f"/file/parents?id={urllib.parse.quote(id)}")
    had = {role: "".join(re.findall(rf'name="{role}" value="([^"]*)"', page)) for role in ("sire", "dam")}
    while True:
        for parents in {"sire": "", "dam": ""}, had:
            page = desk.get(f"/file/parents?id={urllib.parse.quote(id)}")
            yield lambda: desk.post("/file/parents", page, id=id, **parents)


def wait(desk: Desk, path: str) -> None:
    while "http-equiv" in desk.get(path):
        time.sleep(1)


def book_in(work: str, script: str, program: str, animals: int) -> tuple[pathlib.Path, str, str]:
    """A folder with a copy of the book, which is taken where it wasn't; the youngest dam, and an animal from which many
    descend."""
    path = sheet(work, animals)
    taken = pathlib.Path(work) / f"desk-pages-{animals}"
    if not (taken / "book/book.sqlite").exists():
        taken.mkdir(exist_ok=True)
        subprocess.run(
            [script, "import", str(path.absolute()), "--breed", "HOL", "--country", "GBR"], cwd=taken,
            env=os.environ | {"HERDBOOK": program}, check=True, stdout=subprocess.DEVNULL,
        )  # fmt: skip
    room = pathlib.Path(work) / "desk-pages"
    shutil.rmtree(room, ignore_errors=True)
    shutil.copytree(taken, room)
    return room, words_of(work, path)["show"][1], with_many_descendants(path)


def with_many_descendants(path: pathlib.Path) -> str:
    """The first sire in a sheet that has known parents: many descend from it."""
    with open(path, encoding="utf-8") as file:
        rows = sorted(csv.DictReader(file), key=lambda row: row["birth"])
    sires = {row["sire"] for row in rows}
    return next(row["id"] for row in rows if row["id"] in sires and row["sire"] and row["dam"])


def measure(desk: Desk, dam: str, ancestor: str, runs: int) -> None:
    pages = pages_of(desk, dam)
    print(f"{'':28}{'median':>9}{'most':>9}{'processor':>11}")

    def show(name: str, ask: Callable[[], object], times: int) -> None:
        print(f"{name:28}{{:8.3f}} {{:8.3f}} {{:10.3f}}".format(*timed(desk, ask, times)), flush=True)

    for name in "breed", "plan":
        show(f"{name}, begun", lambda: desk.get(pages[name]), 1)
        show(f"{name}, being made", lambda: desk.get(pages[name]), 1)
        wait(desk, pages[name])
    for path in pages.values():
        desk.get(path)
    for name, path in pages.items():
        show(name, lambda: desk.get(path), runs)
    filed = {"a birth filed and answered": filings(desk, dam), "a young dam's parents": corrections(desk, dam),
             "an old sire's parents": corrections(desk, ancestor)}  # fmt: skip
    for name, filing in filed.items():
        next(filing)()
        results = [timed(desk, next(filing), 1) for _ in range(runs)]
        clock = [one for one, _, _ in results]
        taken = statistics.median(clock), max(clock), statistics.mean(one for *_, one in results)
        print(f"{name:28}{{:8.3f}} {{:8.3f}} {{:10.3f}}".format(*taken), flush=True)
    print("most memory in MB:", ", ".join(str(most_megabytes(pid)) for pid in desk.processes()))


def main() -> None:
    parser = argparse.ArgumentParser(description=__doc__, formatter_class=argparse.RawDescriptionHelpFormatter)
    parser.add_argument("program", metavar="PROGRAM", type=os.path.abspath)
    parser.add_argument(
        "script", metavar="SCRIPT", nargs="?", default=str(HERE.parent / "gudokeyi"), type=os.path.abspath
    )
    parser.add_argument("--animals", type=int, default=60_000)
    parser.add_argument("--runs", type=int, default=5)
    parser.add_argument("--work", default=work_folder())
    given = parser.parse_args()
    os.makedirs(given.work, exist_ok=True)
    room, dam, ancestor = book_in(given.work, given.script, given.program, given.animals)
    desk = Desk(given.script, given.program, room)
    try:
        measure(desk, dam, ancestor, given.runs)
    finally:
        desk.end()


if __name__ == "__main__":
    main()
