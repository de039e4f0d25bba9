#!/usr/bin/env python3
"""Measures how long people at one server wait, while a large sheet is taken and a plan of matings made.

    served.py PROGRAM [--animals 59000] [--rows 60000] [--clerks 8] [--readers 15] [--seconds 120] [--work FOLDER]

PROGRAM is the built herdbook. A book of so many animals is made in a new folder below FOLDER, and served. Clerks file
births, exits and transfers, each 3 seconds on average behind the one before; readers look at a page for 2; one clerk
drops a sheet of so many rows, looks at it and takes it, and again until the time is over; one reader asks for plans.
Printed are the waits of each, how often the server answered with a fault, the most memory of all its processes at once,
and whether each accepted command stands once in the book.

The status is 1 where a request but the sheet's own took above 3 seconds, where there was a fault, where more than 1.5 GB
were used, where a command doesn't stand once, or where no sheet came through or no plan was made. """
from __future__ import annotations

import argparse
import contextlib
import http.client
import os
import pathlib
import random
import re
import sqlite3
import statistics
import subprocess
import sys
import tempfile
import threading
import time
import urllib.parse
from collections import defaultdict

TOP = pathlib.Path(__file__).resolve().parent.parent
sys.path[:0] = [str(TOP / "src")]

from gudokeyi.domain.people import AccountRole  # noqa: E402
from gudokeyi.services.accounts import Accounts  # noqa: E402

WORD = "a word of the benchmark"
MOST_SECONDS, MOST_BYTES = 3, 1_500_000_000
# so many animals of the book live
LIVING = 1000
# so long a connection is kept by which nothing is asked
SECONDS_IDLE = 4
TOKEN = re.compile(r'name="csrf_token" value="([^"]+)"')
FORM = re.compile(r'name="form" value="([^"]+)"')
LOOKED = re.compile(r'name="(looked|reading)" value="([^"]+)"')


def sheet(animals: int, rows: int) -> str:
    """A sheet of animals, of parents that live not long before. Those alone that are in a book last stayed there, one in
    eight of which may be mated. Of the rows that a book has no animals for half are new ones, and the others stand
    there twice: what clerks file has room in a book beside them."""
    chosen, females, males = random.Random(7), list[str](), list[str]()
    lines = ["id,sex,birth,sire,dam,owner,left"]
    for at in range(rows - (rows - animals) // 2):
        year = 1985 + min(at * 39 // animals, 39)
        sex = "M" if chosen.random() < 0.12 else "F"
        older = [of[-most // 2 - 1] if len(of) > most else "" for of, most in ((males, 400), (females, 6000))]
        sire, dam = (one if one[1:5] != str(year) else "" for one in older)
        has_left = not animals - LIVING <= at < animals
        word = "ox" if not has_left and at % 8 else sex
        day, left = f"{year}-{chosen.randrange(1, 13):02}-15", f"{min(year + 8, 2024)}-12-31" if has_left else ""
        lines.append(f"B{year}-{at},{word},{day},{sire},{dam},Owner {at % 300},{left}")
        (males if sex == "M" else females).append(f"B{year}-{at}")
    return "\n".join(lines + lines[1 : rows + 2 - len(lines)]) + "\n"


class Bench:
    """The server, and what was measured of it."""

    def __init__(self, asked: argparse.Namespace, room: pathlib.Path) -> None:
        self.asked, self.room = asked, room
        self.waits: dict[str, list[float]] = defaultdict(list)
        self.faults: list[str] = []
        self.accepted: dict[int, str] = {}
        self.taken, self.planned, self.most_bytes = 0, 0, 0
        self.until, self.lock = 0.0, threading.Lock()
        self.port = 0

    def call(self, *words: str) -> None:
        env = os.environ | {"HERDBOOK": str(pathlib.Path(self.asked.program).resolve())}
        subprocess.run([str(TOP / "gudokeyi"), *words], cwd=self.room, env=env, check=True, stdout=subprocess.DEVNULL)

    def make(self) -> None:
        (self.room / "first.csv").write_text(sheet(self.asked.animals, self.asked.animals), encoding="utf-8")
        (self.room / "more.csv").write_text(sheet(self.asked.animals, self.asked.rows), encoding="utf-8")
        self.call("import", "first.csv", "--anyway", "--breed", "HOL", "--country", "GBR")
        accounts = Accounts(self.room / "book")
        people = {"keeper": AccountRole.KEEPER, "sheets": AccountRole.CLERK, "plans": AccountRole.INSPECTOR}
        people |= {f"clerk {at}": AccountRole.CLERK for at in range(self.asked.clerks)}
        people |= {f"reader {at}": AccountRole.INSPECTOR for at in range(self.asked.readers)}
        for name, role in people.items():
            accounts.add(name, role, WORD, WORD)

    @contextlib.contextmanager
    def served(self) -> object:
        env = os.environ | {"HERDBOOK": str(pathlib.Path(self.asked.program).resolve())}
        with open(self.room / "log", "w", encoding="utf-8") as log:
            process = subprocess.Popen(
                [str(TOP / "gudokeyi"), "serve", "--listen", "127.0.0.1:0"], cwd=self.room, env=env, text=True,
                stdout=subprocess.PIPE, stderr=log,
            )  # fmt: skip
            assert process.stdout
            found = re.search(r":(\d+)/", process.stdout.readline())
            assert found, (self.room / "log").read_text(encoding="utf-8")
            self.port = int(found[1])
            watching = threading.Thread(target=self.watch, args=(process.pid,), daemon=True)
            watching.start()
            try:
                yield process
            finally:
                process.terminate()
                process.wait(300)

    def watch(self, server: int) -> None:
        """Notes the most memory that the server and all below it have at once."""
        while True:
            with contextlib.suppress(OSError, ValueError):
                self.most_bytes = max(self.most_bytes, sum(map(bytes_of, below(server))))
            time.sleep(0.5)


def below(process: int) -> list[int]:
    """A process and all that it began."""
    found, parents = [process], dict[int, list[int]]()
    for path in pathlib.Path("/proc").iterdir():
        with contextlib.suppress(OSError, ValueError, IndexError):
            parents.setdefault(int((path / "stat").read_text().rpartition(")")[2].split()[1]), []).append(int(path.name))
    for one in found:
        found += parents.get(one, [])
    return found


def bytes_of(process: int) -> int:
    """What a process has in memory, of what it shares its part."""
    with contextlib.suppress(OSError):
        for line in pathlib.Path(f"/proc/{process}/smaps_rollup").read_text().splitlines():
            if line.startswith("Pss:"):
                return int(line.split()[1]) << 10
    return 0


class Person:
    """A browser in which somebody is logged in."""

    def __init__(self, bench: Bench, name: str) -> None:
        self.bench, self.name, self.cookie, self.token = bench, name, "", ""
        self.connection = http.client.HTTPConnection("127.0.0.1", bench.port, timeout=300)
        self.used = time.monotonic()
        self.log_in()

    def log_in(self) -> None:
        self.get("/login", "login")
        self.post("/login", "login", name=self.name, password=WORD)
        self.get("/password", "login")

    def ask(self, method: str, path: str, kind: str, body: bytes | None = None, **more: str) -> tuple[int, str, str]:
        headers = {"Host": f"127.0.0.1:{self.bench.port}", "Cookie": self.cookie} | more
        began = time.monotonic()
        # as a browser does: the server may have ended a connection by which nothing was asked
        if began - self.used > SECONDS_IDLE:
            self.connection.close()
        self.connection.request(method, path, body, headers)
        answer = self.connection.getresponse()
        page = answer.read().decode("utf-8", "replace")
        self.used = time.monotonic()
        took = self.used - began
        for cookie in answer.headers.get_all("Set-Cookie") or []:
            self.cookie = cookie.partition(";")[0]
        found = TOKEN.search(page)
        self.token = found[1] if found else self.token
        with self.bench.lock:
            self.bench.waits[kind].append(took)
            if answer.status >= 500:
                self.bench.faults.append(f"{self.name}: {method} {path}: {answer.status}")
        return answer.status, answer.headers.get("Location", ""), page

    def get(self, path: str, kind: str) -> tuple[int, str, str]:
        return self.ask("GET", path, kind)

    def post(self, path: str, kind: str, **fields: str) -> tuple[int, str, str]:
        body = urllib.parse.urlencode({"csrf_token": self.token} | fields).encode()
        return self.ask("POST", path, kind, body, **{"Content-Type": "application/x-www-form-urlencoded"})

    def drop(self, path: str, file: pathlib.Path, kind: str) -> str:
        """Drops a sheet; answers where it leads."""
        bound = "bound"
        head = f'--{bound}\r\nContent-Disposition: form-data; name="csrf_token"\r\n\r\n{self.token}\r\n--{bound}\r\n'
        head += f'Content-Disposition: form-data; name="sheet"; filename="{file.name}"\r\n\r\n'
        body = head.encode() + file.read_bytes() + f"\r\n--{bound}--\r\n".encode()
        return self.ask("POST", path, kind, body, **{"Content-Type": f"multipart/form-data; boundary={bound}"})[1]

    def awaited(self, path: str, kind: str) -> tuple[str, str]:
        """The page behind what is waited for, and its address."""
        while True:
            status, to, page = self.get(path, kind)
            if status == 302:
                path = to
            elif 'aria-busy="true"' not in page:
                return path, page
            else:
                time.sleep(1)


def file_all(bench: Bench, one: Person, at: int) -> None:
    chosen, count = random.Random(at), 0
    while time.monotonic() < bench.until:
        time.sleep(chosen.uniform(1, 5))
        count += 1
        day = f"2025-{chosen.randrange(1, 10):02}-{chosen.randrange(1, 29):02}"
        animal = bench.asked.animals - 1 - chosen.randrange(LIVING)
        _, _, page = one.get(f"/animals?words=-{animal}", "reading")
        found = re.search(rf"B\d{{4}}-{animal}\b", page)
        kind, fields = "birth", {"id": f"C{at}-{count}", "sex": "F", "day": day}
        if count % 3 and found:
            kind, fields = ("transfer", "exit")[count % 3 - 1], {"id": found[0], "day": day, "to": "Mill"}
        one.get(f"/file/{kind}", "reading")
        form = f"bench-form-{at}-{count}-{chosen.randrange(10**12)}"
        status, to, page = one.post(f"/file/{kind}", "filing", form=form, **fields)
        number = re.fullmatch(r"/answer/(\d+)", to)
        if status == 302 and number:
            bench.accepted[int(number[1])] = one.name
            one.get(to, "reading")
        elif status != 400:
            bench.faults.append(f"{one.name}: {kind}: {status}")


def read_all(bench: Bench, one: Person, at: int) -> None:
    chosen = random.Random(100 + at)
    while time.monotonic() < bench.until:
        paths = [
            "/", f"/animals?words=B19{chosen.randrange(86, 99)}", f"/search?words=-{chosen.randrange(999)}", "/history",
            f"/animals?page={chosen.randrange(1, 9)}&living=1",
        ]  # fmt: skip
        for path in paths:
            _, _, page = one.get(path, "reading")
            look(chosen)
            found = re.findall(r'href="(/animal/\w+)"', page)
            if found:
                animal = chosen.choice(found)
                one.get(animal, "reading")
                look(chosen)
                one.get(f"{animal}/certificate", "reading")
                look(chosen)


def look(chosen: random.Random) -> None:
    """So long somebody looks at a page."""
    time.sleep(chosen.uniform(1, 3))


def take_sheets(bench: Bench, one: Person) -> None:
    one.get("/sheet", "reading")
    while time.monotonic() < bench.until:
        address = one.drop("/sheet", bench.room / "more.csv", "sheet")
        one.get(address, "sheet")
        one.post(f"{address}/columns", "sheet", anyway="1")
        for _ in range(9):
            _, page = one.awaited(address, "sheet")
            form = FORM.search(page)
            if not form:
                bench.faults.append(f"the sheet isn't looked at: {page[-600:]}")
                return
            _, to, _ = one.post(f"{address}/take", "sheet", form=form[1], **dict(LOOKED.findall(page)))
            address, _ = one.awaited(to, "sheet")
            if address.startswith("/history"):
                bench.taken += 1
                break


def ask_plans(bench: Bench, one: Person) -> None:
    while time.monotonic() < bench.until:
        _, page = one.awaited("/matings/plan?made=1&age=", "plan")
        bench.planned += "/matings/plan.csv" in page
        time.sleep(5)


def told(waits: list[float]) -> str:
    if len(waits) < 2:
        return f"{len(waits)} answers"
    parts = statistics.quantiles(waits, n=100)
    return f"{len(waits)} answers, median {parts[49]:.3f} s, 99th {parts[98]:.3f} s, longest {max(waits):.3f} s"


def stands_once(bench: Bench) -> bool:
    """Is each accepted command a change of its own, by whom it was?"""
    with contextlib.closing(sqlite3.connect(bench.room / "book/book.sqlite")) as book:
        changes = dict(book.execute("SELECT change, login FROM change"))
        filed = book.execute("SELECT count(*) FROM change WHERE kind IN ('birth', 'exit', 'transfer')").fetchone()[0]
    bench.call("verify")
    # a change has one command, and one number is told to one person alone
    return filed == len(bench.accepted) and all(changes.get(at) == who for at, who in bench.accepted.items())


def main() -> int:
    parser = argparse.ArgumentParser(description=__doc__, formatter_class=argparse.RawDescriptionHelpFormatter)
    parser.add_argument("program")
    for name, usual in ("animals", 59_000), ("rows", 60_000), ("clerks", 8), ("readers", 15), ("seconds", 120):
        parser.add_argument(f"--{name}", type=int, default=usual)
    parser.add_argument("--work", default=None)
    asked = parser.parse_args()
    with tempfile.TemporaryDirectory(prefix="served-", dir=asked.work) as room:
        bench = Bench(asked, pathlib.Path(room))
        bench.make()
        with bench.served():
            # the server sees first that the book is whole
            time.sleep(min(20, asked.seconds / 4))
            clerks = [Person(bench, f"clerk {at}") for at in range(asked.clerks)]
            readers = [Person(bench, f"reader {at}") for at in range(asked.readers)]
            sheets, plans = Person(bench, "sheets"), Person(bench, "plans")
            bench.until = time.monotonic() + asked.seconds
            threads = [threading.Thread(target=file_all, args=(bench, one, at)) for at, one in enumerate(clerks)]
            threads += [threading.Thread(target=read_all, args=(bench, one, at)) for at, one in enumerate(readers)]
            threads += [threading.Thread(target=take_sheets, args=(bench, sheets))]
            threads += [threading.Thread(target=ask_plans, args=(bench, plans))]
            for one in threads:
                one.start()
            for one in threads:
                one.join()
        is_once = stands_once(bench)
    for kind, waits in sorted(bench.waits.items()):
        print(f"{kind:8} {told(waits)}")
    done = f"sheets taken {bench.taken}; plans {bench.planned}; faults {len(bench.faults)}"
    print(f"{done}; memory {bench.most_bytes / 1e6:.0f} MB; once {is_once}")
    for one in bench.faults[:9]:
        print(one)
    longest = max(max(waits) for kind, waits in bench.waits.items() if kind not in ("sheet", "login"))
    is_good = longest <= MOST_SECONDS and bench.most_bytes <= MOST_BYTES and is_once and not bench.faults
    return int(not (is_good and bench.taken and bench.planned))


if __name__ == "__main__":
    sys.exit(main())
