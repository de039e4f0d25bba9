#!/usr/bin/env python3
"""Sends drawn traffic to one server for long, and sees whether its memory grows, and whether each request is answered.

    traffic.py PROGRAM [--animals 59000] [--minutes 30] [--rate 10] [--people 30] [--work FOLDER]

PROGRAM is the built herdbook. The book of `served.py` is made in a new folder below FOLDER, and served. People ask so
many times a second together: most read pages and exports, others file births, exits and transfers, take sheets of 400
rows, make plans, or log out and in again; each draws what is done next. Printed are the waits of each, how many requests
were sent, what was answered with a fault or not at all, the memory of all the server's processes after five minutes (or
a sixth of the time) and at the end, each the median of a minute, and whether each command that was answered stands once.

The status is 1 where there was a fault, where the memory at the end is above 1.2 times the earlier one, or where a
command doesn't stand once. """
from __future__ import annotations

import argparse
import contextlib
import http.client
import pathlib
import random
import re
import statistics
import sys
import tempfile
import threading
import time

from served import FORM, LIVING, LOOKED, Bench, Person, below, bytes_of, sheet, stands_once, told

MOST_GROWTH = 1.2
SHEET_ROWS = 400
# how often of a hundred draws each is done, the rest reads; of those who file three take sheets
FILING, SHEETS, PLANS, LOGINS = 20, 8, 1, 3


class Traffic(Bench):
    """So many requests a second are sent, whoever sends them."""

    def __init__(self, asked: argparse.Namespace, room: pathlib.Path) -> None:
        super().__init__(asked, room)
        self.next, self.sent, self.memory = 0.0, 0, list[tuple[float, int]]()

    def pace(self) -> None:
        """Waits until the next request may be sent."""
        with self.lock:
            self.next = at = max(self.next + 1 / self.asked.rate, time.monotonic())
            self.sent += 1
        time.sleep(max(0.0, at - time.monotonic()))

    def fault(self, said: str) -> None:
        with self.lock:
            self.faults.append(said)

    def watch(self, server: int) -> None:
        while True:
            with contextlib.suppress(OSError, ValueError):
                self.memory.append((time.monotonic(), sum(map(bytes_of, below(server)))))
            time.sleep(2)

    def memory_at(self, moment: float) -> float:
        """The median of the minute before a moment."""
        return statistics.median(size for at, size in self.memory if moment - 60 <= at <= moment)


class Paced(Person):
    """A browser whose requests wait for their turn."""

    bench: Traffic

    def ask(self, method: str, path: str, kind: str, body: bytes | None = None, **more: str) -> tuple[int, str, str]:
        self.bench.pace()
        return super().ask(method, path, kind, body, **more)


def rows_drawn(bench: Traffic, chosen: random.Random) -> str:
    """A sheet of some of the book's animals with a few new ones."""
    lines = (bench.room / "first.csv").read_text(encoding="utf-8").splitlines()
    first = chosen.randrange(1, len(lines) - SHEET_ROWS)
    new = [f"S{chosen.randrange(10**9)},F,2025-03-15,,,Owner {at}," for at in range(2)]
    return "\n".join([lines[0], *lines[first : first + SHEET_ROWS - len(new)], *new]) + "\n"


def take_sheet(one: Paced, at: int, chosen: random.Random) -> None:
    file = one.bench.room / f"sheet-{at}.csv"
    file.write_text(rows_drawn(one.bench, chosen), encoding="utf-8")
    one.get("/sheet", "reading")
    address = one.drop("/sheet", file, "sheet")
    one.get(address, "sheet")
    one.post(f"{address}/columns", "sheet", anyway="1")
    for _ in range(9):
        _, page = one.awaited(address, "sheet")
        form = FORM.search(page)
        if not form:
            return one.bench.fault(f"the sheet isn't looked at: {page[-600:]}")
        _, to, _ = one.post(f"{address}/take", "sheet", form=form[1], **dict(LOOKED.findall(page)))
        address, page = one.awaited(to, "sheet")
        if address.startswith("/history"):
            one.bench.taken += 1
            return None
    return one.bench.fault(f"the sheet isn't taken: {page[-600:]}")


def file_one(one: Paced, at: int, chosen: random.Random) -> None:
    day = f"2025-{chosen.randrange(1, 10):02}-{chosen.randrange(1, 29):02}"
    animal = one.bench.asked.animals - 1 - chosen.randrange(LIVING)
    found = re.search(rf"B\d{{4}}-{animal}\b", one.get(f"/animals?words=-{animal}", "reading")[2])
    kind, fields = "birth", {"id": f"C{at}-{chosen.randrange(10**9)}", "sex": "F", "day": day}
    if found and chosen.random() < 0.7:
        kind, fields = chosen.choice(("exit", "transfer")), {"id": found[0], "day": day, "to": "Mill"}
    one.get(f"/file/{kind}", "reading")
    status, to, page = one.post(f"/file/{kind}", "filing", form=f"traffic-form-{at}-{chosen.randrange(10**12)}", **fields)
    number = re.fullmatch(r"/answer/(\d+)", to)
    if status == 302 and number:
        one.bench.accepted[int(number[1])] = one.name
        one.get(to, "reading")
    elif status != 400:
        one.bench.fault(f"{one.name}: {kind}: {status} {page[-300:]}")


def read(one: Paced, chosen: random.Random) -> None:
    path = chosen.choice((
        "/", f"/animals?words=B19{chosen.randrange(86, 99)}", f"/search?words=-{chosen.randrange(999)}", "/history", "/breed",
        f"/animals?page={chosen.randrange(1, 9)}&living=1", "/owners", "/settings", f"/history?page={chosen.randrange(1, 9)}",
    ))  # fmt: skip
    found = re.findall(r'href="(/animal/\w+|/history/\d+)"', one.get(path, "reading")[2])
    if found:
        further = chosen.choice(found)
        one.get(further, "reading")
        if further.startswith("/animal/"):
            one.get(f"{further}/certificate", "reading")


def plan(one: Paced) -> None:
    _, page = one.awaited("/matings/plan?made=1&age=", "plan")
    one.bench.planned += "/matings/plan.csv" in page


def log_in_anew(one: Paced) -> None:
    one.get("/password", "reading")
    one.post("/logout", "login")
    one.connection.close()
    one.log_in()


def draw(one: Paced, at: int) -> None:
    """One person's work; clerks alone file, and three of them take sheets."""
    chosen, is_clerk = random.Random(at), one.name.startswith("clerk")
    while time.monotonic() < one.bench.until:
        drawn = chosen.randrange(100)
        try:
            if drawn < FILING and is_clerk:
                file_one(one, at, chosen)
            elif drawn < FILING + SHEETS and at < 3:
                take_sheet(one, at, chosen)
            elif FILING + SHEETS <= drawn < FILING + SHEETS + PLANS:
                plan(one)
            elif 100 - LOGINS <= drawn:
                log_in_anew(one)
            else:
                read(one, chosen)
        except (OSError, http.client.HTTPException) as error:
            one.bench.fault(f"{one.name} isn't answered: {error!r}")
            one.connection.close()


def main() -> int:
    parser = argparse.ArgumentParser(description=__doc__, formatter_class=argparse.RawDescriptionHelpFormatter)
    parser.add_argument("program")
    for name, usual in ("animals", 59_000), ("minutes", 30), ("rate", 10), ("people", 30):
        parser.add_argument(f"--{name}", type=int, default=usual)
    parser.add_argument("--work", default=None)
    asked = parser.parse_args()
    asked.rows, asked.clerks = asked.animals, asked.people // 2
    asked.readers = asked.people - asked.clerks
    with tempfile.TemporaryDirectory(prefix="traffic-", dir=asked.work) as room:
        bench = Traffic(asked, pathlib.Path(room))
        bench.make()
        with bench.served():
            people = [Paced(bench, f"clerk {at}") for at in range(asked.clerks)]
            people += [Paced(bench, f"reader {at}") for at in range(asked.readers)]
            began, sent = time.monotonic(), bench.sent
            bench.until = began + 60 * asked.minutes
            threads = [threading.Thread(target=draw, args=(one, at)) for at, one in enumerate(people)]
            for one in threads:
                one.start()
            for one in threads:
                one.join()
            ended = time.monotonic()
            early, late = bench.memory_at(began + min(300, 10 * asked.minutes)), bench.memory_at(bench.until)
        is_once = stands_once(bench)
    for kind, waits in sorted(bench.waits.items()):
        print(f"{kind:8} {told(waits)}")
    print(f"{bench.sent - sent} requests in {ended - began:.0f} s; commands {len(bench.accepted)}; sheets taken {bench.taken}; "
          f"plans {bench.planned}; faults {len(bench.faults)}; once {is_once}")
    print(f"memory {early / 1e6:.0f} MB early, {late / 1e6:.0f} MB at the end, {late / early:.2f} times")
    for said in bench.faults[:9]:
        print(said)
    return int(bool(bench.faults) or late > MOST_GROWTH * early or not is_once)


if __name__ == "__main__":
    sys.exit(main())
