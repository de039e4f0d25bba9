"""Clerks and inspectors at work at one server: what each filed and was shown, and how long each waited."""
from __future__ import annotations

import http.client
import itertools
import random
import re
import statistics
import threading
import time
from collections.abc import Callable
from dataclasses import dataclass, field
from urllib.parse import quote

from web.site import shown
from serving.server import Browser, Server

# a form that was sent, by its kind and fields
Sent = tuple[str, dict[str, str]]


@dataclass(frozen=True)
class Plan:
    """How many there are; a clerk files so many commands, each of which is written for a while, and inspectors read for
    so long, with a pause between pages."""

    clerks: int
    commands: int
    inspectors: int
    seconds: float
    pause: float
    writing: float = 0


@dataclass(frozen=True)
class Animals:
    """The ids of females and males, and all numbers."""

    females: list[str]
    males: list[str]
    numbers: list[str]


@dataclass
class Work:
    """What was done. `answered` are the numbers of changes with what was sent and whether it was shown as accepted; of
    what was `open` nobody knows whether it was filed."""

    answered: dict[int, tuple[Sent, bool]] = field(default_factory=dict)
    open: list[Sent] = field(default_factory=list)
    filing: list[float] = field(default_factory=list)
    reading: list[float] = field(default_factory=list)
    faults: list[str] = field(default_factory=list)
    is_over: threading.Event = field(default_factory=threading.Event)

    def told(self) -> str:
        return f"filing {waits(self.filing)}; reading {waits(self.reading)}"


def waits(found: list[float]) -> str:
    if len(found) < 2:
        return f"{len(found)} answers"
    hundredths = statistics.quantiles(found, n=100)
    return (
        f"{len(found)} answers, median {hundredths[49]:.3f} s, 99th {hundredths[98]:.3f} s, longest {max(found):.3f} s"
    )


def commands_of(clerk: int, count: int, animals: Animals) -> list[Sent]:
    """Births of one's own, of which every second has both parents, and exits and transfers of animals that others file
    on too."""
    chosen, made = random.Random(clerk), []
    for at in range(count):
        shared = chosen.choice(animals.females[:40])
        day = f"2025-{chosen.randrange(1, 13):02}-{chosen.randrange(1, 29):02}"
        birth = {"id": f"C{clerk}-{at}", "sex": "F", "day": day, "dam": chosen.choice(animals.females)}
        birth |= {"sire": chosen.choice(animals.males)} if at % 2 else {}
        made.append(
            [("birth", birth), ("exit", {"id": shared, "day": day}), ("transfer", {"id": shared, "day": day, "to": "Mill"})][at % 3]
        )  # fmt: skip
    return made


def file_all(browser: Browser, work: Work, plan: Plan, commands: list[Sent], at: int) -> None:
    chosen = random.Random(at)
    for kind, fields in commands:
        time.sleep(chosen.uniform(0, 2 * plan.writing))
        work.open.append((kind, fields))
        began = time.monotonic()
        status, to, page = browser.post(f"/file/{kind}", **fields)
        answer = re.fullmatch(r"/answer/(\d+)", to)
        if status != 302 or not answer:
            work.faults.append(f"{kind} {fields}: {status} {shown(page)[:200]}")
            return
        page = shown(browser.get(to))
        work.filing.append(time.monotonic() - began)
        work.open.remove((kind, fields))
        work.answered[int(answer[1])] = (kind, fields), "Accepted." in page


def read_all(browser: Browser, work: Work, plan: Plan, animals: Animals, at: int) -> None:
    ids, numbers = animals.females, animals.numbers
    chosen, until = random.Random(at), time.monotonic() + plan.seconds
    pages: list[Callable[[], str]] = [
        lambda: "/",
        lambda: f"/animals?words={quote(chosen.choice(ids)[:4])}",
        lambda: f"/animal/{chosen.choice(numbers)}",
        lambda: f"/search?words={quote(chosen.choice(ids)[:5])}",
        lambda: f"/animals?page={chosen.randrange(1, 9)}&living=1",
        lambda: chosen.choice(("/history", "/history/1")),
        lambda: f"/animal/{chosen.choice(numbers)}/certificate",
    ]
    for page in itertools.cycle(pages):
        if time.monotonic() > until or work.is_over.is_set():
            return
        began = time.monotonic()
        browser.get(page())
        work.reading.append(time.monotonic() - began)
        time.sleep(chosen.uniform(0, 2 * plan.pause))


def at_work(server: Server, plan: Plan, animals: Animals, until: Callable[[Work], bool] | None = None) -> Work:
    """All of them at once, until each is done, or until something is the case: then the server is killed."""
    work = Work()
    clerks = [Browser(server, f"clerk {at}") for at in range(plan.clerks)]
    inspectors = [Browser(server, f"inspector {at}") for at in range(plan.inspectors)]

    def kept(do: Callable[[], None]) -> None:
        try:
            do()
        except (OSError, http.client.HTTPException, AssertionError) as error:
            if not work.is_over.is_set():
                work.faults.append(repr(error))

    tasks: list[Callable[[], None]] = []
    for at, clerk in enumerate(clerks):
        tasks.append(lambda clerk=clerk, at=at: file_all(clerk, work, plan, commands_of(at, plan.commands, animals), at))  # type: ignore[misc]
    for at, one in enumerate(inspectors):
        tasks.append(lambda one=one, at=at: read_all(one, work, plan, animals, at))  # type: ignore[misc]
    threads = [threading.Thread(target=kept, args=(task,)) for task in tasks]
    for thread in threads:
        thread.start()
    while until and not until(work) and any(thread.is_alive() for thread in threads):
        time.sleep(0.01)
    if until:
        work.is_over.set()
        server.kill()
    for thread in threads:
        thread.join()
    return work
