"""Proves a program's crates side by side."""
from __future__ import annotations

import collections
import concurrent.futures
import graphlib
import re

from building import proved
from building.built import checksums, text_of
from building.crates import Crates
from building.machine import Machine, room, sweep
from building.place import Place
from building.runs import Ended, Failed, Runs
from building.telling import Teller

PROVED = re.compile(r"logic=proved\b")
LAST_LINES = 20


class Proving:
    """What is proved so far."""

    def __init__(self, crates: Crates, place: Place, teller: Teller) -> None:
        self.crates, self.place, self.say, self.write = crates, place, teller.say, teller.write
        self.runs, self.machine = Runs(), Machine()
        self.order = graphlib.TopologicalSorter(crates.below)
        self.order.prepare()
        # those that may begin, the runs under way with their crates and processes, and whether all have passed so far
        self.ready: list[str] = []
        self.running: dict[concurrent.futures.Future[bool], tuple[str, int]] = {}
        self.is_well = True
        # the checksums of the sources that were proved
        self.summed: dict[str, list[str]] = {}
        self.kit = proved.kit()

    def build(self) -> bool:
        """Proves all and puts the program in its place, and returns whether all passed."""
        sweep()
        with concurrent.futures.ThreadPoolExecutor(self.machine.most_runs) as pool:
            try:
                self.begin(pool)
                while self.running:
                    self.end()
                    self.begin(pool)
            finally:
                self.runs.end()
        return self.is_well

    def begin(self, pool: concurrent.futures.Executor) -> None:
        """Begins as many as there is room for, first those that most others wait for; none once one has failed."""
        if not self.is_well:
            return
        chains = self.crates.chains
        self.ready = sorted([*self.ready, *self.order.get_ready()], key=lambda name: -chains[name])
        while self.ready:
            name, running = self.ready[0], [jobs for _, jobs in self.running.values()]
            leads = all(chains[other] <= chains[name] for other, _ in self.running.values())
            jobs = self.machine.jobs(running, len(self.ready), leads)
            if not jobs:
                break
            self.ready.remove(name)
            self.say(f"proving {name}")
            self.running[pool.submit(self.prove, name, jobs, not leads)] = name, jobs

    def end(self) -> None:
        """Waits until one has ended."""
        for it in concurrent.futures.wait(self.running, return_when=concurrent.futures.FIRST_COMPLETED).done:
            name, _ = self.running.pop(it)
            if it.result():
                self.order.done(name)
            else:
                self.is_well = False
        if self.running and not self.is_well:
            self.say(f"still proving {', '.join(name for name, _ in self.running.values())}")

    def prove(self, name: str, jobs: int, gives_way: bool) -> bool:
        """Proves a crate by so many processes, over those below it, and keeps what comes of it. It may give way to a
        run for which more crates wait."""
        told = collections.deque[str](maxlen=LAST_LINES)
        try:
            with room() as at:
                self.crates.copy_to(at, name)
                self.summed[name] = checksums(name, at)
                told.extend(self.runs.lines(self.words(name, jobs), at / "crates" / name, gives_way))
                if name == self.crates.program:
                    summed = (line for lines in self.summed.values() for line in lines)
                    self.place.put(at / "crates" / name / "out" / name, text_of(self.crates, summed))
                else:
                    self.crates.keep(at, name)
        except Ended:
            return False
        except Failed as why:
            self.write([*told])
            lacks_memory = "its proof was killed, most likely for want of memory: make some free, and call again"
            proves_not = f"rt check in crates/{name} says why"
            self.say(f"{name} is not proved: {lacks_memory if why.is_killed else proves_not}")
            return False
        functions = proved.counted(told)
        if functions is not None:
            proved.keep(name, functions, self.kit, self.summed[name])
        self.say(f"{name} {'is proved' if any(map(PROVED.match, told)) else 'was proved before'}")
        return True

    def words(self, name: str, jobs: int) -> list[str]:
        """What rt is asked for: a library that others stand on, or the program, which it runs once it is built."""
        if name == self.crates.program:
            return ["run", "--jobs", f"{jobs}", "--", "--version"]
        return ["lib", "--jobs", f"{jobs}"]
