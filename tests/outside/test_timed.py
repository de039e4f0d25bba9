"""The programs that are to be timed: what they print, the times apart."""
from __future__ import annotations

import re

from outside.runs import Checks, wrote

# births, desks and inspectors; after a million founders they are the same again
OFFICES = [(0, 1, 0), (9, 16, 15), (50, 1, 0), (50, 3, 2), (500, 3, 1), (1_000_001, 1, 0)]

# a task and how many animals there are then
PEDIGREES = [
    ("births 0", 0),
    ("births 100", 100),
    ("freeze 100", 100),
    ("corrections 0 0", 1),
    ("corrections 130 5", 130),
    ("corrections 130 40", 130),
]

NO_OFFICES = [
    "births 9 17 0",
    "births 9 0 0",
    "births 9 1 16",
    "births 9 1",
    "beside 7 8 2",
    "beside 7 8",
    "births -1 1 0",
    "races 3",
    "",
]

NO_PEDIGREES = ["corrections 9", "births many", "deaths 7", "births", ""]


class TestTimed(Checks):
    def test_timed_offices(self) -> None:
        """Births and transfers of `office_timing`, more than are accepted too, with and without inspectors."""
        office = self.built("office_timing")
        for births, desks, inspectors in OFFICES:
            told = f"{min(births, 1_000_000)} accepted, {births} steps\n"
            office.expect("births", wrote(told), ["births", str(births), str(desks), str(inspectors)])
        for births, transfers, inspectors in (3, 5, 0), (8, 7, 1):
            office.transfers_beside(births, transfers, inspectors)
        office.no_tasks(NO_OFFICES)

    def transfers_beside(self, births: int, transfers: int, inspectors: int) -> None:
        """Transfers after births, with the time of the longest and of all, and how many books were frozen meanwhile."""
        done = self.run(["beside", str(births), str(transfers), str(inspectors)])
        told = f"{births + min(births, transfers)} accepted, {births + transfers} steps\n"
        times = re.fullmatch(r"(\d+) ns longest, (\d+) ns in all, (\d+) books frozen\n", done.err.decode())
        longest, total, books = (int(time) for time in times.groups()) if times else (0, 0, -1)
        right = (done.status, done.out) == (0, told.encode()) and 0 < longest <= total <= transfers * longest
        frozen = books >= 0 if inspectors else books == 0
        self.count(right and frozen, f"beside: {births}, {transfers}, {inspectors}: {done}")

    def test_timed_pedigrees(self) -> None:
        """Each task of `pedigree_timing` tells how many animals there are."""
        pedigree = self.built("pedigree_timing")
        for words, animals in PEDIGREES:
            pedigree.expect("a timed pedigree", wrote(f"{animals}\n"), words.split())
        pedigree.no_tasks(NO_PEDIGREES)

    def no_tasks(self, lines: list[str]) -> None:
        """Words that ask for no task are told, and nothing is done."""
        for line in lines:
            done = self.run(line.split())
            self.count(done.status == 1 and not done.out and done.err, f"no task: {line}: {done}")
