"""Each growth of memory is refused in turn, and all growths from one on."""
from __future__ import annotations

import re

from outside.orders import ONE_CLERK, WIDEST_BLOCK, each_order
from outside.refusals import ALL, Refusals, is_fault, want_of_memory, while_reading
from outside.runs import Done, Words, fault
from outside.small import SMALL

# words for which no book is read
WITHOUT_BOOK: list[Words] = [
    ["--help"],
    ["clerks", "--help"],
    ["--version"],
    ["inbreeding", "--workers", "17"],
    ["certificate", "M"],
    [b"\xff"],
    [],
]


class TestGrowths(Refusals):
    def test_refused_growths(self) -> None:
        for words in [*each_order(), WIDEST_BLOCK]:
            self.refused_growths_of("growth", words, {"REFUSE": "growth"})
            self.refused_growths_of("all growths from", words, {"REFUSE": "growth", "REFUSE_LAST": ALL})

        def is_told(wanted: Done, done: Done) -> bool:
            return done in (wanted, fault("no memory"))

        for without in WITHOUT_BOOK:
            self.until_none("growth", without, "", {"REFUSE": "growth"}, is_told)

    def refused_growths_of(self, what: str, words: list[str], refuse: dict[str, object]) -> None:
        right = Growths(words)
        refused = self.until_none(what, words, SMALL, refuse, right)
        is_filed = refused and right.filed
        self.count(is_filed, f"no growth was refused, or none once records were read: {words}")
        self.count({0, 1} <= right.records, f"which records were being read: {words}: {right.records}")
        # a thread's start takes two growths; beside other threads it isn't known which call has the nth
        few = right.unstarted <= 2 or words != ONE_CLERK
        self.count(few, f"{right.unstarted} growths are told as want of a thread: {words}")

    def test_refused_growths_before_a_line_fault(self) -> None:
        """A line fault is told before a want of memory while filing: once a file is read, no growth hides it."""
        for words in each_order()[1:]:
            right = GrowthsBeforeLineFault(words[0])
            self.until_none("growth before a line fault", words, SMALL + "birth\n", {"REFUSE": "growth"}, right)
            self.count(right.reading, f"the file was never read: {words}")
            # but for clerks, who file nothing of such a file, growths were refused while filing
            self.count(right.told or words[0] == "clerks", f"the line fault was never told: {words}")


class Growths:
    """What a run may answer whose nth growth is refused, asked for one n after the other."""

    def __init__(self, words: list[str]) -> None:
        self.order, self.faults = words[0], want_of_memory(words)
        # the latest record in which one was refused, all of them, and whether one was refused while they were filed
        self.latest, self.filed = 0, False
        self.records: set[int] = set()
        # how many were told as want of a thread
        self.unstarted = 0

    def __call__(self, wanted: Done, done: Done) -> bool:
        record = re.match(rb"herdbook: record (\d+): ", done.err)
        if record:
            # a later growth is never told of an earlier record
            is_later, self.latest = int(record[1]) >= self.latest, int(record[1])
            self.records.add(self.latest)
            self.filed = False
            return is_later and is_fault(self.order, wanted, done, self.faults)
        self.filed |= self.latest > 0 and done == fault("no memory")
        self.unstarted += done == fault("no thread")
        return done == wanted or is_fault(self.order, wanted, done, self.faults)


class GrowthsBeforeLineFault:
    """What a run over a faulty file may answer whose nth growth is refused, asked for one n after the other."""

    def __init__(self, order: str) -> None:
        # whether one was refused while the file was read, and whether the line fault was told after that
        self.order, self.reading, self.told = order, False, False

    def __call__(self, wanted: Done, done: Done) -> bool:
        if done == fault("no memory"):
            return not self.reading
        is_refused = is_fault(self.order, wanted, done, [while_reading(self.order)])
        self.reading |= is_refused
        self.told |= self.reading and done == wanted
        return is_refused or done == wanted
