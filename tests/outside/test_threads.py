"""The list by every number of workers, and the threads that workers and clerks start: each start is refused in turn."""
from __future__ import annotations

import reference
from outside.books import HEADER, couples, families
from outside.refusals import Refusals
from outside.runs import Done, fault, wrote
from outside.small import SMALL

MOST_WORKERS = MOST_DESKS = 16

# Books and, by the length of a block, for how many workers their levels of depth have work: for no more than there are
# blocks with a sire that has calves, and but one more for each 32 calves. In the second book there is work for all.
WORK = [
    (SMALL, {1: [2], 7: [1], 60_000: [1]}),
    (families(16, 30, 4), {1: [16, 3], 7: [3, 3], 60_000: [1, 1]}),
]


def inbreeding(workers: int, block: int) -> list[str]:
    return ["inbreeding", "--workers", str(workers), "--block", str(block)]


def clerks(desks: int) -> list[str]:
    return ["clerks", "--desks", str(desks), "--base", "1000000"]


# words, how many calves each of eight bulls has, and how many threads are started
STARTED = [
    (inbreeding(1, 1), 32, 0),
    (inbreeding(2, 1), 32, 1),
    (inbreeding(4, 1), 32, 3),
    (inbreeding(16, 1), 32, 7),
    (inbreeding(16, 3), 32, 3),
    (inbreeding(4, 4), 32, 1),
    (inbreeding(4, 8), 32, 0),
    (inbreeding(16, 1), 3, 0),
    (inbreeding(16, 1), 4, 1),
    (inbreeding(16, 1), 8, 2),
    (clerks(1), 1, 1),
    (clerks(4), 1, 4),
    (clerks(16), 1, 16),
]


def is_no_thread(wanted: Done, done: Done) -> bool:
    return done == fault("no thread")


class TestThreads(Refusals):
    def test_workers(self) -> None:
        """Each number of workers lists what the reference does, over blocks of several lengths, by threads."""
        for text, work in WORK:
            wanted = wrote(reference.inbreeding(text))
            for block, most in work.items():
                for workers in range(1, MOST_WORKERS + 1):
                    words = inbreeding(workers, block)
                    self.expect("workers", wanted, words, text)
                    self.starts(words, text, sum(min(workers, it) - 1 for it in most))

    def test_desks(self) -> None:
        """Each number of desks has a thread a desk."""
        for desks in range(1, MOST_DESKS + 1):
            self.starts(clerks(desks), SMALL, desks)

    def starts(self, words: list[str], text: str, threads: int) -> None:
        """So many threads are started, and no more: there is a last one that can be refused, and none after it."""
        is_there, told = self.refused("thread", words, text, {"REFUSE": "thread"}, threads)
        is_another, _ = self.refused("thread", words, text, {"REFUSE": "thread"}, threads + 1)
        right = told == fault("no thread") if is_there else threads == 0
        self.count(right and not is_another, f"{threads} threads aren't started, or more are: {words}: {told}")

    def test_refused_threads(self) -> None:
        """Each start is refused in turn: there are as many as desks, and in a level one fewer than have work."""
        for words, calves, threads in STARTED:
            # the eight cows have the first ranks, and then come the eight bulls
            text = HEADER + couples(8, 1, calves)
            refused = self.until_none("thread", words, text, {"REFUSE": "thread"}, is_no_thread)
            self.count(refused == threads, f"{refused} threads were started: {words}, {calves} calves of each bull")
