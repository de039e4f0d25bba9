"""The system itself refuses memory."""
from __future__ import annotations

import signal

from outside.orders import each_order
from outside.refusals import Refusals, is_fault, want_of_memory
from outside.runs import wrote
from outside.small import SMALL

# no order takes so many kilobytes of stack more than the version
STACK = 250
# each order has room enough in so many
MOST_ROOM = 40_000


class TestMemory(Refusals):
    def test_little_memory(self) -> None:
        """From the least room in which the version is told, each end is the full answer or a text that may come.

        In the first of that room the stack may find none, and then nothing is written: no call can be told of that.
        Once an order has found it, it finds it in more room too.
        """
        version = self.run(["--version"])
        rooms = range(1_000, MOST_ROOM, 20)
        least = next((room for room in rooms if self.run(["--version"], kilobytes=room) == version), None)
        self.count(least, "the version is told in no room below 40 MB")
        if least:
            for words in each_order():
                self.more_and_more(words, least)

    def more_and_more(self, words: list[str], least: int) -> None:
        wanted, has_stack = self.run(words, SMALL), False
        for more in [*range(0, 2 * STACK, 20), *range(2 * STACK, MOST_ROOM, 500)]:
            done = self.run(words, SMALL, kilobytes=least + more)
            right = done == wanted or is_fault(words[0], wanted, done, want_of_memory(words))
            has_stack |= right
            no_stack = not has_stack and more < STACK and done == wrote("", status=-signal.SIGSEGV)
            self.count(right or no_stack, f"{least + more} kB: {words}: {done}")
        self.expect("400 MB", wanted, words, SMALL, kilobytes=400_000)
