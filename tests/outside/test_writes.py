"""Writes that fail: to a full disk, a closed pipe or output, and each write refused in turn."""
from __future__ import annotations

import os
from collections.abc import Callable
from typing import IO

from outside.books import animal, founder, males
from outside.orders import each_order, long_orders
from outside.refusals import ALL, Refusals, is_fault
from outside.runs import Done, Words, fault, wrote
from outside.small import SMALL

# the bytes of a part, in which long texts are written
PART = 65_536

# words and what is read, of which nothing or little is written and something is told
TOLD: list[tuple[Words, str]] = [
    (["sell"], ""),
    (["certificate", "M"], ""),
    (["file"], ""),
    (["certificate", animal("M", 9)], SMALL),
    ([b"\xff"], ""),
]


class TestWrites(Refusals):
    def test_failing_writes(self) -> None:
        with open("/dev/full", "wb") as full:
            for words in [*each_order(), ["--help"], ["mating", "--help"], ["--version"]]:
                self.failing_output(words, full)
            for told, given in TOLD:
                self.failing_error(told, given, full)

    def failing_output(self, words: list[str], full: IO[bytes]) -> None:
        self.expect("a full disk", fault("write fault"), words, SMALL, out=full)
        wanted = self.run(words, SMALL)
        unheard = self.run(words, SMALL, err=full)
        self.count(is_same(wanted, unheard), f"standard error full: {words}: {unheard}")
        reader, writer = os.pipe()
        os.close(reader)
        self.expect("a closed pipe", fault("write fault"), words, SMALL, out=writer)
        os.close(writer)
        self.expect("a closed output", fault("write fault"), words, SMALL, before=lambda: os.close(1))

    def failing_error(self, words: Words, given: str, full: IO[bytes]) -> None:
        """Standard error that is full or closed changes nothing else."""
        wanted = self.run(words, given)
        for unheard in self.run(words, given, err=full), self.run(words, given, before=lambda: os.close(2)):
            self.count(is_same(wanted, unheard), f"standard error not writable: {words}: {unheard}")
        both = self.run(words, given, out=full, err=full)
        self.count(both.status == wanted.status or wanted.out, f"nothing writable: {words}: {both}")

    def test_refused_writes(self) -> None:
        for words in [*each_order(), ["--help"]]:
            refused = self.until_none("write", words, SMALL, {"REFUSE": "write"}, is_write_fault(words[0]))
            self.count(refused, f"no write was refused: {words}")
            nothing = {"REFUSE": "write", "REFUSE_AS": 0}
            self.until_none("write of nothing", words, SMALL, nothing, is_write_fault(words[0]))
            every = {"REFUSE": "write", "REFUSE_NTH": 1, "REFUSE_LAST": ALL, "REFUSE_AS": 1}
            self.expect("a byte a write", self.run(words, SMALL), words, SMALL, refuse=every)
        for words in ["sell"], ["certificate", "M"], ["certificate", animal("M", 9)]:
            told = self.until_none("told", words, SMALL, {"REFUSE": "told"}, is_same)
            self.count(told, f"nothing was told: {words}")

    def test_long_texts(self) -> None:
        """A text of several parts is written part by part; where a write is refused, the parts before it are there."""
        text = males(12_000) + founder(animal("F", 1))
        sires = [animal("M", one) for one in range(1, 5_001)]
        for words in long_orders(animal("F", 1), sires):
            self.long_text(words, text)

    def long_text(self, words: list[str], text: str) -> None:
        lengths: list[int] = []

        def is_front(wanted: Done, done: Done) -> bool:
            lengths.append(len(done.out))
            return done == wrote(wanted.out[: len(done.out)].decode(), "herdbook: write fault\n", 1)

        self.until_none("part", words, text, {"REFUSE": "write"}, is_front)
        # where the parts begin, and the end
        bounds = [*lengths, len(self.run(words, text).out)]
        sizes = [after - before for before, after in zip(bounds, bounds[1:])]
        is_long = bounds[0] == 0 and len(sizes) > 2 and all(PART <= size < 2 * PART for size in sizes[:-1])
        self.count(is_long and 0 < sizes[-1] < 2 * PART, f"parts: {words[:3]}: {bounds}")


def is_write_fault(order: str) -> Callable[[Done, Done], bool]:
    return lambda wanted, done: is_fault(order, wanted, done, ["write fault"])


def is_same(wanted: Done, done: Done) -> bool:
    """The status and the output are the same, whatever was told."""
    return (done.status, done.out) == (wanted.status, wanted.out)
