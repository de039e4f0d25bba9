"""Each read of standard input is refused in turn."""
from __future__ import annotations

from outside.orders import each_order
from outside.refusals import Refusals, is_fault
from outside.runs import Done, Words
from outside.small import SMALL

# words that ask for no book
WITHOUT_BOOK: list[Words] = [
    ["--help"],
    ["mating", "--help"],
    ["--version"],
    ["sell"],
    ["certificate", "M"],
    [b"\xff"],
]


class TestReads(Refusals):
    def test_refused_reads(self) -> None:
        for words in each_order():
            self.refused_reads_of(words)
        for without in WITHOUT_BOOK:
            asked = self.until_none("read", without, SMALL, {"REFUSE": "read"}, lambda wanted, done: False)
            self.count(asked == 0, f"a book was read for words that ask for none: {without}")

    def refused_reads_of(self, words: list[str]) -> None:
        def is_told(wanted: Done, done: Done) -> bool:
            return is_fault(words[0], wanted, done, [r"record (\d+): fault 11 Read"])

        refused = self.until_none("read", words, SMALL, {"REFUSE": "read"}, is_told)
        self.count(refused, f"no read was refused: {words}")
