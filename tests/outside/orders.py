"""Each order as it is run on the small book."""
from __future__ import annotations

from outside.books import animal

ONE_CLERK = ["clerks", "--desks", "1"]
# one block in each level
WIDEST_BLOCK = ["inbreeding", "--workers", "3", "--block", "16000000"]


def each_order() -> list[list[str]]:
    return [
        ["file"],
        ["inbreeding"],
        ["inbreeding", "--workers", "3", "--block", "1"],
        ["certificate", animal("M", 7), animal("F", 8)],
        ["mating", "--dam", animal("F", 6), animal("M", 5), animal("F", 8), animal("M", 7)],
        ["inverse"],
        ["relationships", animal("M", 7), animal("F", 8), animal("M", 999)],
        ["relationships", animal("M", 7), animal("F", 6), "--with", animal("M", 21), animal("F", 8), animal("F", 999)],
        ["records"],
        ["records", animal("M", 7), animal("M", 1), animal("M", 7)],
        ["seal"],
        ["sealed", animal("M", 7)],
        ONE_CLERK,
        ["clerks", "--desks", "3", "--base", "44"],
    ]


def long_orders(dam: str, sires: list[str]) -> list[list[str]]:
    """The orders whose texts have a line for each command, animal, sire or pair."""
    pairs = ["relationships", dam, "--with", *sires]
    return [["file"], ["inbreeding"], ["inverse"], ["mating", "--dam", dam, *sires], pairs, ["records"]]


def order_names() -> list[str]:
    """The orders, as help lists them."""
    of_books = [*dict.fromkeys(words[0] for words in each_order())]
    return [*of_books[:-1], "check", "pedigree", of_books[-1], "session"]
