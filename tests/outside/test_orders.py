"""Each order beside the reference: on the sample books, on full sibs, and on no records."""
from __future__ import annotations

import itertools
from fractions import Fraction

import reference
from outside.books import HEADER, SAMPLES, animal, drawn, full_sibs
from outside.runs import Checks, fault, wrote
from outside.session_requests import drawn_commands

MOST_COMMANDS = 1_000_000


class TestOrders(Checks):
    def test_orders(self) -> None:
        for path in SAMPLES:
            self.orders_on(path.name, path.read_text())
        self.orders_on("full sibs", full_sibs(7))
        self.orders_on("no records", HEADER)
        for text in SAMPLES[1].read_text(), full_sibs(7):
            self.inverse_by_table(text)

    def orders_on(self, name: str, text: str) -> None:
        numbers = sorted(reference.filed(text)[0].animals)
        self.expect(name, wrote(reference.replies(text)), ["file"], text)
        for words in "", "--workers 1", "--workers 2 --block 1", "--workers 16 --block 7":
            self.expect(name, wrote(reference.inbreeding(text)), ["inbreeding", *words.split()], text)
        self.expect(name, wrote(reference.inverse(text)), ["inverse"], text)
        for number in numbers:
            self.expect(name, wrote(reference.certificates(text, [number])), ["certificate", number], text)
        self.records_of(name, text, numbers)
        self.matings_of(name, text, numbers)
        self.relationships_of(name, text, numbers)
        everything = ["--base", str(MOST_COMMANDS)]
        for desks in 1, 2, 16:
            wanted = wrote(reference.clerks(text, desks, MOST_COMMANDS))
            self.expect(name, wanted, ["clerks", "--desks", str(desks), *everything], text)
        self.expect(name, wrote(reference.clerks(text, 2, MOST_COMMANDS)), ["clerks", *everything], text)
        self.expect(name, wrote(reference.clerks(text, 1)), ["clerks", "--desks", "1"], text)

    def matings_of(self, name: str, text: str, numbers: list[str]) -> None:
        """Some of the animals, and one that isn't there, each with all."""
        absent = animal("M", 999)
        sires = [*numbers, absent]
        for dam in numbers[:: max(1, len(numbers) // 8)] + [absent]:
            self.expect(name, wrote(reference.mating(text, dam, sires)), ["mating", "--dam", dam, *sires], text)

    def test_relationships_in_drawn_books(self) -> None:
        for seed in range(40):
            text = drawn(seed)
            numbers = sorted(reference.filed(text)[0].animals)
            self.relationships_of(f"drawn by {seed}", text, numbers)

    def test_records_in_drawn_books(self) -> None:
        """Of animals that were sold or left, and from stored embryos."""
        for seed in range(20):
            text = drawn_commands(seed, 200)
            numbers = sorted(reference.filed(text)[0].animals)
            self.records_of(f"drawn by {seed}", text, numbers)

    def records_of(self, name: str, text: str, numbers: list[str]) -> None:
        """Of all, and the records and certificates of some, each in its place, one of them twice."""
        self.expect(name, wrote(reference.records(text, [])), ["records"], text)
        some = [*numbers[-1:], *numbers[:: max(1, len(numbers) // 8)], *numbers[-1:]]
        if some:
            self.expect(name, wrote(reference.records(text, some)), ["records", *some], text)
            self.expect(name, wrote(reference.certificates(text, some)), ["certificate", *some], text)
        # the others are there: nothing is written of them
        for word in "records", "certificate":
            self.expect(name, fault("not registered"), [word, *some, animal("M", 999), *some], text)

    def relationships_of(self, name: str, text: str, numbers: list[str]) -> None:
        """Some of the animals with one another and with all, one that isn't there too, and one of them twice."""
        absent = animal("M", 999)
        some = [*numbers[:: max(1, len(numbers) // 8)], absent, *numbers[-1:]]
        self.expect(name, wrote(reference.relationships(text, some)), ["relationships", *some], text)
        everyone = [absent, *numbers]
        wanted = wrote(reference.relationships(text, some, everyone))
        self.expect(name, wanted, ["relationships", *some, "--with", *everyone], text)

    def inverse_by_table(self, text: str) -> None:
        """What animals add, summed up by row and column and mirrored, times the relationships is the identity."""
        book = reference.filed(text)[0]
        numbers, relationship = list(book.animals), book.relationships()
        inverse = dict.fromkeys(itertools.product(numbers, numbers), Fraction(0))
        for line in self.run(["inverse"], text).out.decode().splitlines():
            _, row, column, value = line.split(",")
            for at in {(row, column), (column, row)}:
                inverse[at] += Fraction(value)

        def product(row: str, column: str) -> Fraction:
            return sum((inverse[row, one] * relationship(one, column) for one in numbers), Fraction(0))

        wrong = [at for at in inverse if product(*at) != (at[0] == at[1])]
        self.count(numbers and not wrong, f"the inverse times the relationships isn't the identity at {wrong[:9]}")
