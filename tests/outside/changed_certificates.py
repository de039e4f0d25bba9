"""Certificates that were changed, each in one way that is drawn, with the faults that a check may find then."""
from __future__ import annotations

import random
from collections.abc import Iterator

import reference
import reference_seal

READING = ["Header", "Row", "Digests"]
ROWS = ["Order", "ParentLacks", "ParentNumber", "Number"]
# a certificate's header, its rows, and its digests
Parts = tuple[list[str], list[str], list[str]]


class Changes:
    """A book's certificates, and changes of them."""

    def __init__(self, text: str, seed: int) -> None:
        book, answers = reference.filed(text)
        self.draw = random.Random(seed)
        self.steps = len(answers)
        self.records = reference.records_of(book, []).splitlines()
        self.rows = reference_seal.rows_of(self.records)
        self.leaves = reference_seal.leaves_of(self.rows)
        lines = reference.inbreeding_of(book).splitlines()
        self.coefficients = dict(line.split(",", 1) for line in lines)
        self.seal = reference_seal.seal_of(self.rows, self.steps).hex()

    def certificate(self, number: str) -> str:
        return reference_seal.sealed(self.records, self.steps, number, self.coefficients[number])

    def __call__(self, number: str) -> Iterator[tuple[str, str, list[str]]]:
        """The certificate of a number in each way changed that there is: how, the text, and the faults."""
        whole = self.certificate(number)
        lines = whole.splitlines()
        rows = [line for line in lines[1:] if "," in line]
        parts = lines[0].split(","), rows, lines[1 + len(rows) :]
        for change in self.of_text, self.of_header, self.of_rows, self.of_more_rows, self.of_digests:
            for how, text, faults in change(whole, parts):
                if text != whole:
                    yield how, text, faults

    def of_text(self, whole: str, parts: Parts) -> Iterator[tuple[str, str, list[str]]]:
        at = self.draw.randrange(len(whole))
        other = chr(self.draw.randrange(256))
        yield "a byte", whole[:at] + other + whole[at + 1 :], [*READING, *ROWS, "TooDeep", "Seal", "Coefficient"]
        yield "cut", whole[:at], [*READING, *ROWS, "Seal"]
        yield "text behind", whole + self.draw.choice(["\n", " ", "x\n", "\0"]), ["Digests"]
        yield "lines of another end", whole.replace("\n", "\r\n"), ["Header", "Row", "Digests", "Coefficient"]

    def of_header(self, whole: str, parts: Parts) -> Iterator[tuple[str, str, list[str]]]:
        header, rows, digests = parts
        kind, seal, steps, animals, place, number, fraction, percentage = header

        def headed(*fields: str) -> str:
            return joined(list(fields), rows, digests)

        others = [it for it in self.coefficients if it != number]
        other = self.draw.choice(others) if others else number
        yield "another kind", headed("herdbook-certificate-2", *header[1:]), ["Header"]
        yield "another seal", headed(kind, self.leaves[0].hex(), *header[2:]), ["Seal"]
        yield "capitals", headed(kind, seal.upper(), *header[2:]), ["Header"]
        yield "other steps", headed(kind, seal, str(int(steps) + 1), *header[3:]), ["Seal"]
        yield "a zero before steps", headed(kind, seal, "0" + steps, *header[3:]), ["Header"]
        yield "more animals", headed(kind, seal, steps, str(int(animals) + 1), *header[4:]), ["Digests", "Seal"]
        yield "another place", headed(*header[:4], str(int(place) + 1), *header[5:]), ["Number"]
        yield "another number", headed(*header[:5], other, fraction, percentage), ["Number"]
        yield "another animal's coefficient", headed(*header[:6], self.coefficients[other]), ["Coefficient"]
        yield "another percentage", headed(*header[:7], "99.99"), ["Coefficient"]

    def of_rows(self, whole: str, parts: Parts) -> Iterator[tuple[str, str, list[str]]]:
        header, rows, digests = parts
        at = self.draw.randrange(len(rows))
        fields = rows[at].split(",")
        changed: list[tuple[str, list[str], list[str]]] = [
            ("a row left out", rows[:at] + rows[at + 1 :], ["ParentLacks", "Number"]),
            ("a row twice", rows[: at + 1] + rows[at:], ["Order"]),
            ("a later herd", [*rows[:at], self.with_field(fields, 7, "77"), *rows[at + 1 :]], ["Seal"]),
            ("a zero before a place", [*rows[:at], "0" + rows[at], *rows[at + 1 :]], ["Row"]),
        ]
        if at:
            exchanged = [*rows[: at - 1], rows[at], rows[at - 1], *rows[at + 1 :]]
            changed.append(("two rows exchanged", exchanged, ["Order"]))
        for parent in 1, 2:
            if fields[parent]:
                place_alone = self.with_field(fields, parent, "")
                unknown = self.with_field(place_alone.split(","), parent + 4, "0")
                changed += [
                    ("a parent's place lost", [*rows[:at], place_alone, *rows[at + 1 :]], ["ParentLacks"]),
                    ("an unknown parent", [*rows[:at], unknown, *rows[at + 1 :]], ["Row", "Seal"]),
                ]
                if fields[3 - parent]:
                    other = self.with_field(fields, parent, fields[3 - parent])
                    changed.append(("the other parent's place", [*rows[:at], other, *rows[at + 1 :]], ["ParentNumber"]))
        for how, others, faults in changed:
            yield how, joined(header, others, digests), faults

    def of_more_rows(self, whole: str, parts: Parts) -> Iterator[tuple[str, str, list[str]]]:
        """One animal more, which is no ancestor, with digests that fit. The certificate has no older one of it."""
        header, rows, _ = parts
        shown = [int(row.split(",")[0]) for row in rows]
        more = [it for it in range(len(self.rows)) if it not in shown]
        if more:
            places = sorted({*shown, *reference_seal.with_ancestors(self.rows, self.draw.choice(more))})
            wider = [f"{place},{self.rows[place]}" for place in places]
            digests = [it.hex() for it in reference_seal.beside(self.leaves, 0, places)]
            yield "a row too many", joined(header, wider, digests), ["Row"]

    def of_digests(self, whole: str, parts: Parts) -> Iterator[tuple[str, str, list[str]]]:
        header, rows, digests = parts
        other = self.certificate(self.draw.choice(list(self.coefficients))).splitlines()
        others = [line for line in other[1:] if "," not in line]
        yield "digests of another", joined(header, rows, others), ["Digests", "Seal"]
        yield "a digest too many", joined(header, rows, [*digests, self.seal]), ["Digests"]
        yield "no digests", joined(header, rows, []), ["Digests"]
        if digests:
            yield "capitals in a digest", joined(header, rows, [digests[0].upper(), *digests[1:]]), ["Digests"]
            yield "digests turned", joined(header, rows, digests[::-1]), ["Seal"]
            yield "a row's digest", joined(header, rows, [self.leaves[0].hex(), *digests[1:]]), ["Seal"]

    def with_field(self, fields: list[str], at: int, value: str) -> str:
        return ",".join([*fields[:at], value, *fields[at + 1 :]])


def joined(header: list[str], rows: list[str], digests: list[str]) -> str:
    return "".join(f"{line}\n" for line in [",".join(header), *rows, *digests])
