"""The check of a certificate under a seal: what `sealed` prints is accepted, and anything else is refused."""
from __future__ import annotations

import reference
import reference_seal
from outside.books import SAMPLES, drawn, full_sibs
from outside.runs import Checks, Done, Given, fault, wrote
from outside.test_seals import CERTIFICATE, SEAL

LINES = CERTIFICATE.splitlines(keepends=True)
HEAD, FIRST, SECOND, ANIMAL, ONE, TWO = LINES
ACCEPTED = """\
accepted,HOLDEUF000000000004,0,0.00,9,7
HOLDEUM000000000001,2001-01-01,0,0,1,2001-01-01,-,
HOLDEUF000000000002,2001-01-02,0,0,1,2001-01-02,-,
HOLDEUF000000000004,2003-01-02,HOLDEUM000000000001,HOLDEUF000000000002,2,2004-05-06,2009-09-09,
"""
STRANGER = "5,,,HOLDEUM000000000006,2006-01-01,0,0,99999999,2006-01-01,-,\n"

# texts that are no certificate under the seal, and the fault and the line that are told
REFUSED: list[tuple[str, str, int]] = [
    ("", "Header", 1),
    (CERTIFICATE[:-1], "Digests", 6),
    (CERTIFICATE + "\n", "Digests", 7),
    (CERTIFICATE + "more\n", "Digests", 7),
    (CERTIFICATE.replace("\n", "\r\n"), "Row", 2),
    (CERTIFICATE.replace("certificate-1", "certificate-2"), "Header", 1),
    (CERTIFICATE.replace(SEAL, SEAL.upper()), "Header", 1),
    (CERTIFICATE.replace(",9,7,3,", ",09,7,3,"), "Header", 1),
    (CERTIFICATE.replace(",9,7,3,", ",9,7,,"), "Header", 1),
    (CERTIFICATE.replace("\n0,,,", "\n00,,,"), "Row", 2),
    (CERTIFICATE.replace("\n1,,,", "\n1,,x,"), "Row", 3),
    (CERTIFICATE.replace("2003-01-02", "2003-02-29"), "Row", 4),
    (HEAD + FIRST + SECOND + ANIMAL + STRANGER + ONE + TWO, "Row", 5),
    (HEAD + FIRST + SECOND + ANIMAL + ONE.upper() + TWO, "Digests", 5),
    (HEAD + FIRST + SECOND + ANIMAL + ONE, "Digests", 1),
    (CERTIFICATE + TWO, "Digests", 1),
    (CERTIFICATE.replace("\n3,", "\n7,").replace(",9,7,3,", ",9,7,7,"), "Digests", 1),
    (HEAD + SECOND + FIRST + ANIMAL + ONE + TWO, "Order", 3),
    (HEAD + FIRST + FIRST + SECOND + ANIMAL + ONE + TWO, "Order", 3),
    (HEAD + FIRST + ANIMAL + ONE + TWO, "ParentLacks", 3),
    (CERTIFICATE.replace("3,0,1,", "3,,1,"), "ParentLacks", 4),
    (CERTIFICATE.replace("\n0,,,", "\n0,2,,"), "ParentLacks", 2),
    (CERTIFICATE.replace("01-02,HOLDEUM000000000001", "01-02,HOLDEUM000000000003"), "ParentNumber", 4),
    (CERTIFICATE.replace(",3,HOLDEUF000000000004", ",3,HOLDEUF000000000002"), "Number", 1),
    (CERTIFICATE.replace(",9,7,3,", ",9,7,2,"), "Number", 1),
    (CERTIFICATE.replace(",9,7,3,", ",8,7,3,"), "Seal", 1),
    (CERTIFICATE.replace("2009-09-09", "2009-09-10"), "Seal", 1),
    (HEAD + FIRST + SECOND + ANIMAL + TWO + ONE, "Seal", 1),
    (CERTIFICATE.replace(SEAL, SEAL[:-1] + "3"), "Seal", 1),
    (CERTIFICATE.replace(",0,0.00", ",1/4,25.00"), "Coefficient", 1),
    (CERTIFICATE.replace(",0,0.00", ",0,0.01"), "Coefficient", 1),
]


def refused(name: str, line: int) -> Done:
    return wrote(f"refused,{name},{line}\n", status=3)


def deep(steps: int) -> str:
    """A certificate of an animal from which so many steps lead to its oldest ancestor, under no book's seal."""
    numbers = [f"HOLDEUM{place:012}" for place in range(steps + 1)]
    sires = ["0", *numbers]
    rows = [
        f"{place},{place - 1 if place else ''},,{number},2001-01-01,{sires[place]},0,1,2001-01-01,-,\n"
        for place, number in enumerate(numbers)
    ]
    return f"herdbook-certificate-1,{SEAL},9,{steps + 1},{steps},{numbers[-1]},0,0.00\n" + "".join(rows)


class TestChecks(Checks):
    def test_accepted(self) -> None:
        self.expect("seven rows", wrote(ACCEPTED), ["check", SEAL], CERTIFICATE)
        self.expect("an upper-case seal", wrote(ACCEPTED), ["check", SEAL.upper()], CERTIFICATE)
        for path in SAMPLES:
            self.checks_of(path.name, path.read_text(), 5)
        self.checks_of("full sibs", full_sibs(7), 3)
        for seed in range(5):
            self.checks_of(f"births drawn by {seed}", drawn(seed), 11)

    def checks_of(self, name: str, text: str, every: int) -> None:
        """What `sealed` prints of the first animal and of others as far apart is accepted under the book's seal."""
        book, _ = reference.filed(text)
        records = reference.records_of(book, []).splitlines()
        seal, steps, animals = self.run(["seal"], text).out.decode().strip().split(",")
        rows = reference_seal.rows_of(records)
        for line in reference.inbreeding_of(book).splitlines()[::every]:
            number, coefficient = line.split(",", 1)
            place = [record.split(",")[0] for record in records].index(number)
            shown = "".join(f"{records[one]}\n" for one in reference_seal.with_ancestors(rows, place))
            certificate = self.run(["sealed", number], text).out
            wanted = wrote(f"accepted,{number},{coefficient},{steps},{animals}\n{shown}")
            self.expect(name, wanted, ["check", seal], certificate)

    def test_refused(self) -> None:
        for text, name, line in REFUSED:
            self.expect(text, refused(name, line), ["check", SEAL], text)
        self.expect("another seal", refused("Seal", 1), ["check", "0" * 64], CERTIFICATE)
        self.expect("60 steps", refused("Seal", 1), ["check", SEAL], deep(60))
        self.expect("61 steps", refused("TooDeep", 63), ["check", SEAL], deep(61))
        for seal in "", "00", SEAL[:-1], SEAL + "0", SEAL[:-1] + "g":
            self.expect("no seal", fault("a seal has 64 hexadecimal digits", status=2), ["check", seal], CERTIFICATE)

    def test_each_byte(self) -> None:
        """No other byte at any place is accepted."""
        text = CERTIFICATE.encode()
        for place in range(len(text)):
            other = text[:place] + bytes([text[place] ^ 1]) + text[place + 1 :]
            done = self.run(["check", SEAL], other)
            is_refused = done.status == 3 and done.out.startswith(b"refused,") and done.out.count(b"\n") == 1
            self.count(is_refused, f"byte {place}: {done}")

    def test_large(self) -> None:
        large: list[tuple[Given, str]] = [("0" * 67_108_864, "Header"), ("0" * 67_108_865, "TooMany")]
        for given, name in large:
            self.expect("zeros", refused(name, int(name == "Header")), ["check", SEAL], given)
