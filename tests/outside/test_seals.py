"""The seal of a book, and certificates under it, beside what `hashlib` makes of the records."""
from __future__ import annotations

import reference
import reference_seal
from outside.books import HEADER, SAMPLES, animal, drawn, full_sibs
from outside.runs import Checks, fault, wrote
from outside.session_requests import drawn_commands

# nine commands, and the rows that they make
SEVEN = """\
kind,animal,day,sire,dam,from,to,embryo
birth,HOLDEUM000000000001,2001-01-01,0,0,,1,
birth,HOLDEUF000000000002,2001-01-02,0,0,,1,
birth,HOLDEUM000000000003,2003-01-01,HOLDEUM000000000001,HOLDEUF000000000002,,1,
birth,HOLDEUF000000000004,2003-01-02,HOLDEUM000000000001,HOLDEUF000000000002,,1,
birth,HOLDEUF000000000005,2005-01-01,HOLDEUM000000000003,HOLDEUF000000000004,,1,1
birth,HOLDEUM000000000006,2006-01-01,0,0,,99999999,
birth,HOLDEUM000000000007,2007-01-01,HOLDEUM000000000003,HOLDEUF000000000005,,1,
transfer,HOLDEUF000000000004,2004-05-06,,,1,2,
exit,HOLDEUF000000000004,2009-09-09,,,,,
"""
SEAL = "430e00601ea78a6baabfa1a67c9dbb74a2bd64d33e60e6c7735507585c5137b2"
CERTIFICATE = f"""\
herdbook-certificate-1,{SEAL},9,7,3,HOLDEUF000000000004,0,0.00
0,,,HOLDEUM000000000001,2001-01-01,0,0,1,2001-01-01,-,
1,,,HOLDEUF000000000002,2001-01-02,0,0,1,2001-01-02,-,
3,0,1,HOLDEUF000000000004,2003-01-02,HOLDEUM000000000001,HOLDEUF000000000002,2,2004-05-06,2009-09-09,
260d040842111f46d22fa68dbeba2459c5896d1dabf67f663f9ff8fe82b9fc51
7394d77f33cbb0d9ca6ba375997cf5f6349edc5992f298fce0d5ae7176184cc9
"""


class TestSeals(Checks):
    def test_seven_rows(self) -> None:
        self.expect("the seal", wrote(f"{SEAL},9,7\n"), ["seal"], SEVEN)
        self.expect("a certificate", wrote(CERTIFICATE), ["sealed", "HOLDEUF000000000004"], SEVEN)
        self.seals_of("seven rows", SEVEN, 1)

    def test_books(self) -> None:
        for path in SAMPLES:
            self.seals_of(path.name, path.read_text(), 5)
        self.seals_of("full sibs", full_sibs(7), 3)
        self.seals_of("no records", HEADER, 1)
        for seed in range(10):
            self.seals_of(f"commands drawn by {seed}", drawn_commands(seed, 200), 7)
            self.seals_of(f"births drawn by {seed}", drawn(seed), 11)

    def seals_of(self, name: str, text: str, every: int) -> None:
        """The seal, certificates of the first animal and of others as far apart, and none of one that isn't there."""
        book, answers = reference.filed(text)
        records = reference.records_of(book, []).splitlines()
        coefficients = dict(line.split(",", 1) for line in reference.inbreeding_of(book).splitlines())
        self.expect(name, wrote(reference_seal.seal(records, len(answers))), ["seal"], text)
        for number in list(coefficients)[::every]:
            wanted = reference_seal.sealed(records, len(answers), number, coefficients[number])
            self.expect(name, wrote(wanted), ["sealed", number], text)
        self.expect(name, fault("not registered"), ["sealed", animal("M", 999)], text)
