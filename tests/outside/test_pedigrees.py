"""`pedigree` beside the tabular method, on pedigrees with selfing and animals that are sire and dam; and its faults."""
from __future__ import annotations

import os
import re

import reference
from outside.books import SAMPLES, drawn, full_sibs
from outside.refusals import ALL, Refusals, behind
from outside.runs import Done, fault, wrote
from reference_pedigree import Pedigree, mrode
from reference_pedigree import drawn as drawn_pedigree

HEADER = "sire,dam\n"
INBREEDING = ["pedigree", "inbreeding"]
INVERSE = ["pedigree", "inverse"]
RELATIONSHIPS = ["pedigree", "relationships"]

# no numbers of an earlier record, where there are two
NO_PARENTS = [
    "3", "4", "-1", "+1", "x", "1x", "01", "00", " 1", "1 ", "1.0", "4294967297", "18446744073709551617", "1" * 30
]  # fmt: skip
# no animals of a pedigree of three
NO_ANIMALS = ["0", "4", "+1", "01", "x", "", " 1", "4294967297", "1" * 30]

# files, and their first fault
FAULTY_FILES = [
    ("", 0, "1 Header"),
    ("\n", 0, "1 Header"),
    ("dam,sire\n", 0, "1 Header"),
    ("sire\n", 0, "1 Header"),
    ("sire,dam,\n", 0, "1 Header"),
    ("Sire,dam\n9,9,9\n", 0, "1 Header"),
    (HEADER + "0\n", 1, "5 Fields"),
    (HEADER + "0,0,\n", 1, "5 Fields"),
    (HEADER + "0,0\n9,0,0\n", 2, "5 Fields"),
    (HEADER + "1,0\n", 1, "6 Sire"),
    (HEADER + "0,1\n", 1, "7 Dam"),
    (HEADER + "9,9\n", 1, "6 Sire"),
    (HEADER + "0,0\n0,2\n9,9,9\n", 2, "7 Dam"),
]

# the beginnings of a file, and the record that is being read behind them
BROKEN = [("", 0), ("s", 0), ("sire", 0), (HEADER + "0,0", 1), (HEADER + "0,0\n1,1\n0", 3)]

# the first animal is sire and dam of the second, that of the third, and the third and the first are of the fourth
SELFED = HEADER + ",\n1,1\n2,2\n3,1\n"
OF_SELFED = [
    (INBREEDING, "1,0,0.00\n2,1/2,50.00\n3,3/4,75.00\n4,1/2,50.00\n"),
    ([*INBREEDING, "--workers", "2", "--block", "1"], "1,0,0.00\n2,1/2,50.00\n3,3/4,75.00\n4,1/2,50.00\n"),
    (
        INVERSE,
        "1,1,1,1\n2,2,2,2\n2,2,1,-2\n2,1,1,2\n3,3,3,4\n3,3,2,-4\n3,2,2,4\n"
        "4,4,4,16/5\n4,4,3,-8/5\n4,4,1,-8/5\n4,3,3,4/5\n4,1,1,4/5\n4,3,1,4/5\n",
    ),
    ([*RELATIONSHIPS, "2", "4", "--with", "1", "4"], "2,1,1\n2,4,5/4\n4,1,1\n4,4,3/2\n"),
    (
        [*RELATIONSHIPS, "3", "4", "--units"],
        "3,3,2326148992623602777581662355490603008\n"
        "3,4,1827688494204259325242734707885473792\n"
        "4,4,1993841993677373809355710590420516864\n",
    ),
]

# words that no report takes, and that are refused before anything is read
MISPLACED: list[list[str]] = [
    ["inbred"],
    ["inbreeding", "1"],
    ["inbreeding", "--with", "1"],
    ["inverse", "--units"],
    ["inverse", "--workers", "1"],
    ["inverse", "--block", "256"],
    ["inverse", "1"],
    ["inverse", "--with", "1"],
    ["relationships"],
    ["relationships", "--with", "1"],
    ["relationships", "1", "--workers", "1"],
    ["relationships", "1", "--block", "256"],
]


# reports of which one starts threads
REPORTS = [INBREEDING, [*INBREEDING, "--workers", "3", "--block", "1"], INVERSE, [*RELATIONSHIPS, "9", "10"]]


def chain(steps: int) -> str:
    """A path of so many steps."""
    return HEADER + "".join(f"{number},0\n" for number in range(steps + 1))


class TestPedigrees(Refusals):
    def test_drawn_pedigrees(self) -> None:
        for seed in range(300):
            self.reports_of(f"drawn by {seed}", drawn_pedigree(seed))

    def reports_of(self, name: str, pedigree: Pedigree) -> None:
        text, count = pedigree.text(), len(pedigree.parents)
        workers = ["--workers", str(count % 3 + 1), "--block", str(count % 5 + 1)]
        self.expect(name, wrote(pedigree.inbreeding()), [*INBREEDING, *workers], text)
        self.expect(name, wrote(pedigree.inbreeding(in_units=True)), [*INBREEDING, "--units"], text)
        found = self.run(INVERSE, text)
        self.count(found == wrote(pedigree.inverse()), f"{name}: {INVERSE}: {found}")
        self.count(pedigree.is_inverse(found.out.decode()), f"{name}: the inverse times A isn't the unit matrix")
        some, all_of = [*range(1, count + 1, 7), count], [*range(1, count + 1)]
        words = [*RELATIONSHIPS, *map(str, some)]
        self.expect(name, wrote(pedigree.relationships_of(some)), words, text)
        wanted = wrote(pedigree.relationships_of(some, all_of, in_units=True))
        self.expect(name, wanted, [*words, "--units", "--with", *map(str, all_of)], text)

    def test_mrode(self) -> None:
        """The coefficients and some relationships that the book prints."""
        text = mrode().text()
        self.reports_of("Mrode", mrode())
        zeros = "".join(f"{number},0,0.00\n" for number in range(1, 5))
        self.expect("Mrode", wrote(zeros + "5,1/8,12.50\n6,1/8,12.50\n"), INBREEDING, text)
        pairs = wrote("6,1,1/4\n6,2,5/8\n6,3,9/16\n6,4,5/16\n6,5,11/16\n6,6,9/8\n")
        self.expect("Mrode", pairs, [*RELATIONSHIPS, "6", "--with", "1", "2", "3", "4", "5", "6"], text)
        self.expect("no animals", wrote(""), INBREEDING, HEADER)
        self.expect("no animals", wrote(""), INVERSE, HEADER)

    def test_selfed(self) -> None:
        for words, answer in OF_SELFED:
            self.expect("selfed", wrote(answer), words, SELFED)

    def test_forms(self) -> None:
        """A byte order mark, both line ends, a blank line, both forms of unknown parents, quotes, no last line end."""
        text = b'\xef\xbb\xbfsire,dam\r\n,0\r\n\r\n1,1\n"2",\n0,3'
        pedigree, everyone = Pedigree(((None, None), (0, 0), (1, None), (None, 2))), range(1, 5)
        wanted = wrote(pedigree.relationships_of(everyone))
        self.expect("forms", wanted, [*RELATIONSHIPS, *map(str, everyone)], text)

    def test_books(self) -> None:
        """The animals of a book, by age, have the coefficients that they have as a pedigree."""
        for text in [*(path.read_text() for path in SAMPLES), full_sibs(7), *map(drawn, range(40))]:
            book = reference.filed(text)[0]
            places = {number: place for place, number in enumerate(book.by_age())}
            animals = [book.animals[number] for number in places]
            parents = tuple((places.get(it.sire or ""), places.get(it.dam or "")) for it in animals)
            listed = self.run(["inbreeding"], text).out.decode().splitlines()
            values = [line.partition(",")[2] for line in listed]
            wanted = wrote("".join(f"{number},{value}\n" for number, value in enumerate(values, 1)))
            self.expect("a book as a pedigree", wanted, INBREEDING, Pedigree(parents).text())

    def test_faults(self) -> None:
        for text, record, cause in FAULTY_FILES:
            self.refused_by_each(text, f"record {record}: fault {cause}")
        for parent in NO_PARENTS:
            self.refused_by_each(f"{HEADER}0,0\n1,\n{parent},{parent}\n", "record 3: fault 6 Sire")
            self.refused_by_each(f"{HEADER}0,0\n1,\n,{parent}\n", "record 3: fault 7 Dam")
        self.refused_by_each(chain(61), "record 62: fault 8 TooDeep")
        self.refused_by_each(chain(61) + "99,99\n", "record 62: fault 8 TooDeep")
        self.expect("60 steps", wrote("".join(f"{one},0,0.00\n" for one in range(1, 62))), INBREEDING, chain(60))
        folder = os.open(self.room, os.O_RDONLY)
        self.expect("a folder", fault("record 0: fault 2 Read"), INBREEDING, folder)
        os.close(folder)

    def test_refused_growths(self) -> None:
        """A growth that is refused is told: of the record that is being read, or as want of memory or of a thread."""
        text = HEADER + "0,0\n0,0\n1,2\n1,1\n" + "".join(f"{sire},{sire + 1}\n" for sire in range(3, 40))
        for words in REPORTS:
            for last in 0, ALL:
                told: set[str] = set()

                def is_told(wanted: Done, done: Done, told: set[str] = told) -> bool:
                    fault_of = re.fullmatch(
                        rb"herdbook: (?:record \d+: )?(fault 3 Memory|no memory|no thread)\n", done.err
                    )
                    told.add(fault_of[1].decode() if fault_of else "")
                    return done == wanted or (fault_of is not None and done.status == 1 and not done.out)

                refuse = {"REFUSE": "growth"} | ({"REFUSE_LAST": ALL} if last else {})
                self.until_none("growth", words, text, refuse, is_told)
                self.count({"fault 3 Memory", "no memory"} <= told, f"{words}: only {told} were told")

    def test_where_reading_breaks(self) -> None:
        """The last record that is not yet whole is the one that is told."""
        for text, record in BROKEN:
            for words in REPORTS:
                self.expect("broken", fault(f"record {record}: fault 2 Read"), words, text, refuse=behind(text))

    def refused_by_each(self, text: str, told: str) -> None:
        """A fault of the file comes before all else, and nothing is written."""
        for words in INBREEDING, INVERSE, [*RELATIONSHIPS, "1", "--with", "x"]:
            self.expect("a faulty file", fault(told), words, text)

    def test_limits(self) -> None:
        """One animal too many is told before its fields are."""
        three = HEADER + "0,0\n1,1\n2,2,2\n"
        self.expect("too many", fault("record 3: fault 4 TooMany"), [*INBREEDING, "--limit-animals", "2"], three)
        many = HEADER + ",\n" * 60_001
        self.expect("too many", fault("record 60001: fault 4 TooMany"), INBREEDING, many)
        done = self.run([*INBREEDING, "--units", "--limit-animals", "60001"], many)
        self.count(done == wrote("".join(f"{one},0\n" for one in range(1, 60_002))), f"a raised limit: {done}")

    def test_absent_animals(self) -> None:
        for name in NO_ANIMALS:
            for words in ["1", name], [name], ["3", "--with", "2", name]:
                self.expect("absent", fault("not registered"), [*RELATIONSHIPS, *words], f"{HEADER}0,0\n,\n1,2\n")

    def test_misplaced_words(self) -> None:
        for words in MISPLACED:
            done = self.run(["pedigree", *words], "no file at all")
            self.count(done.status == 2 and not done.out and b"pedigree" in done.err, f"misplaced: {words}: {done}")
