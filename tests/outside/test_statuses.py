"""The table of statuses: words, numbers, records and input that the program refuses, and what it tells of them."""
from __future__ import annotations

import os

from outside.books import HEADER, SAMPLES, animal, founder
from outside.orders import each_order
from outside.runs import Checks, Words, fault

# words that are no command line, and what is told of them
NO_COMMAND_LINES: list[tuple[list[str], str]] = [
    ([], "Usage: "),
    (["sell"], "'sell'"),
    (["file", "x"], "'x'"),
    (["inbreeding", "--workers", "17"], "'17'"),
    (["inbreeding", "--workers", "0"], "'0'"),
    (["inbreeding", "--block", "0"], "'0'"),
    (["inbreeding", "--block", "16000001"], "'16000001'"),
    (["inbreeding", "--workers", "many"], "'many'"),
    (["certificate"], "<NUMBER>"),
    (["records", "--desks", "1"], "'--desks'"),
    (["sealed"], "<NUMBER>"),
    (["sealed", animal("M", 1), animal("M", 2)], animal("M", 2)),
    (["seal", animal("M", 1)], animal("M", 1)),
    (["check"], "<SEAL>"),
    (["check", "00", "--limit-steps", "9"], "'--limit-steps'"),
    (["mating", "--dam", animal("F", 1)], "<SIRE>"),
    (["mating", animal("M", 1)], "--dam <NUMBER>"),
    (["inverse", "--desks", "1"], "'--desks'"),
    (["relationships"], "<NUMBER>"),
    (["relationships", animal("M", 1), "--with"], "--with"),
    (["clerks", "--desks", "0"], "'0'"),
    (["clerks", "--desks", "17"], "'17'"),
    (["clerks", "--base", "200000001"], "'200000001'"),
    (["clerks", "--base", "-1"], "'-1'"),
    (["pedigree"], "<REPORT>"),
    (["pedigree", "inbreeding", "--workers", "17"], "'17'"),
    (["pedigree", "inbreeding", "--block", "0"], "'0'"),
    (["pedigree", "inverse", "--limit-steps", "9"], "'--limit-steps'"),
    (["session", "--desks", "17"], "'17'"),
    (["session", "--inspectors", "0"], "'0'"),
    (["session", "--inspectors", "17"], "'17'"),
    (["session", "--limit-animals", "16000001"], "'16000001'"),
    (["file", "--limit-animals", "0"], "'0'"),
    (["inverse", "--limit-steps", "200000001"], "'200000001'"),
    (["session", "--limit-steps", "0"], "'0'"),
]

NO_TEXTS: list[Words] = [[b"\xff"], [b"certificate", b"HOLGBRM00000000000\xff"], [b"mating", b"--dam", b"\xc3", b"M"]]

NO_NUMBERS = [
    ("HOLGBRM1", "1 Length"),
    ("", "1 Length"),
    ("HoLGBRM000000000001", "2 Letter"),
    ("HOLGB1M000000000001", "2 Letter"),
    ("HOLGBRX000000000001", "3 SexLetter"),
    ("HOLGBRM00000000000a", "4 NumberCharacter"),
]

GOOD = HEADER + founder(animal("M", 1))
BIRTH = "birth,HOLGBRM000000000002,2000-01-01,0,0,,1"
EMBRYO_HEADER = HEADER.replace("to\n", "to,embryo\n")

# command files, the number of the faulty record, and its fault
FAULTY_FILES = [
    ("", 0, "1 Header"),
    ("kind\n", 0, "1 Header"),
    (GOOD + "birth,HOLGBRM0000", 2, "2 Fields"),
    (GOOD + "sale,HOLGBRM000000000002,,,,,", 2, "3 Kind"),
    (GOOD + BIRTH.replace("M", "X"), 2, "4 Animal"),
    (GOOD + BIRTH.replace("2000-01-01", "2023-02-29"), 2, "5 Day"),
    (GOOD + BIRTH.replace(",0,0,", ",x,0,"), 2, "6 Sire"),
    (GOOD + BIRTH.replace(",0,0,", ",0,x,"), 2, "7 Dam"),
    (GOOD + f"transfer,{animal('M', 1)},2001-01-01,,,0,1", 2, "8 FromHerd"),
    (GOOD + BIRTH + "00000000", 2, "9 ToHerd"),
    (GOOD + f"exit,{animal('M', 1)},2001-01-01,,,,1", 2, "10 FieldNotUsed"),
    (EMBRYO_HEADER + BIRTH + ",x", 1, "14 Embryo"),
]


class TestStatuses(Checks):
    def test_words(self) -> None:
        for words, told in NO_COMMAND_LINES:
            done = self.run(words, HEADER)
            right = done.err.startswith(b"error: ") or not words
            is_told = done.status == 2 and not done.out and right and told.encode() in done.err
            self.count(is_told, f"no command line: {words}: {done}")
        for no_text in NO_TEXTS:
            self.expect("words", fault("a word isn't UTF-8 text", status=2), no_text)

    def test_wrong_numbers(self) -> None:
        right = animal("F", 2)
        for number, told in NO_NUMBERS:
            wanted = fault(f"animal number fault {told}", status=2)
            for word in "certificate", "records":
                self.expect("number", wanted, [word, number], "not read")
                self.expect("number", wanted, [word, right, number, "HOLGBRX000000000001"], "not read")
            self.expect("number", wanted, ["mating", "--dam", right, animal("M", 1), number, "HOLGBRX000000000001"])
            self.expect("number", wanted, ["mating", "--dam", number, "HOLGBRM1"])
            self.expect("number", wanted, ["sealed", number])
            self.expect("number", wanted, ["relationships", right, number, "--with", "HOLGBRX000000000001"])
            self.expect("number", wanted, ["relationships", right, "--with", right, number, "HOLGBRX000000000001"])

    def test_line_faults(self) -> None:
        for text, record, told in FAULTY_FILES:
            answered = "1,accepted\n" if record == 2 else ""
            self.expect("line fault", fault(f"record {record}: fault {told}", answered), ["file"], text)
            for words in each_order()[1:]:
                self.expect("line fault", fault(f"record {record}: fault {told}"), words, text)
        many = HEADER + f"exit,{animal('M', 1)},2000-01-01,,,,\n" * 1_000_001
        answers = "".join(f"{serial},refused,11\n" for serial in range(1, 1_000_001))
        self.expect("too many", fault("record 1000001: fault 12 TooMany", answers), ["file"], many)
        self.expect("too many", fault("record 1000001: fault 12 TooMany"), ["clerks"], many)

    def test_other_statuses(self) -> None:
        text = SAMPLES[1].read_text()
        for word in "certificate", "records", "sealed":
            self.expect("absent", fault("not registered"), [word, animal("M", 9)], text)
        # what can't be read at all
        unread = fault("record 0: fault 11 Read")
        for words in ["file"], ["clerks"]:
            self.expect("a closed input", unread, words, before=lambda: os.close(0))
        folder = os.open(self.room, os.O_RDONLY)
        self.expect("a folder for input", unread, ["file"], folder)
        os.close(folder)
