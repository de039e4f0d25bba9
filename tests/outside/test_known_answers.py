"""Each order on command files whose answers are known."""
from __future__ import annotations

import re

from outside.books import animal, full_sibs
from outside.known_answers import (
    ANSWERS,
    CONTRIBUTIONS,
    FIRST_RECORDS,
    PLAIN,
    REPLIES,
    SECOND_RECORDS,
    SESSIONS,
    WITH_EMBRYO,
)
from outside.refusals import behind
from outside.runs import Checks, fault, wrote

FOUNDER = """\
animal M1
sex male
born 2000-01-01
herd 1
since 2000-01-01
left -
inbreeding 0 0.00
S 0
D 0
SS 0
SD 0
DS 0
DD 0
SSS 0
SSD 0
SDS 0
SDD 0
DSS 0
DSD 0
DDS 0
DDD 0
"""
OLDER = "birth,{0},1990-01-01,0,0,,1\nparents,M1,,{0},0,,\n"
# full sibs for five generations
FIVE_GENERATIONS = """\
F2,0,0.00
M1,0,0.00
F4,0,0.00
M3,0,0.00
F6,1/4,25.00
M5,1/4,25.00
F8,3/8,37.50
M7,3/8,37.50
F10,1/2,50.00
M9,1/2,50.00
"""


def full(text: str) -> str:
    """A text with whole numbers in place of short ones."""
    return re.sub(r"\b([MF])(\d+)\b", lambda it: animal(it[1], int(it[2])), text)


class TestKnownAnswers(Checks):
    def test_replies(self) -> None:
        for header, rows in REPLIES:
            commands, answers = zip(*(row.rsplit(" ", 1) for row in rows.splitlines()))
            told = (f"{at},{'accepted' if it == 'a' else f'refused,{it}'}\n" for at, it in enumerate(answers, 1))
            text = full(header + "".join(f"{it}\n" for it in commands))
            self.expect("replies", wrote("".join(told)), ["file"], text)

    def test_answers(self) -> None:
        for words, text, answer in ANSWERS:
            self.expect("known", wrote(full(answer)), full(words).split(), full(text))
        for text, part in CONTRIBUTIONS:
            found = self.run(["inverse"], full(text))
            self.count(found.status == 0 and full(part).encode() in found.out, f"{part!r} isn't in {found}")

    def test_line_faults(self) -> None:
        birth = full(f"{PLAIN}birth,M1,2000-01-01,0,0,,1\n")
        for record, told in SECOND_RECORDS:
            self.expect("a fault", fault(f"record 2: fault {told}", "1,accepted\n"), ["file"], birth + full(record))
        for record, told in FIRST_RECORDS:
            self.expect("a fault", fault(f"record 1: fault {told}"), ["file"], full(f"{WITH_EMBRYO}{record}\n"))
        no_text = PLAIN.encode() + b"exit,HOLGBRM00000000000\xff,2001-01-01,,,,\n"
        self.expect("no text", fault("record 1: fault 4 Animal"), ["file"], no_text)
        text = PLAIN.replace("\n", "\r\n") + full('"birth","M1","2000-01-01","0","0","","1"\r\n')
        self.expect("quoted fields", wrote("1,accepted\n"), ["file"], text)

    def test_where_reading_breaks(self) -> None:
        """Replies to all records that are whole before a read is refused; the next one's number is told."""
        header, rows = REPLIES[4]
        lines = [header, *(f"{row.rsplit(' ', 1)[0]}\n" for row in full(rows).splitlines())]
        replies = self.run(["file"], "".join(lines)).out.decode().splitlines(keepends=True)
        self.count(len(replies) == len(lines) - 1, f"{len(replies)} replies")
        before = ""
        for record, line in enumerate(lines):
            for end in "", line[:1], line[:-1], line:
                whole = record + (end == line)
                told = fault(f"record {whole}: fault 11 Read", "".join(replies[: max(0, whole - 1)]))
                self.expect("a broken file", told, ["file"], before + end, refuse=behind(before + end))
            before += line
        self.expect("no last line end", wrote("".join(replies)), ["file"], before[:-1])
        told = fault(f"record {len(replies)}: fault 2 Fields", "".join(replies[:-1]))
        self.expect("a cut record", told, ["file"], before[:-2])

    def test_workers(self) -> None:
        deep = full_sibs(61)
        wanted = self.run(["inbreeding"], deep)
        for workers in "1", "2", "16":
            for block in "1", "7", "60000":
                words = ["inbreeding", "--workers", workers, "--block", block]
                self.expect("five generations", wrote(full(FIVE_GENERATIONS)), words, full_sibs(5))
                self.expect("61 generations", wanted, words, deep)

    def test_deep_books(self) -> None:
        text = full_sibs(29)
        self.last("F58,33450427/33554432,99.69\nM57,33450427/33554432,99.69\n", "inbreeding", text)
        advice = wrote(full("M57,535524643/536870912,99.75\n"))
        self.expect("a deep mating", advice, full("mating --dam F58 M57").split(), text)
        self.last("59,accepted\n", "file", text + full("birth,M59,2029-01-01,M57,F58,,1\n"))
        text, last = full_sibs(61), "1152917451867309095/1152921504606846976,100.00\n"
        self.last(f"F122,{last}M121,{last}", "inbreeding", text)
        too_deep = full("birth,M123,2061-01-01,M121,F122,,1\n")
        self.last("122,accepted\n123,refused,10\n", "file", text + too_deep)

    def test_older_founders(self) -> None:
        """Where the first bull gets an older sire, each animal is a generation deeper."""
        older, oldest = full(OLDER.format("M101")), full(OLDER.format("M201"))
        self.last("57,accepted\n58,accepted\n", "file", full_sibs(28) + older)
        self.last("59,accepted\n60,accepted\n", "file", full_sibs(29) + older)
        self.last("121,accepted\n122,accepted\n", "file", full_sibs(60) + oldest)
        # now all have the greatest depth that there is
        calf = full("birth,M301,2061-01-01,M119,F120,,1\n")
        self.last("122,accepted\n123,refused,10\n", "file", full_sibs(60) + oldest + calf)
        text = full_sibs(61) + oldest
        self.last("123,accepted\n124,refused,10\n", "file", text)
        refused = wrote(full("M121,refused,5\n"))
        self.expect("too deep a mating", refused, full("mating --dam F122 M121").split(), text)
        self.expect("the founder", wrote(full(FOUNDER)), full("certificate M1").split(), text)

    def last(self, lines: str, words: str, text: str) -> None:
        found = self.run(words.split(), text)
        is_right = found.status == 0 and not found.err and found.out.decode().endswith("\n" + full(lines))
        self.count(is_right, f"{words}: {found}, not {full(lines)}")

    def test_sessions(self) -> None:
        for words, requests, answers in SESSIONS:
            self.expect("a session", wrote(answers), words.split(), full(requests))
        words, requests, answers = SESSIONS[0]
        before, _, _ = answers.partition("closed")
        # all requests before the input breaks off are answered
        told = fault("record 6: fault 11 Read", before)
        self.expect("broken", told, words.split(), full(requests), refuse=behind(requests))
