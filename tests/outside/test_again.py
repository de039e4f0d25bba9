"""The program `refused_growth`: each call of the libraries that is refused memory or a thread is made again."""
from __future__ import annotations

import re

from outside.refusals import Refusals
from outside.runs import TOP, Done, wrote

# the line that tells a refused call, by what was refused
FAULTS = {
    "file": "reading: no file",
    "reading": r"reading: (\d+) births, right, record (\d+): fault 13",
    "list": "pedigree: no file",
    "pedigree": r"pedigree: record \d+: fault 3",
    "book": "pool: no book",
    "pool": "pool: memory ran out",
    "thread": "pool: a thread couldn't be started",
    "parts": "office: no parts: memory ran out",
    "opening": "office: not opened: memory ran out",
    "filing": "office: not filed: memory ran out",
    "freezing": "office: not frozen: memory ran out",
}


class TestAgain(Refusals):
    def test_asked_again(self) -> None:
        """Each growth and start is refused in turn: the call tells it, leaves no trace, and answers when made again."""
        asked = self.built("refused_growth")
        answers = (TOP / "crates/refused_growth/stdout").read_text()
        asked.expect("nothing refused", wrote(answers), [])
        told = AskedAgain(answers.splitlines())
        grown = asked.until_none("growth", [], "", {"REFUSE": "growth"}, told)
        # the room of the copy that is shown second, for records and for hints, is asked for twice, so that a refusal of
        # the first is made up
        asked.count(told.made_up == 2, f"{told.made_up} refused growths were told by no line")
        # in the first records buffers grow too; the list has room for 4 commands, and then for twice as many
        full = [births for births in told.births if births > 3]
        asked.count(full == [4, 8, 16, 32], f"the commands read before the list couldn't grow: {told.births}")
        if told.met != {*FAULTS}:
            # the workers' growths aren't as many in each run, so one that comes after them may be passed over
            asked.until_none("growth", [], "", {"REFUSE": "growth"}, told)
        asked.count(grown and told.met == {*FAULTS}, f"what was refused of {grown} growths: {told.met}")
        threads = asked.until_none("thread", [], "", {"REFUSE": "thread"}, told)
        # two workers, of which the calling thread is one
        asked.count(threads == 5, f"{threads} threads were started for five levels")


class AskedAgain:
    """What may be printed where one call is refused: all lines, and a line that tells it before the call's answer.
    While the first step is filed it may be made up."""

    def __init__(self, answers: list[str]) -> None:
        self.answers = answers
        # what was refused so far, and after how many births of the file
        self.met: set[str] = set()
        self.births: list[int] = []
        # what was refused last, and after how many steps; how many refusals were made up
        self.last, self.made_up = ("", 0), 0

    def __call__(self, wanted: Done, done: Done) -> bool:
        if done == wanted:
            self.made_up += 1
            return self.last in (("opening", 0), ("filing", 0))
        lines = done.out.decode().splitlines()
        places = enumerate(zip(lines, self.answers))
        at = next((at for at, (line, answer) in places if line != answer), len(self.answers))
        told = self.fault_of(lines[at]) if at < len(lines) else None
        if (done.status, done.err) != (0, b"") or not told:
            return False
        what, match = told
        self.met.add(what)
        if what == "reading" and not self.is_record(int(match[1]), int(match[2])):
            return False
        filed = sum(line.startswith("office: step ") for line in lines[:at])
        self.last = what, filed
        # after a refused command an inspector sees what was filed before
        seen = [f"office: {filed} animals and {filed} steps seen"] if what == "filing" else []
        return lines[at + 1 :] == seen + self.answers[at:]

    def fault_of(self, line: str) -> tuple[str, re.Match[str]] | None:
        """What was refused if this line tells it, and the line's numbers."""
        return next(((what, match) for what, text in FAULTS.items() if (match := re.fullmatch(text, line))), None)

    def is_record(self, births: int, record: int) -> bool:
        """The record that was being read follows the births that were read, or is the header."""
        self.births.append(births)
        return record == births + 1 or record == 0 and births == 0
