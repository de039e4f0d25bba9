"""The limits of a book, of its journal and of a block."""
from __future__ import annotations

from outside.books import HEADER, males
from outside.orders import WIDEST_BLOCK, each_order
from outside.runs import Checks, fault, wrote
from outside.small import SMALL

COMMANDS = SMALL.removeprefix(HEADER).splitlines(keepends=True)


def without_births(after: int) -> str:
    """The small book without the births that follow so many commands."""
    return HEADER + "".join(it for at, it in enumerate(COMMANDS) if at < after or not it.startswith("birth"))


class TestLimits(Checks):
    def test_limits(self) -> None:
        """A book of 60,000 animals is full, and a block may be longer; more than a million commands: `line_faults`."""
        replies = "".join(f"{serial},accepted\n" for serial in range(1, 60_001))
        self.expect("a full book", wrote(replies + "60001,refused,2\n"), ["file"], males(60_001))
        more = ["file", "--limit-animals", "60001"]
        self.expect("a larger book", wrote(replies + "60001,accepted\n"), more, males(60_001))
        counts = "desk 1 answered 60001\ndesk 2 answered 0\nsteps 60001\nanimals 60000\nseen 60001\n"
        self.expect("a full book", wrote(counts), ["clerks", "--base", "1000000"], males(60_001))
        self.expect("the widest block", self.run(["inbreeding"], SMALL), WIDEST_BLOCK, SMALL)

    def test_raised_limits(self) -> None:
        """They change no answer of a small book, and take no memory for it."""
        for words in each_order():
            raised = [*words, "--limit-animals", "16000000", "--limit-steps", "200000000"]
            self.expect("raised limits", self.run(words, SMALL), raised, SMALL, kilobytes=400_000)

    def test_lowered_limits(self) -> None:
        """A book that is full refuses births, and a command too many is told as a fault of its record."""
        few = sum(it.startswith("birth") for it in COMMANDS) - 3
        for words in each_order():
            told = fault(f"record {len(COMMANDS)}: fault 12 TooMany")
            if words[0] == "file":
                answers = self.run(words, SMALL).out.splitlines(keepends=True)[:-1]
                told = fault(f"record {len(COMMANDS)}: fault 12 TooMany", b"".join(answers).decode())
            elif words[0] not in ("clerks", "seal", "sealed"):
                # a seal is of refused births too, which are steps
                fewer = self.run(words, without_births(few))
                self.expect("fewer animals", fewer, [*words, "--limit-animals", str(few)], SMALL)
            self.expect("fewer steps", told, [*words, "--limit-steps", str(len(COMMANDS) - 1)], SMALL)
        full = wrote("1,accepted\n2,accepted\n3,refused,2\n")
        self.expect("a full book", full, ["file", "--limit-animals", "2"], males(3))
        counts = wrote("desk 1 answered 3\ndesk 2 answered 0\nsteps 3\nanimals 2\nseen 3\n")
        self.expect("a full book", counts, ["clerks", "--base", "3", "--limit-animals", "2"], males(3))
