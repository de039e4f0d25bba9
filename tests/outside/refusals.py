"""Runs of which a call is refused by `tests/refuse.c`, and what the program may answer then."""
from __future__ import annotations

import concurrent.futures
import itertools
import operator
import os
import re
from collections.abc import Callable, Mapping

from outside.runs import Checks, Done, Words

# no run makes so many calls: the number of the last call that is refused where all are
ALL = 1 << 40
# nor so many that can be refused
MOST_CALLS, AT_ONCE = 20_000, 64

# whether a run is right: what it answers where nothing is refused, and what it answered
IsRight = Callable[[Done, Done], bool]


class Refusals(Checks):
    def refused(self, what: str, words: Words, text: str, refuse: Mapping[str, object], nth: int) -> tuple[bool, Done]:
        """Refuses the nth call: whether there is such a call, and what was answered."""
        met = self.room / f"met-{what}-{nth}"
        done = self.run(words, text, refuse={"REFUSE_NTH": nth, "REFUSE_MET": met} | dict(refuse))
        is_met = met.exists()
        met.unlink(missing_ok=True)
        return is_met, done

    def until_none(
        self,
        what: str,
        words: Words,
        text: str,
        refuse: Mapping[str, object],
        is_right: IsRight,
        is_unrefused: IsRight = operator.eq,
    ) -> int | None:
        """Refuses the first call, the second and so on, until a run meets no refusal: how many calls there are."""
        wanted = self.run(words, text)

        def one(nth: int) -> tuple[bool, Done]:
            return self.refused(what, words, text, refuse, nth)

        with concurrent.futures.ThreadPoolExecutor(os.cpu_count()) as pool:
            parts = (pool.map(one, range(first, first + AT_ONCE)) for first in range(1, MOST_CALLS, AT_ONCE))
            for nth, (is_met, done) in enumerate(itertools.chain.from_iterable(parts), 1):
                right = is_right(wanted, done) if is_met else is_unrefused(wanted, done)
                self.count(right, f"{what} {nth} refused: {words}: {done}")
                if not is_met:
                    return nth - 1
        self.count(False, f"{what}: {words}: still refused")
        return None


def behind(text: str) -> dict[str, object]:
    """Refuses the read behind a short text, whose first byte is read by itself."""
    return {"REFUSE": "read", "REFUSE_NTH": min(len(text), 2) + 1}


def while_reading(order: str) -> str:
    """A growth that is refused while a record is read.

    `csv`'s buffers grow in the first records; `clerks` keep a list too.
    """
    return r"record (\d+): fault 13 Memory" if order == "clerks" else r"record ([0-3]): fault 13 Memory"


def want_of_memory(words: list[str]) -> list[str]:
    """The texts that may come where memory is refused."""
    # a level of one block starts no thread
    starts_threads = "clerks" in words or words[-2:] == ["--block", "1"]
    return ["no memory", while_reading(words[0]), *(["no thread"] if starts_threads else [])]


def is_fault(order: str, wanted: Done, done: Done, faults: list[str]) -> bool:
    """One of these faults is told, and what was written is what is allowed before it."""
    told = re.fullmatch("herdbook: (.*)\n", done.err.decode(errors="replace"))
    kinds = (re.fullmatch(one, told[1]) for one in faults) if told else ()
    kind = next((it for it in kinds if it), None)
    if not kind or done.status != 1:
        return False
    if kind.groups():
        # a line fault: the replies to the commands before it, or nothing
        before = max(0, int(kind[1]) - 1) if order == "file" else 0
        return done.out == b"".join(wanted.out.splitlines(keepends=True)[:before])
    # of a text that is shorter than a part nothing is written before a growth is refused
    if kind[0] in ("no thread", "no memory"):
        return not done.out
    return wanted.out.startswith(done.out)
