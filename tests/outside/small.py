"""A small book, on which each order is run again and again, each time with another call refused."""
from __future__ import annotations

from outside.books import HEADER, animal, couples, founder, full_sibs

# Several blocks of its first level have a sire, and there are enough calves, so that workers start a thread.
SMALL = (
    HEADER
    + couples(2, 21, 16)
    + full_sibs(4).removeprefix(HEADER)
    + f"exit,{animal('M', 1)},2010-01-01,,,,\n"
    + f"parents,{animal('F', 8)},,{animal('M', 1)},0,,\n"
    + founder(animal("M", 1))
)
