"""What is told of an audit."""
from __future__ import annotations

from collections.abc import Iterator

from gudokeyi.domain.messages import some_of
from gudokeyi.services.audits import Audit, Entry, Kind, Told

# of one, and of several
NAMES = {
    Told.INBREEDING: ("coefficient of inbreeding", "coefficients of inbreeding"),
    Told.RELATIONSHIP: ("relationship", "relationships"), Told.KINSHIP: ("kinship", "kinships"),
    Told.INVERSE: ("element of the inverse", "elements of the inverse"),
}  # fmt: skip
KINDS = {
    Kind.SAME: (
        "is the exact value as far as it is written, or as a double",
        "are the exact values as far as they are written, or as doubles",
    ),
    Kind.SINGLE_PRECISION: (
        "differs as single precision or less rounds it", "differ as single precision or less rounds them",
    ),
    Kind.OTHER: ("differs", "differ"),
}  # fmt: skip


def audit_lines(found: Audit) -> Iterator[str]:
    count = sum(map(len, found.entries.values()))
    yield f"{of_number(count, *NAMES[found.what])} {'is' if count == 1 else 'are'} compared"
    for kind, entries in found.entries.items():
        if entries and kind is Kind.SAME:
            yield of_number(len(entries), *KINDS[kind])
        elif entries:
            most = max(entries, key=lambda entry: entry.apart)
            told = of_number(len(entries), *KINDS[kind])
            yield f"{told}; the first: {told_of(entries[0])}; the most: {told_of(most)}"
    for reason, number, value in found.reasons:
        yield f"likely, for it fits {number:,} of them: {reason.value.format(value)}"
    if found.differs and not found.reasons:
        yield "nothing that is looked for explains them: compare ids, parents, and how unknown parents are written"
    if found.absent:
        yield f"{of_number(len(found.absent), *ABSENT)}: {some_of(found.absent)}"
    if found.untold:
        yield f"{of_number(len(found.untold), *UNTOLD)}: {some_of(found.untold)}"


ABSENT = "of its ids isn't in the pedigree", "of its ids aren't in the pedigree"
UNTOLD = "animal of the pedigree isn't in it", "animals of the pedigree aren't in it"


def of_number(count: int, one: str, several: str) -> str:
    return f"{count:,} {one if count == 1 else several}"


def told_of(entry: Entry) -> str:
    return f"{' and '.join(entry.ids)} in line {entry.line} has {entry.written}, exact {entry.exact} ({float(entry.exact):.10g})"
