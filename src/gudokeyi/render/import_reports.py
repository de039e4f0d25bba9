"""What is printed of an import: a screen that begins with what may be wrong, what does most harm first. All that was
found stands in the report."""
from __future__ import annotations

import collections
import contextlib
import itertools
import math
from collections.abc import Iterable, Iterator, Sequence
from dataclasses import dataclass, replace

from gudokeyi.domain.findings import (
    DROP_GONE, Call, Entry, Finding, ImportRefused, Report, Severity, StrictlyRefused, Suggestion, What,
)  # fmt: skip
from gudokeyi.domain.messages import MOST_NAMED, Mistake, some_of
from gudokeyi.domain.refusals import Refusal
from gudokeyi.domain.wording import SEXES
from gudokeyi.reconcile.findings.parents import WRONG, ParentRefused
from gudokeyi.reconcile.findings.by_hand import YoungParent
from gudokeyi.reconcile.findings.own_columns import OwnCells
from gudokeyi.reconcile.findings.plausibility import BirthsNearerThanUsual, BirthsTooNear
from gudokeyi.reconcile.kinds_of_findings import animals_in, fields_summed_up, heading_of, is_summed_up, place_of
from gudokeyi.reconcile.outcome import Outcome
from gudokeyi.store.exports import COMMANDS

# Entries of one kind as sentences: refusals that have one cause, such as a ram whose sex is wrong, are one sentence.

# the case in which a limit is suggested that none of several animals is below
OF_ALL = "if all of these can be"
# so many refusals of one cause are told in one sentence, which names so many of their lines
MANY, MOST_LINES = 3, 9
# a parent, and why it is refused
Cause = tuple[str, Refusal]


@dataclass(frozen=True)
class GroupMessage:
    """What is told of so many entries, and what is suggested."""

    text: str
    entries: int
    suggestions: tuple[Suggestion, ...]


def cause_of(entry: Entry) -> Cause | None:
    """A parent that is refused to all its offspring alike."""
    found = entry.finding
    if isinstance(found, ParentRefused) and found.is_of_sex():
        return found.parent, found.refusal
    return None


def sentences_of(entries: list[Entry]) -> Iterator[GroupMessage]:
    """Each entry as a sentence; many with one cause are one, with the cause's line first."""
    of_cause = collections.defaultdict[Cause, list[Entry]](list)
    for entry in entries:
        if cause := cause_of(entry):
            of_cause[cause].append(entry)
    limit = lowest(entries)
    for entry in entries:
        cause = cause_of(entry)
        those = of_cause[cause] if cause else []
        if len(those) < MANY:
            yield GroupMessage(entry.words(), 1, limit or entry.finding.suggestions())
        elif entry is those[0]:
            yield GroupMessage(sentence_of_all(those), len(those), entry.finding.suggestions())


def lowest(entries: list[Entry]) -> tuple[Suggestion, ...]:
    """Where entries are told for a limit of days, one that none of them is below; where it is that of a later entry it
    says so, since it stands behind the first."""
    found = [entry.finding for entry in entries]
    below = [one for one in found if isinstance(one, (YoungParent, BirthsTooNear, BirthsNearerThanUsual))]
    if not below:
        return ()
    lowest = min(below, key=lambda one: one.days).suggestions()
    is_of_first = lowest == below[0].suggestions()
    return lowest if is_of_first else tuple(replace(one, case=OF_ALL) for one in lowest)


def sentence_of_all(entries: list[Entry]) -> str:
    found = entries[0].finding
    assert isinstance(found, ParentRefused)
    lines = ", ".join(str(entry.line) for entry in entries[:MOST_LINES])
    more = f" and {len(entries) - MOST_LINES} more" if len(entries) > MOST_LINES else ""
    where = f"line {found.line}: " if found.line else ""
    source = (
        f"; its sex is inferred: {SEXES[found.sex].value}, {found.sex_source.words()}" * found.sex_source.is_inferred
    )
    return (
        f"{where}{found.parent}: {WRONG[found.refusal]} (refusal {found.refusal}){source}: it is left out as the "
        f"{found.role} of {len(entries)} animals (lines {lines}{more}): if it is, correct its sex"
    )


# What may be wrong, what does most harm first, and as much of it as a screen has room for.

# letters of a row of a terminal
LETTERS = 80
# so many findings of a kind are shown, also where there is room for more
MOST_SHOWN = 25


def rows_of(lines: Iterable[str]) -> int:
    """The rows of a terminal that lines take."""
    return sum(max(1, math.ceil(len(row) / LETTERS)) for line in lines for row in line.split("\n"))


def shown(suggestion: Suggestion, call: Call) -> list[str]:
    """The case, and the whole command in a line of its own."""
    return [f"  {suggestion.case}:", f"    {call.command(suggestion)}"]


@dataclass(frozen=True, eq=False)
class Piece:
    """A sentence of a group, which tells so many entries, or the commands that are suggested behind it. `turn` is when
    there has to be room for it: first for a sentence of each group, then for their commands, and then for more."""

    turn: int
    group: int
    lines: list[str]
    entries: int


def told_within(groups: list[list[Entry]], call: Call, room: int) -> tuple[list[str], int]:
    """What is told in so many rows, and how many entries aren't."""
    pieces = fitting([piece for at, entries in enumerate(groups) for piece in pieces_of(at, entries, call)], room)
    lines = [line for piece in pieces for line in piece.lines]
    return lines, sum(map(len, groups)) - sum(piece.entries for piece in pieces)


def fitting(pieces: list[Piece], room: int) -> list[Piece]:
    """Those for which there is room; of a group the first ones."""
    those, ended = set[Piece](), set[int]()
    for piece in sorted(pieces, key=lambda one: (one.turn, one.group)):
        rows = rows_of(piece.lines)
        if rows > room or piece.group in ended:
            ended.add(piece.group)
            continue
        those.add(piece)
        room -= rows
    return [piece for piece in pieces if piece in those]


def pieces_of(group: int, entries: list[Entry], call: Call) -> Iterator[Piece]:
    told: set[Suggestion] = set()
    for place, sentence in enumerate(itertools.islice(sentences_of(entries), MOST_SHOWN)):
        new = [one for one in sentence.suggestions if one not in told]
        told.update(new)
        commands = [line for one in new for line in shown(one, call)]
        if place == 0:
            yield Piece(0, group, [sentence.text], sentence.entries)
            yield Piece(1, group, commands, 0)
        else:
            yield Piece(1 + place, group, [sentence.text, *commands], sentence.entries)


# in short a kind has a row, behind so many letters for the number of animals, and so much is suggested
INDENT, MOST_SUGGESTED = 6, 2
IN_SHORT = "what may be wrong, by kind, with the number of animals or rows; all of it stands below"


def in_short(groups: list[list[Entry]], room: int) -> list[str]:
    """For each of several kinds its heading, of how many animals it tells, where the first stands, and what may be
    typed, in as many rows as there is room for."""
    kinds = collections.defaultdict[str, list[list[Entry]]](list)
    for entries in groups:
        kinds[heading_of(entries[0].finding)].append(entries)
    if len(kinds) < 2:
        return []
    pieces = [piece for at, (heading, those) in enumerate(kinds.items()) for piece in kind_in_short(at, heading, those)]
    # the heading, and what there is more
    those = fitting(pieces, room - 4)
    more = len(kinds) - len({piece.group for piece in those})
    lines = [line for piece in those for line in piece.lines]
    return [IN_SHORT, *lines, *[f"and {more} more kinds"] * bool(more), ""]


def kind_in_short(group: int, heading: str, those: list[list[Entry]]) -> Iterator[Piece]:
    entries = [entry for one in those for entry in one]
    first = entries[0]
    animals = animals_in(entries)
    yield Piece(0, group, [f"{animals or '':>{INDENT - 2}}  {heading or first.words()}{place_in_short(first)}"], 0)
    # nothing has to be undone of what isn't taken yet
    suggestions = [one for entries in those for one in next(sentences_of(entries)).suggestions]
    suggested = [replace(one, undoes=False).words() for one in [*dict.fromkeys(suggestions)][:MOST_SUGGESTED]]
    yield Piece(1, group, [" " * (INDENT + 2) + "; ".join(suggested)] if suggested else [], 0)


def place_in_short(entry: Entry) -> str:
    """Where the first of a kind stands."""
    title = getattr(entry.finding, "title", "")
    where = [f"line {entry.line}"] * bool(entry.line) + [entry.id] * bool(entry.id) + [f"'{title}'"] * bool(title)
    return f" ({', '.join(where)})" if where else ""


def grouped(report: Report) -> list[list[Entry]]:
    """What may be wrong, by kind and theme, the greatest harm first; of what much hangs on each by itself."""
    groups: dict[object, list[Entry]] = {}
    summed_up = fields_summed_up(report.entries)
    for entry in report.in_order():
        if entry.finding.does() is not Severity.NONE and not is_summed_up(entry.finding, summed_up):
            theme = id(entry) if entry.finding.comes_first() else entry.finding.theme()
            groups.setdefault((type(entry.finding), theme), []).append(entry)
    return sorted(groups.values(), key=lambda entries: place_of(entries[0].finding))


# What is printed of an import: a screen that begins with what may be wrong, what does most harm first. All that was
# found stands in the report file.

# the rows of a screen
ROWS = 24
# so many rows are kept for what may be wrong, however long the rest is
LEAST = 10
# of so many own columns it is shown what has changed
MOST_COLUMNS = 5
# of a preview there is no report: there is room for so many rows; one that is longer than a screen begins in short
EACH, SCREEN = 1000, 50


def lines_of(outcome: Outcome) -> list[str]:
    """What may be wrong, and below it how the file was read and what has changed."""
    above = list(obstacle_lines(outcome.obstacles, outcome.call)) if outcome.obstacles else []
    below, last = about(outcome), [summary(outcome)] if outcome.after else []
    if outcome.call.is_preview:
        found = found_in_preview(outcome, below, SCREEN - rows_of(above))
        return [*above, *found, *gone_lines(outcome), *changes(outcome), *last]
    room = max(ROWS - rows_of([*above, *below, *last]), LEAST)
    first = may_be_wrong(outcome, grouped(outcome.report), room)
    gone = gone_lines(outcome) if rows_of([*first, *gone_lines(outcome)]) <= room else []
    return [*above, *first, *below, *gone, *last]


def found_in_preview(outcome: Outcome, below: list[str], room: int) -> list[str]:
    """What may be wrong, and how the file was read; where both have no room on a screen, this stands above, and each
    kind in short."""
    groups = grouped(outcome.report)
    told = may_be_wrong(outcome, groups, EACH)
    short = in_short(groups, room - rows_of(below)) if rows_of([*told, *below]) > room else []
    return [*below, *short, *told] if short else [*told, *below]


def may_be_wrong(outcome: Outcome, groups: list[list[Entry]], room: int) -> list[str]:
    lines, more = told_within(groups, outcome.call, room - 1)
    has_each = "" if outcome.call.is_preview else f": {outcome.report_file()} has each"
    return lines + [f"and {more} more that may be wrong{has_each}"] * bool(more)


def gone_lines(outcome: Outcome) -> list[str]:
    if not outcome.counts()[What.GONE] or outcome.obstacles or outcome.after is None or outcome.after.drops_gone:
        return []
    case = "those that are gone stay; to drop them, but for ancestors of animals that have a row"
    return shown(Suggestion(case, (DROP_GONE,)), outcome.call)


@contextlib.contextmanager
def told_with(call: Call) -> Iterator[None]:
    """A mistake that keeps a file from being taken is told with the commands that are suggested."""
    try:
        yield
    except ImportRefused as mistake:
        raise Mistake(*told_of(mistake), *obstacle_lines(mistake.obstacles, call)) from None


def told_of(mistake: ImportRefused) -> list[str]:
    """What it is about, in sentences: of what would be left out the first ones."""
    if not isinstance(mistake, StrictlyRefused):
        return [*mistake.told]
    return [sentence.text for sentence in itertools.islice(sentences_of([*mistake.left_out]), MOST_NAMED)]


def obstacle_lines(obstacles: Sequence[Finding], call: Call) -> Iterator[str]:
    """Why nothing is taken, and what to do."""
    yield from (obstacle.words() for obstacle in obstacles)
    yield "nothing is taken"
    suggestions = dict.fromkeys(suggestion for obstacle in obstacles for suggestion in obstacle.suggestions())
    yield from ("\n".join(shown(suggestion, call)) for suggestion in suggestions)


def about(outcome: Outcome) -> list[str]:
    """How the file was read, what has changed, and the summary."""
    lines = list(outcome.about)
    if outcome.after is None:
        return lines
    if changed := outcome.changed():
        lines.append("changed: " + ", ".join(f"{name} {count}" for name, count in changed.most_common()))
    if own := outcome.own_columns():
        counts = [f"'{title}' ({', '.join(map(count_said, those))})" for title, those in own.items()]
        lines.append(f"own columns: {some_of(counts, MOST_COLUMNS)}")
    if outcome.after.is_anew:
        lines.append(f"{outcome.folder / COMMANDS} is written anew, since something in it was corrected or dropped")
    if outcome.after.numbers_begin:
        begin = outcome.after.numbers_begin
        lines.append(
            f"the animals' numbers begin with {begin} (breed {begin[:3]}, country {begin[3:]}), since --breed and "
            "--country aren't both given: given later they change each number, which begins a new edition of the "
            "journal"
        )
    return lines


def count_said(found: OwnCells) -> str:
    return f"{found.cells()} {found.word}"


def summary(outcome: Outcome) -> str:
    if outcome.call.is_preview:
        return f"a preview, nothing is written: {outcome.summary()}"
    return outcome.summary() + (f": {outcome.report_file()} has each" if outcome.report.entries else "")


def changes(outcome: Outcome) -> Iterator[str]:
    """What would change, by kind."""
    for what, entries in outcome.by_kind().items():
        told = [entry for entry in entries if entry.finding.does() is Severity.NONE]
        # what is of the whole sheet takes no place away
        of_sheet, those = ([one for one in told if bool(one.line or one.id) == of_one] for of_one in (False, True))
        yield from (entry.words() for entry in of_sheet + those[:MOST_SHOWN])
        if len(those) > MOST_SHOWN:
            yield f"and {len(those) - MOST_SHOWN} more {what}"
