"""Columns that aren't read for exits, or say nothing of some animals, and may tell that these left: each is told of
those that count as living in the book that comes of the sheet."""
from __future__ import annotations

import collections
import functools
from collections.abc import Callable, Collection, Iterator, Mapping
from dataclasses import dataclass
from typing import Container

from gudokeyi.domain.kinds import Field
from gudokeyi.ingest.findings.columns_unread import CausesUnread
from gudokeyi.ingest.findings.rows import (
    ExitColumnUnread, ExitInRemark, ExitsInRemarks, LivingUnmarked, StatusOfCodes,
)  # fmt: skip
from gudokeyi.ingest.findings.sheets import MOST_SHOWN
from gudokeyi.ingest.sheets import Sheet
from gudokeyi.ingest.texts import listed, plain
from gudokeyi.ingest.titles import KNOWN_STATES, OF_LIVING, said_of
from gudokeyi.ingest.exit_words import lives
from gudokeyi.ingest.words import KNOWN_YES

# so many letters a code has, and so many different ones a column; in so many cells they tell something
LONGEST, MOST_CODES, LEAST = 2, 9, 3
# of so great a part of the rows at most codes tell of exits
MOST_GONE = 0.9
# Titles of columns in which all tells of exits, of those in which all may where most rows have nothing, and of those in
# which codes may.
KINDS_OF_EXITS = {
    plain(title)
    for title in listed(
        "Abgangscode, Code Abgang, Abgangsgrund Code, Code Abgangsgrund, Abgangsschlüssel, Abgangsart, Art des Abgangs, "
        "exit code, exit type, type of exit, disposal code, disposal type, cull code, code sortie, code de sortie, "
        "type sortie, type de sortie, Abg.-Grund, Abg.-Ursache, Merzungsgrund, Merzgrund, disposal reason, reason for "
        "disposal, cull reason, culling reason, reason for culling, cause of exit, leaving reason, cause sortie, "
        "motif sortie, raison sortie, motif de réforme, motif réforme, cause de réforme, cause réforme"
    )
}
CAUSES = {plain(title) for title in listed("Ursache, Ursachen, cause, causes")}
MAY_BE_CAUSES = CAUSES | {
    plain(title) for title in listed("Grund, Verbleib, reason, fate, whereabouts, disposal, motif, raison, devenir")
}
# what is told: the title, how many cells, the first line and its text, and the lines of others
Kind = Callable[[str, int, int, str, tuple[int, ...]], ExitsInRemarks]
# so many lines are named
MOST_LINES = 20


@dataclass(frozen=True)
class ExitsUnread:
    """Cells of a column by the lines of their rows, and what is told of them."""

    kind: Kind
    title: str
    cells: Mapping[int, str]

    def of(self, living: Container[int]) -> ExitsInRemarks | None:
        """What is told where the animals of some lines live."""
        lines = [line for line in self.cells if line in living]
        others = tuple(lines[1:MOST_LINES])
        return self.kind(self.title, len(lines), lines[0], self.cells[lines[0]], others) if lines else None

    def of_each(self, living: Container[int]) -> dict[int, ExitInRemark]:
        """What is told of each of several, by their lines, but where a cell that says nothing is told."""
        lines = [line for line in self.cells if line in living and self.kind is not LivingUnmarked]
        return {line: ExitInRemark(self.title, self.cells[line]) for line in lines} if len(lines) > 1 else {}


def remarks_unread(sheet: Sheet, columns: Mapping[str, int], at: int, texts: Collection[str]) -> ExitsUnread:
    """Cells of a column that isn't read which tell that animals left."""
    return beside_exits(sheet, columns, at, texts, ExitsInRemarks)


def column_unread(sheet: Sheet, columns: Mapping[str, int], at: int, unknown: Container[str]) -> ExitsUnread:
    """A column whose title names exits, and that isn't read, since none of its cells has a day."""
    texts = {text for text in {*sheet.column(at)} if text not in unknown and not lives(text)}
    return beside_exits(sheet, columns, at, texts, ExitColumnUnread)


def beside_exits(
    sheet: Sheet, columns: Mapping[str, int], at: int, texts: Collection[str], kind: Kind
) -> ExitsUnread:
    """The cells with these texts of rows of which no column that is read for exits says something."""
    cells = sheet.column(at)
    telling = [place for place, cell in enumerate(cells) if cell in texts] if texts else []
    for of in [columns[name] for name in (Field.EXIT, Field.STATUS) if name in columns]:
        exits, title = sheet.column(of), sheet.titles[of]
        none = {one for one in {*exits} if lives(said_of(one, title))}
        telling = [place for place in telling if exits[place] in none]
    return ExitsUnread(kind, sheet.titles[at], {sheet.rows[place].line: cells[place] for place in telling})


def causes_unread(
    sheet: Sheet, columns: Mapping[str, int], at: int, unknown: Container[str], as_field: Field
) -> ExitsUnread | None:
    """A column that says by codes why animals left, as `Abgangscode`, or may do so, as `Ursache`."""
    title = plain(sheet.titles[at])
    counts = collections.Counter(cell for cell in sheet.column(at) if cell not in unknown and not lives(cell))
    may_be = title in MAY_BE_CAUSES and are_codes(counts) or title in CAUSES
    if not (may_be and counts.total() <= MOST_GONE * len(sheet.rows) or title in KINDS_OF_EXITS):
        return None
    return beside_exits(sheet, columns, at, {*counts}, functools.partial(CausesUnread, as_field=as_field))


def are_codes(texts: Collection[str]) -> bool:
    """Are they few, and letters or numbers?"""
    return 0 < len(texts) <= MOST_CODES and all(len(text) <= LONGEST and text.isalnum() for text in texts)


def living_unmarked(sheet: Sheet) -> Iterator[ExitsUnread]:
    """Columns such as `lebend` that say yes of some animals, and nothing of others."""
    for at in [at for at, title in enumerate(sheet.titles) if plain(title) in OF_LIVING]:
        cells = sheet.column(at)
        texts = {*cells} - {""}
        if texts and all(text.casefold() in KNOWN_YES for text in texts):
            empty = {row.line: min(texts) for row, cell in zip(sheet.rows, cells) if not cell}
            yield ExitsUnread(LivingUnmarked, sheet.titles[at], empty)


def codes_of_status(sheet: Sheet, at: int, unknown: Container[str]) -> StatusOfCodes | None:
    """A column that has a title such as `Status`, isn't read, and has letters or numbers for states."""
    if plain(sheet.titles[at]) not in KNOWN_STATES:
        return None
    counts = collections.Counter(cell for cell in sheet.column(at) if cell not in unknown)
    if not are_codes(counts) or counts.total() < LEAST:
        return None
    return StatusOfCodes(sheet.titles[at], counts.total(), tuple([*counts][:MOST_SHOWN]), len([*counts][MOST_SHOWN:]))
