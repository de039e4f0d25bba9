"""Columns of owners one after the other, as `1st Owner`, `2nd Owner`: the last one in a row is the owner of now."""
from __future__ import annotations

import re
from collections.abc import Mapping, Sequence
from typing import NamedTuple

from gudokeyi.domain.kinds import Field
from gudokeyi.ingest.columns import Columns
from gudokeyi.ingest.days import is_span, places_within
from gudokeyi.ingest.exit_words import exit_word
from gudokeyi.ingest.findings.owners import OwnersInTurnRead
from gudokeyi.ingest.sheets import Sheet, SheetRow, cell_of
from gudokeyi.ingest.texts import listed, plain
from gudokeyi.ingest.titles import KNOWN_TITLES
from gudokeyi.ingest.unknown_parents import names_no_owner

# what counts the owners
COUNTS = (
    "1st, 1er, 1ère, 1, first, erster, erste, premier, première", "2nd, 2ème, 2e, 2, second, zweiter, zweite, deuxième",
    "3rd, 3ème, 3e, 3, third, dritter, dritte, troisième", "4th, 4ème, 4e, 4, fourth, vierter, vierte, quatrième",
    "5th, 5ème, 5e, 5, fifth, fünfter, fünfte, cinquième",
)  # fmt: skip
KNOWN_COUNTS = {plain(word): at for at, words in enumerate(COUNTS) for word in listed(words)}
# titles of the days since when, beside those that stand alone, and of those until when
SINCE = {plain(word) for word in listed("from, from date, date from, ab, dès, à partir de")} | {*KNOWN_TITLES[Field.SINCE]}
UNTIL = {plain(word) for word in listed("until, to, till, bis, jusqu'au, jusque, au")}


class OwnersInTurn(NamedTuple):
    """The columns of the owners, the first to the last, and those of the days since when, by the owners' columns."""

    owners: Sequence[int]
    days: Mapping[int, int]

    def of_now(self, row: SheetRow) -> int:
        """The column of the last owner of a row."""
        return next((at for at in reversed(self.owners) if has_owner(cell_of(row, at))), self.owners[0])


def has_owner(cell: str) -> bool:
    owner = owner_in(cell)
    return any(map(str.isalpha, owner)) and not names_no_owner(owner) and not exit_word(cell)


def owner_in(cell: str) -> str:
    """What a cell has besides a day, as `Walsh` of `Walsh 3/4/2022`."""
    for day in places_within(cell):
        cell = cell.replace(day[0], " ")
    return " ".join(cell.split()).strip(" ,;()")


def counted(title: str) -> tuple[int, str, bool] | None:
    """The number of a title such as `2nd Owner`, its other word, and whether the number stands before."""
    compared, usual = plain(title), KNOWN_TITLES[Field.OWNER]
    before = [(at, compared.removeprefix(word), True) for word, at in KNOWN_COUNTS.items() if compared.startswith(word)]
    behind = [(KNOWN_COUNTS[compared[-1]], compared[:-1], False)] if compared[-1:] in KNOWN_COUNTS else []
    return next((one for one in before + behind if one[1] in usual), None)


def owners_in_turn(sheet: Sheet, columns: Mapping[str, int]) -> OwnersInTurn | None:
    """Titles that count before the word tell it, others where days stand behind the second owner."""
    at = columns.get(Field.OWNER)
    first = None if at is None else counted(sheet.titles[at])
    if at is None or first is None or first[0] != 0:
        return None
    others = {field: one for field, one in columns.items() if field != Field.SINCE}
    free = [one for one in range(len(sheet.titles)) if one not in others.values()]
    owners = [at]
    for one in free:
        is_next = counted(sheet.titles[one]) == (len(owners), *first[1:]) and one > owners[-1]
        owners += [one] if is_next else []
    days = days_of(sheet, owners, free)
    is_ended = any(plain(sheet.titles[one]) in UNTIL for one in free)
    in_turn = len(owners) > 1 and not is_ended and (first[2] or days.get(owners[1]) is not None)
    return OwnersInTurn(owners, days) if in_turn else None


def days_of(sheet: Sheet, owners: Sequence[int], free: Sequence[int]) -> dict[int, int]:
    """By the columns of owners those of days that stand next behind them; the only one behind all is that of each."""
    days = [at for at in free if names_since(sheet.titles[at]) and are_days(sheet.column(at))]
    if len(days) == 1 and days[0] > owners[-1]:
        return {owner: days[0] for owner in owners}
    behind = {owner: end for owner, end in zip(owners, [*owners[1:], len(sheet.titles)])}
    found = {owner: next((at for at in days if owner < at < end), None) for owner, end in behind.items()}
    return {owner: at for owner, at in found.items() if at is not None}


def names_since(title: str) -> bool:
    compared = plain(title)
    return compared in SINCE or re.sub(r"[1-5](?:st|nd|rd|th|er|eme|e)?", "", compared) in SINCE


def are_days(cells: Sequence[str]) -> bool:
    said = [cell for cell in cells if cell]
    return 2 * sum(map(is_span, said)) > len(said)


def with_owners_of_now(
    rows: Sequence[SheetRow], sheet: Sheet, columns: Mapping[str, int]
) -> dict[Field, dict[int, str]]:
    """The owners of now, and the days since when, where others than the first column has; by the places of rows."""
    turn = owners_in_turn(sheet, columns)
    found: dict[Field, dict[int, str]] = {Field.OWNER: {}, Field.SINCE: {}}
    for place, row in enumerate(rows if turn else ()):
        at = turn.of_now(row) if turn else 0
        if turn and at != turn.owners[0]:
            days = turn.days.get(at)
            found[Field.OWNER][place] = owner_in(cell_of(row, at))
            found[Field.SINCE][place] = "" if days is None else cell_of(row, days)
    return found


def read_owners_in_turn(columns: Columns) -> None:
    turn = owners_in_turn(columns.sheet, columns.found)
    if turn is None:
        return
    first, *others = turn.owners
    since = next((turn.days[at] for at in turn.owners if at in turn.days), None)
    if since is not None:
        columns.found.setdefault(Field.SINCE, since)
    columns.apart = [*columns.apart, *others, *(at for at in turn.days.values() if columns.is_free(at))]
    said = [(row.line, cell_of(row, at)) for row in columns.sheet.rows if (at := turn.of_now(row)) != first]
    if said:
        titles = tuple(map(columns.title, others))
        columns.notes.append(OwnersInTurnRead(columns.title(first), titles, len(said), *said[0]))
