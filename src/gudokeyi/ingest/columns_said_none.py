"""Fields of which somebody said that no column has them: that holds of the columns which the sheet had then. One that
comes later and would be read is told, each time, and so is one of exits that tells of more than it did then."""
from __future__ import annotations

from collections.abc import Collection, Mapping
from dataclasses import dataclass, field
from typing import Container

from gudokeyi.domain.kinds import Field
from gudokeyi.ingest.columns import Columns, find_columns
from gudokeyi.ingest.exits_beside import says_day
from gudokeyi.ingest.findings.columns_unread import ExitsSinceSaid, SaidNone
from gudokeyi.ingest.sheets import Sheet
from gudokeyi.ingest.texts import plain
from gudokeyi.ingest.titles import said_of
from gudokeyi.ingest.exit_words import exit_word, is_still_there, lives

# so many lines of further exits are told
MOST_LINES = 20


@dataclass(frozen=True)
class NoneSaid:
    """The fields that were said to have no column, now or of an earlier sheet, each with the title that its column had
    before, empty for none; and what was said so of columns that were there, as `exit=Status`, with the number of exits
    of which they told, none where that isn't known."""

    titles: Mapping[str, str] = field(default_factory=dict)
    refused: Mapping[str, int | None] = field(default_factory=dict)


def with_said_none(
    sheet: Sheet, given: Mapping[str, str], before: Mapping[str, str], none: NoneSaid, unknown: Container[str],
    ids: Collection[str],
) -> Columns:  # fmt: skip
    """The columns of a sheet; those that would be read for fields of which it was said once that no column has them
    are told, and of fields of which it is said now they are kept with the columns."""
    columns = find_columns(sheet, given, before, unknown, ids)
    fields = [name for name in none.titles if name not in columns.found]
    if not fields:
        return columns
    now, last = ({name: title for name, title in named.items() if title} for named in (given, before))
    last |= {name: none.titles[name] for name in fields if none.titles[name]}
    likely = find_columns(sheet, now, last, unknown, ids).found
    for name in fields:
        at = likely.get(name)
        if at is not None and (columns.is_free(at) or at == columns.found.get(Field.STATUS)):
            refuse(columns, Field(name), at, none, name in given)
    return columns


def refuse(columns: Columns, name: Field, at: int, none: NoneSaid, is_said_now: bool) -> None:
    """Keeps the column with the columns, and tells it unless it was said before, or is now, that it isn't the one."""
    title = columns.title(at)
    exits = exits_of(columns, at) if name in (Field.EXIT, Field.STATUS) else []
    columns.refused[name] = title, len(exits) if name in (Field.EXIT, Field.STATUS) else None
    said = plain(f"{name}={title}")
    if is_said_now:
        return
    if said not in none.refused:
        tell(columns, name, at)
    elif (before := none.refused[said]) is not None and len(exits) > before:
        (line, text), others = exits[0], tuple(line for line, _ in exits[1 : MOST_LINES + 1])
        columns.notes.append(ExitsSinceSaid(name, title, before, len(exits), line, text, others))


def tell(columns: Columns, name: Field, at: int) -> None:
    if count := columns.counts(at).total():
        line, text = next((line, cells[at]) for line, cells in columns.sheet.rows if at < len(cells) and cells[at])
        columns.notes.append(SaidNone(name, columns.title(at), count, line, text))


def exits_of(columns: Columns, at: int) -> list[tuple[int, str]]:
    """The lines and the cells of a column that tell of exits."""
    title = columns.title(at)
    said = {text: said_of(text, title) for text in columns.counts(at)}
    telling = {one for one, text in said.items() if not (lives(text) or is_still_there(text))}
    telling = {one for one in telling if says_day(said[one]) or exit_word(said[one])}
    return [(row.line, text) for row, text in zip(columns.sheet.rows, columns.cells(at)) if text in telling]
