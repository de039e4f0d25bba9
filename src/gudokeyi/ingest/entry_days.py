"""A column such as `Eingang` or `Zugang`, which isn't read: its days may be those since when owners have animals, or
those of entries into a herd or a herd book."""
from __future__ import annotations

from collections.abc import Mapping

from gudokeyi.domain.kinds import Field
from gudokeyi.ingest.columns import Columns
from gudokeyi.ingest.exits_beside import are_days
from gudokeyi.ingest.findings.columns_unread import EntryDaysUnread
from gudokeyi.ingest.likely_exits import span_of
from gudokeyi.ingest.texts import listed, plain

ENTRIES = {
    plain(title)
    for title in listed(
        "Eingang, Eingangsdatum, Eingang am, Zugang, Zugangsdatum, Zugang am, Eintritt, Eintrittsdatum, Eintritt am, "
        "entry, entry date, date of entry, date entered, entered, entrée, date d'entrée, date entrée, entrée le, entré le"
    )
}


def tell_entry_days(columns: Columns, named: Mapping[str, str]) -> None:
    """Told where owners are read, and no column of their first days is, unless somebody says that there is none."""
    if Field.SINCE in columns.found or named.get(Field.SINCE) == "" or not columns.found.keys() >= {"owner", "birth"}:
        return
    titles = enumerate(columns.sheet.titles)
    for at in [at for at, title in titles if plain(title) in ENTRIES and columns.is_free(at)][:1]:
        if found := entry_days(columns, at):
            columns.notes.append(found)


def entry_days(columns: Columns, at: int) -> EntryDaysUnread | None:
    """The finding on days behind the births: an owner has an animal from its birth on where nothing else is said."""
    if not are_days(columns.counts(at)):
        return None
    births = columns.cells(columns.found[Field.BIRTH])
    both = zip(columns.sheet.rows, columns.cells(at), births)
    spans = [(row.line, text, span_of(text), span_of(birth)) for row, text, birth in both if text]
    behind = [(line, text) for line, text, day, born in spans if day and born and day.first > born.last]
    return EntryDaysUnread(columns.title(at), len(behind), *behind[0]) if behind else None
