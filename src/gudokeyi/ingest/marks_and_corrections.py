"""Columns that aren't read, and say of animals that they were born dead, or that their rows don't hold; and those that
correct what another column has, as `korrigiertes Geburtsdatum`."""
from __future__ import annotations

import functools
from collections.abc import Container

from gudokeyi.domain.kinds import Field
from gudokeyi.ingest.columns import Columns
from gudokeyi.ingest.days import Unreadable, read_span
from gudokeyi.ingest.exits_beside import columns_beside
from gudokeyi.ingest.findings.columns_unread import CorrectionsUnread, DeletedRows, StillbornUnread
from gudokeyi.ingest.texts import listed, nearly, plain
from gudokeyi.ingest.titles import BETWEEN_WORDS, KNOWN_TITLES, said_of
from gudokeyi.ingest.exit_words import lives
from gudokeyi.ingest.words import KNOWN_NO

STILLBORN = {
    plain(title)
    for title in listed(
        "totgeboren, tot geboren, totgeb, Totgeburt, Totgeburten, stillborn, still born, stillbirth, born dead, dead at "
        "birth, mort-né, mort-née, mort-né(e), né mort, née morte, mortinaissance"
    )
}
DELETED = {
    plain(title)
    for title in listed(
        "gelöscht, Löschung, zu löschen, löschen, ungültig, storniert, Storno, annulliert, deleted, delete, void, voided, "
        "invalid, cancelled, canceled, supprimé, supprimée, supprimé(e), à supprimer, annulé, annulée, annulé(e), effacé, "
        "effacée, invalide, non valable"
    )
}
# words of titles of columns that correct others
CORRECTED = {
    plain(word)
    for word in listed(
        "korrigiert, korrigierte, korrigierter, korrigiertes, Korrektur, berichtigt, berichtigte, berichtigter, "
        "berichtigtes, richtig, richtige, richtiger, richtiges, neu, neue, neuer, neues, corrected, correct, "
        "correction, revised, amended, new, corrigé, corrigée, rectifié, rectifiée, nouveau, nouvelle, nouvel"
    )
}
# what such columns may correct; an animal's new ear tag is no correction
MAY_BE_CORRECTED = (
    Field.BIRTH, Field.SEX, Field.SIRE, Field.DAM, Field.NAME, Field.OWNER, Field.SINCE, Field.EXIT,
)  # fmt: skip


def tell_marks(columns: Columns, unknown: Container[str]) -> None:
    """All of these columns that have something."""
    titles = [(at, title) for at, title in enumerate(columns.sheet.titles) if title and columns.is_free(at)]
    titles = [(at, title) for at, title in titles if plain(title) in STILLBORN | DELETED or corrected(title)]
    read = columns_beside(columns.sheet, columns.found) if titles else []
    for at, title in [(at, title) for at, title in titles if at not in read]:
        if field := corrected(title):
            tell_correction(columns, field, at, unknown)
        elif said := marked(columns, at, unknown):
            kind = StillbornUnread if plain(title) in STILLBORN else DeletedRows
            columns.notes.append(kind(title, *said))


def marked(columns: Columns, at: int, unknown: Container[str]) -> tuple[int, int, str] | None:
    """The rows without an exit of which a column says yes: how many, and the line and text of the first. Counts of
    offspring say nothing of the row's animal."""
    cells = columns.cells(at)
    said = {text for text in {*cells} if text not in unknown and text.casefold() not in KNOWN_NO and text.strip("0")}
    counts = [int(text) for text in {*cells} if text.isdecimal()]
    if any(count > 1 for count in counts) or 0 in counts and all(map(str.isdecimal, said)):
        return None
    rows = [(place, text) for place, text in enumerate(cells) if text in said]
    if (of := columns.found.get(Field.EXIT)) is not None:
        exits, title = columns.cells(of), columns.title(of)
        rows = [(place, text) for place, text in rows if exits[place] in unknown or lives(said_of(exits[place], title))]
    if not rows:
        return None
    place, text = rows[0]
    return len(rows), columns.sheet.rows[place].line, text


@functools.lru_cache(100_000)
def corrected(title: str) -> Field | None:
    """The field of which a title says that it is corrected."""
    words = [plain(word) for word in BETWEEN_WORDS.split(title)]
    rest = "".join(word for word in words if word not in CORRECTED)
    if not rest or CORRECTED.isdisjoint(words):
        return None
    return next((field for field in MAY_BE_CORRECTED if rest in KNOWN_TITLES[field]), None)


def tell_correction(columns: Columns, field: Field, at: int, unknown: Container[str]) -> None:
    """Rows in which another text stands than in the column that is read."""
    of = columns.found.get(field)
    if of is None:
        return
    both = [*zip(columns.sheet.rows, columns.cells(of), columns.cells(at))]
    said = [(row.line, text, other) for row, other, text in both if text not in unknown]
    differ = [one for one in said if not are_same(one[1], one[2])]
    if differ:
        line, text, other = differ[0]
        is_full = len(said) >= sum(other not in unknown for _, other, _ in both)
        other = "" if other in unknown else other
        titles = columns.title(of), columns.title(at)
        columns.notes.append(CorrectionsUnread(field, *titles, len(differ), line, text, other, is_full))


@functools.lru_cache(100_000)
def are_same(one: str, other: str) -> bool:
    """Is it one text, or one day?"""
    if nearly(one) == nearly(other):
        return True
    try:
        return read_span(one, legible=False) == read_span(other, legible=False)
    except Unreadable:
        return False
