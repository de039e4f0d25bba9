"""Columns of second owners, as `Besitzer 2`, beside that from which owners are read."""
from __future__ import annotations

from collections.abc import Container

from gudokeyi.domain.kinds import Field
from gudokeyi.ingest.columns import Columns
from gudokeyi.ingest.findings.columns_unread import SecondOwnersUnread
from gudokeyi.ingest.texts import listed, plain
from gudokeyi.ingest.titles import KNOWN_TITLES

# what stands before a usual title, or behind it, and whole titles
NUMBERS = "2", "3", "4", "5", "6", "7", "8", "9"
BEFORE = *NUMBERS, *(
    plain(word) for word in listed(
        "zweiter, zweite, dritter, second, secondary, third, 2nd, 3rd, 2ème, 3ème, 2e, 3e, deuxième"
    )
)  # fmt: skip
WHOLE = {plain(title) for title in listed("Mitbesitzer, Mitbesitzerin, Miteigentümer, co-owner, copropriétaire")}


def names_second_owner(title: str) -> bool:
    compared = plain(title)
    titles = [compared[len(word) :] for word in BEFORE if compared.startswith(word)]
    titles += [compared[:-1]] if compared.endswith(NUMBERS) else []
    return compared in WHOLE or any(one in KNOWN_TITLES[Field.OWNER] for one in titles)


def tell_second_owners(columns: Columns, unknown: Container[str]) -> None:
    of = columns.found.get(Field.OWNER)
    if of is None:
        return
    titles = [(at, title) for at, title in enumerate(columns.sheet.titles) if title and columns.is_free(at)]
    for at in [at for at, title in titles if names_second_owner(title)]:
        both = zip(columns.sheet.rows, columns.cells(of), columns.cells(at))
        said = [(row.line, text, other) for row, other, text in both if text not in unknown and text != other]
        if said:
            line, text, other = said[0]
            other = "" if other in unknown else other
            found = SecondOwnersUnread(columns.title(of), columns.title(at), len(said), line, text, other)
            columns.notes.append(found)
