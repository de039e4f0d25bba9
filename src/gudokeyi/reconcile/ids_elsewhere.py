"""Animals that a parent's cell means by another number of theirs, which stands in a column that isn't read."""
from __future__ import annotations

import collections
from collections.abc import Collection, Iterable, Mapping

from gudokeyi.ingest.animals import SheetAnimal
from gudokeyi.ingest.column_detection import MOST_COMPARED
from gudokeyi.ingest.columns import Columns

# a shorter text stands in other columns by chance, and so does one that stands in several rows
LEAST_LETTERS = 5


def ids_elsewhere(
    columns: Columns, animals: Iterable[SheetAnimal], texts: Collection[str]
) -> Mapping[str, Collection[str]]:
    """The ids of the only animal in whose row such a column has one of some texts with digits, by these."""
    wanted = {text for text in texts if len(text) >= LEAST_LETTERS and any(map(str.isdigit, text))}
    free = [at for at, title in enumerate(columns.sheet.titles) if title and columns.is_free(at)][:MOST_COMPARED]
    free = [at for at in free if not wanted.isdisjoint(columns.cells(at))] if wanted else []
    ids = {animal.line: animal.id for animal in animals if animal.line} if free else {}
    found = collections.defaultdict[str, list[str]](list)
    for at in free:
        for row, text in zip(columns.sheet.rows, columns.cells(at)):
            if text in wanted and row.line in ids:
                found[text].append(ids[row.line])
    return {text: {*those} for text, those in found.items() if len(those) == 1}
