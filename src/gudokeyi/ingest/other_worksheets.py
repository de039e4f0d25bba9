"""The ids on worksheets of a workbook beside the one that is read."""
from __future__ import annotations

from collections.abc import Mapping, Sequence

from gudokeyi.domain.kinds import Field
from gudokeyi.ingest.texts import clean, plain
from gudokeyi.ingest.titles import KNOWN_TITLES
from gudokeyi.ingest.titles_within import needed_in

# so many of the columns that a sheet has to have are those of animals
LEAST = 3
# of each other worksheet with animals their ids, by its title
OtherIds = Mapping[str, tuple[str, ...]]


def are_titles_of_animals(cells: Sequence[str]) -> bool:
    return needed_in(cells) >= LEAST and id_column(cells) >= 0


def id_column(titles: Sequence[str]) -> int:
    """Its place, -1 where no title is known as one of ids."""
    return next((at for at, title in enumerate(titles) if plain(title) in KNOWN_TITLES[Field.ID]), -1)


def ids_below(rows: Sequence[list[str]]) -> tuple[str, ...]:
    """The ids of the rows below the titles that have another cell too."""
    first = next(at for at, cells in enumerate(rows) if are_titles_of_animals(cells))
    column = id_column(rows[first])
    below = [cells for cells in rows[first + 1 :] if sum(map(bool, cells)) > 1]
    return tuple(dict.fromkeys(clean(cells[column]) for cells in below if cells[column]))
