"""Parents that a test of genes tells, in a column beside that from which they are read, as `Vater gemäss DNA`."""
from __future__ import annotations

import itertools
from collections.abc import Mapping
from typing import Container

from gudokeyi.domain.kinds import Field, Role
from gudokeyi.ingest.columns import Columns
from gudokeyi.ingest.findings.columns import ParentsBeside
from gudokeyi.ingest.findings.dams import GenesDiffer
from gudokeyi.ingest.parent_titles import MOST_ALIKE, names_parent
from gudokeyi.ingest.sheets import Sheet
from gudokeyi.ingest.texts import listed, nearly, plain, shape
from gudokeyi.ingest.titles import BETWEEN_WORDS, KNOWN_TITLES

# words of titles that tell of such a test, or of a second parent that may be the one
OF_TESTS = {
    plain(word)
    for word in listed(
        "DNA, DNS, ADN, SNP, genomisch, genomischer, genomische, genomic, génomique, Gentest, genotyped, 2, II, zweiter, "
        "second, alternativ, alternative, möglicher, mögliche, possible"
    )
}


class Written:
    """How parents are written in a sheet: as ids, or names, of its rows, or as others written like these ids."""

    def __init__(self, sheet: Sheet, columns: Mapping[str, int]) -> None:
        ids, names = (sheet.column(columns[name]) if name in columns else [] for name in (Field.ID, Field.NAME))
        self.called = dict(itertools.zip_longest(map(nearly, ids), names, fillvalue="")) if ids else dict[str, str]()
        self.names, self.shapes = {*names} - {""}, {*map(shape, ids)}

    def has(self, text: str) -> bool:
        return nearly(text) in self.called or text in self.names or shape(text) in self.shapes

    def are_one(self, one: str, other: str) -> bool:
        """Do they mean one animal, maybe one by its name?"""
        ids = nearly(one), nearly(other)
        return ids[0] == ids[1] or self.called.get(ids[0]) == other or self.called.get(ids[1]) == one


def tell_parents_by_genes(columns: Columns, unknown: Container[str]) -> None:
    for role in [one for one in Role if one in columns.found]:
        name = Field(role.value)
        titles = [(at, title) for at, title in enumerate(columns.sheet.titles) if title and columns.is_free(at)]
        for at in [at for at, title in titles if names_parent(title, name) and tells_of_test(title)]:
            tell(columns, name, at, unknown)


def tells_of_test(title: str) -> bool:
    return any(plain(word) in OF_TESTS for word in BETWEEN_WORDS.split(title))


def tell(columns: Columns, name: Field, beside: int, unknown: Container[str]) -> None:
    """Rows in which another parent stands than that which is read."""
    read, written = columns.found[name], Written(columns.sheet, columns.found)
    both = zip(columns.sheet.rows, columns.cells(read), columns.cells(beside))
    said = [(row.line, other, text) for row, other, text in both if text not in unknown and written.has(text)]
    lacking = [(line, text) for line, other, text in said if other in unknown]
    differ = [one for one in said if one[1] not in unknown and not written.are_one(*one[1:])]
    titles = columns.title(read), columns.title(beside)
    if differ:
        line, other, text = differ[0]
        is_full = len(said) >= sum(cell not in unknown for cell in columns.cells(read))
        columns.notes.append(GenesDiffer(name, *titles, len(differ), line, text, other, is_full))
    if lacking and plain(titles[1]) not in KNOWN_TITLES[name]:
        others = tuple(line for line, _ in lacking[1:MOST_ALIKE])
        columns.notes.append(ParentsBeside(*titles, len(lacking), *lacking[0], others))
