"""Rows that say of their animals what the book has of them, and nothing else. In a sheet that is taken again most do,
and by themselves they change nothing: what changes something is looked for in the others alone."""
from __future__ import annotations

import itertools
import operator
from collections.abc import Collection, Iterable, Mapping

from gudokeyi.domain.animals import NO_OWNER, SocietyRecord
from gudokeyi.domain.commands import RegisterRecord
from gudokeyi.domain.kinds import Role, Standing
from gudokeyi.domain.provenance import GIVEN_BIRTH, GIVEN_EXIT, SexSource
from gudokeyi.ingest.animals import DAM_OF, SIRE_OF, SheetAnimal
from gudokeyi.ingest.days import Span
from gudokeyi.reconcile.animals_of_book import OTHER_SEX, AnimalsOfBook
from gudokeyi.store.book import Book

# what a row says of its animal, and what was found in place of what it doesn't say
VALUES = operator.attrgetter(
    "name", "sex", "birth", "sire", "dam", "owner", "left", "embryo", "castrated", "owner_before", "unread",
    "birth_basis", "exit_basis", "sex_source",
)  # fmt: skip
SINCE_OF = operator.attrgetter("since")
OWNER_CODE_OF = operator.attrgetter("owner_code")
# of a row that has all in its cells
ALL_GIVEN: tuple[object, ...] = ("", [], GIVEN_BIRTH)


class RowsOfBook:
    """What the rows of a book's animals say where they say nothing new. Animals of which something was inferred or
    filed by hand have no such row."""

    def __init__(self, book: Book, in_book: AnimalsOfBook, before: RowsOfBook | None = None) -> None:
        """`before` are those of the same animals, of which some may have had other ids, and whose owners other names;
        nobody asks them any more."""
        self.in_book, self.owners = in_book, {**book.owners}
        self.society_records, self.records, self.ids = in_book.society_records, in_book.records, in_book.ids
        self.names = {NO_OWNER: "", **{code: owner for owner, code in self.owners.items()}}
        # by the ids; those of a sheet's rows, once some were found to be equal
        self.values: dict[str, tuple[object, ...]] = {}
        self.are_of_rows = False
        # the rows before, and the ids of those that say something else now
        self.before, self.found_anew = before, frozenset[str]()
        if before is None:
            self.find_values(self.society_records.values())
        else:
            self.take_over(before)

    def take_over(self, before: RowsOfBook) -> None:
        """Values that stay what they were."""
        self.values, self.are_of_rows, before.before = before.values, before.are_of_rows, None
        gone, codes = self.other_ids(before), {code for code, _ in self.names.items() ^ before.names.items()}
        those = self.animals_with(codes, {before.society_records[id].registration_number for id in gone})
        for id in gone:
            self.values.pop(id, None)
        self.find_values(those)
        self.found_anew = frozenset(one.id for one in those).union(gone)

    def other_ids(self, before: RowsOfBook) -> set[str]:
        """The ids that animals had before, and haven't now."""
        had, have = before.in_book.new_tags, self.in_book.new_tags
        return {had.get(id, id) for id in {*had, *have} if had.get(id) != have.get(id)}

    def animals_with(self, owner_codes: Collection[int], numbers: Collection[str]) -> list[SocietyRecord]:
        """Those of some owners, those of some numbers, and the offspring of these."""
        records, found = self.records.values(), {*numbers}
        for of, values in (OWNER_CODE_OF, owner_codes), (SIRE_OF, numbers), (DAM_OF, numbers):
            if values:
                found.update(itertools.compress(self.records, map(values.__contains__, map(of, records))))
        return [self.society_records[self.ids[number]] for number in found]

    def find_values(self, those: Iterable[SocietyRecord]) -> None:
        for in_book in those:
            record = self.records[in_book.registration_number]
            if is_given(in_book) and record.owner_code in self.names:
                self.values[in_book.id] = self.values_of(in_book, record)
            else:
                self.values.pop(in_book.id, None)

    def values_of(self, in_book: SocietyRecord, record: RegisterRecord) -> tuple[object, ...]:
        return (
            in_book.name, in_book.registration_number[6], Span(record.born, record.born), self.ids[record.sire],
            self.ids[record.dam], self.names[record.owner_code], record.left, record.embryo, in_book.castrated,
            *ALL_GIVEN, in_book.exit, SexSource.GIVEN,
        )  # fmt: skip

    def others(self, rows: Mapping[str, SheetAnimal]) -> dict[str, SheetAnimal]:
        """The rows that may say something else."""
        are_others = map(operator.ne, map(self.values.get, rows), map(VALUES, rows.values()))
        others = {*itertools.compress(rows, are_others)}
        with_day = [(id, since) for id, since in zip(rows, map(SINCE_OF, rows.values())) if since and id not in others]
        others.update(id for id, since in with_day if not self.has_since(since, id))
        return {id: row for id, row in rows.items() if id in others} if others else {}

    def same(self, rows: Mapping[str, SheetAnimal]) -> set[str]:
        """The ids of the rows that say nothing else."""
        ids = rows.keys() - self.others(rows).keys()
        if not self.are_of_rows:
            # these are the same objects at the next look, which compare in no time
            self.values.update(zip(ids, map(VALUES, map(rows.__getitem__, ids))))
            self.are_of_rows = True
        return ids

    def has_since(self, since: Span, id: str) -> bool:
        return since.has(self.records[self.society_records[id].registration_number].since)

    def may_disagree(self, others: Iterable[SheetAnimal]) -> bool:
        """May any animal be a parent of the other sex, or of another one in the book, where all other rows say what the
        book has?"""
        folded, rows = self.in_book.folded, [*others]
        own, parents = folded.own, folded.parents
        texts = {role.sex: {row.parent(role).casefold() for row in rows} for role in Role}
        if not folded.agree() or any(not own[sex].isdisjoint(texts[OTHER_SEX[sex]]) for sex in own):
            return True
        for row in rows:
            if row.sex and (in_book := self.society_records.get(row.id)) and in_book.registration_number[6] != row.sex:
                return True
            named = {row.id.casefold(), row.name.casefold()} - {""}
            other = OTHER_SEX.get(row.sex, "")
            if other and not (named.isdisjoint(parents[other]) and named.isdisjoint(texts[other])):
                return True
        return False


def is_given(in_book: SocietyRecord) -> bool:
    """Has a row all that the book has of it?"""
    return (
        in_book.standing is Standing.ROW and not in_book.by_hand and in_book.sex is SexSource.GIVEN
        and (in_book.birth is GIVEN_BIRTH or in_book.birth == GIVEN_BIRTH)
        and (in_book.exit is GIVEN_EXIT or not in_book.exit.is_inferred)
        and not in_book.written_sire and not in_book.written_dam
    )  # fmt: skip
