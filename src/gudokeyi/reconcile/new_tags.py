"""Animals with a new tag: a row with another id, and with the name, the birth day and the parents of an animal of the
book that has no row any more, with its old id in a column that isn't read, or with its id without a sign, is proposed
as that animal; where somebody says so it is, and where the book's id has an apostrophe which cells are read without."""
from __future__ import annotations

import itertools
import re
from collections.abc import Collection, Iterator, Mapping

from gudokeyi.domain.cells import TEXT
from gudokeyi.domain.messages import Mistake
from gudokeyi.ingest.animals import FIRST_OF, SheetAnimal
from gudokeyi.ingest.columns import Columns
from gudokeyi.ingest.findings.columns import SheetFinding
from gudokeyi.ingest.marked_ids import SIGNS, without_sign
from gudokeyi.ingest.sheets import without_apostrophe
from gudokeyi.ingest.texts import nearly
from gudokeyi.ingest.titles import parts_of
from gudokeyi.reconcile.findings.same_animals import (
    IdsWithApostrophe, NewTag, OldTag, SameButForSign, TagWithoutSign,
)  # fmt: skip
from gudokeyi.reconcile.messages import ImportFault
from gudokeyi.reconcile.next_book import NextBook
from gudokeyi.store.book import Book
from gudokeyi.store.former_ids import former_ids_of, ids_that_begin


def pairs_of(words: list[str]) -> dict[str, str]:
    """The ids of now by those of the book, as `--new-tag OLD=NEW` has them."""
    found = {}
    for part in parts_of(words):
        before, equals, now = (piece.strip() for piece in part.partition("="))
        if not equals or not before or not now:
            raise Mistake(ImportFault.NEW_TAG_OPTION.said(word=part))
        found[before] = now
    return found


def call_anew(book: Book, words: list[str]) -> list[SheetFinding]:
    """The animals have their new ids from now on, and are known by those of before. Some may have each other's. Answers
    what is told of those of which nobody said it."""
    for before, now in pairs_of(words).items():
        if is_called_so(book, before, now):
            continue
        if before not in book.society_records:
            raise Mistake(ImportFault.NEW_TAG_LACKS.said(word=f"{before}={now}", before=before))
        book.new_tags[before] = now
    apart = without_apostrophes(book) if book.society_records else {}
    book.new_tags |= apart
    refuse_twice(book)
    if book.new_tags:
        book.take_new_tags()
    return [IdsWithApostrophe(len(apart), *pair) for pair in [*apart.items()][:1]]


def without_apostrophes(book: Book) -> dict[str, str]:
    """The ids of the book as cells are read that have them, by those that it took with an apostrophe before them."""
    pairs = ((id, without_apostrophe(id)) for id in ids_that_begin(book, TEXT) if id not in book.new_tags)
    taken = {*book.new_tags.values()}
    return {id: now for id, now in pairs if now != id and now not in book.society_records and now not in taken}


def is_called_so(book: Book, before: str, now: str) -> bool:
    """Was the new id taken before? Of animals that exchanged their ids each has the other's former one."""
    known = book.society_records.get(now)
    return known is not None and (before not in book.society_records or before in former_ids_of(book, known.digits))


def refuse_twice(book: Book) -> None:
    """A mistake where two animals would have one id."""
    stay = book.society_records.keys() - book.new_tags.keys()
    for before, now in book.new_tags.items():
        if now in stay:
            raise Mistake(ImportFault.NEW_TAG_IS_THERE.said(word=f"{before}={now}", now=now))
        stay.add(now)


def tell_new_tags(next_book: NextBook, gone: Mapping[str, SheetAnimal], columns: Columns | None) -> None:
    """Rows of new animals that may be those that have no row any more. Parents are found before their offspring, whose
    parents they are by either tag."""
    records = next_book.book.society_records
    lost = {id: animal for id, animal in gone.items() if records[id].standing.had_row()}
    rows = next_book.rows_otherwise() if lost else []
    new = [animal for animal in rows if animal.line and animal.id not in records]
    by_values: dict[object, list[str]] = {}
    for id, animal in lost.items():
        if animal.name and animal.has_day():
            by_values.setdefault(alike(animal, {}), []).append(id)
    former: dict[str, str] = {}
    for animal in sorted(new, key=FIRST_OF):
        found = by_values.get(alike(animal, former), []) if animal.name and animal.has_day() else []
        if len(found) == 1:
            former[animal.id] = found[0]
            next_book.report.add(animal.line, animal.id, NewTag(found[0], animal.id))
    others = {animal.line: animal for animal in new if animal.id not in former}
    if columns and others and lost:
        tell_old_tags(next_book, others, lost, columns)


def alike(animal: SheetAnimal, former: Mapping[str, str]) -> object:
    """What two rows of one animal have in common; `former` are the ids of before by those of now."""
    parents = (former.get(parent, parent) for parent in (animal.sire, animal.dam))
    return animal.name.casefold(), animal.birth.first, *parents


# Old tags in columns that aren't read.

# an id is so many words of a cell at most
MOST_WORDS = 4


def tell_old_tags(
    next_book: NextBook, new: Mapping[int, SheetAnimal], lost: Mapping[str, SheetAnimal], columns: Columns
) -> None:
    """New rows, by their lines, with the id of an animal that has no row any more."""
    ids: dict[str, str] = {nearly(id): id for id in lost}
    places = [at for at, title in enumerate(columns.sheet.titles) if title and columns.is_free(at)]
    for row in columns.sheet.rows if places else ():
        animal = new.get(row.line)
        for at in places if animal else ():
            text = row.cells[at] if at < len(row.cells) else ""
            named = {ids[part] for part in parts_in(text) if part in ids}
            if animal and len(named) == 1 and may_be_one(animal, lost[before := named.pop()]):
                next_book.report.add(row.line, animal.id, OldTag(before, animal.id, columns.title(at), text))
                break


def parts_in(text: str) -> Iterator[str]:
    """The words of a text that follow one another, as ids are compared."""
    words = re.split(r"[\s,;:()=]+", text)
    for at in range(len(words)):
        for count in range(1, MOST_WORDS + 1):
            yield nearly("".join(words[at : at + count]))


def may_be_one(one: SheetAnimal, other: SheetAnimal) -> bool:
    """Does nothing that both rows say of sex and birth speak against it, and have they the day or the name?"""
    if one.sex and other.sex and one.sex != other.sex:
        return False
    if one.has_day() and other.has_day():
        return one.birth.first == other.birth.first
    return bool(one.name) and one.name.casefold() == other.name.casefold()


# Ids with a sign before them, by which animals leave, as `†DE 103`: earlier versions took them as they stood.


def ids_with_signs(book: Book) -> dict[str, str]:
    """The ids of the book that have such a sign, each with what stands behind it."""
    begin = [id for sign in SIGNS for id in ids_that_begin(book, sign)] if book.society_records else []
    return {id: now for id in begin if id in book.society_records and (now := without_sign(id))}


def ids_for_sure(book: Book, said: Collection[str]) -> frozenset[str]:
    """Those of animals of the book, and those that are said to be some: not one with a sign that the book has without
    it too."""
    records = book.society_records
    twice = {id for id, now in ids_with_signs(book).items() if now in records}
    return frozenset({*itertools.filterfalse(twice.__contains__, records), *said} if twice else {*records, *said})


def tell_ids_with_signs(next_book: NextBook) -> None:
    """Animals of the book that have no row, and such a sign before the id of one that has: where the book hasn't that
    one it is proposed as their new tag, unless something else proposes them already."""
    animals, records = next_book.animals, next_book.book.society_records
    signs = ids_with_signs(next_book.book)
    lines = {id: animals[id].line for both in signs.items() for id in both if id in animals}
    signs = {id: now for id, now in signs.items() if lines.get(now) and not lines.get(id)}
    findings = [entry.finding for entry in next_book.report.entries] if signs else []
    told = {one.before for one in findings if isinstance(one, (NewTag, OldTag))}
    for before, now in signs.items():
        if now not in records and before not in told:
            next_book.report.add(lines[now], now, TagWithoutSign(before, now))
        elif now in records and before in animals:
            next_book.report.add(lines[now], now, SameButForSign(before))
