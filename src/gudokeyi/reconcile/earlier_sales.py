"""Sales to an owner of the society without a day, as `verkauft an Meier`, which stood there already when the last sheet
was taken: an owner who is written since has the animal, and not the one to whom it was sold before."""
from __future__ import annotations

from gudokeyi.domain.findings import Entry
from gudokeyi.domain.kinds import CELL_FIELDS, Field
from gudokeyi.ingest.animals import SheetAnimal
from gudokeyi.ingest.findings.sales import SoldWithin
from gudokeyi.reconcile.findings.rows import OwnerAfterSale
from gudokeyi.reconcile.next_book import NextBook


def leave_earlier_sales(next_book: NextBook) -> None:
    """Gives animals the owners of their cells in place of takers of such sales."""
    kept = list[Entry]()
    for entry in next_book.report.entries:
        found, animal = entry.finding, next_book.animals.get(entry.id)
        if not isinstance(found, SoldWithin) or animal is None or not is_earlier(next_book, animal, found):
            kept.append(entry)
            continue
        if not is_owner_of_book(next_book, animal, found.before):
            kept.append(Entry(entry.line, entry.id, OwnerAfterSale(found.text, found.owner, found.before)))
        animal.owner, animal.owner_before = found.before, ""
    next_book.report.entries = kept


def is_earlier(next_book: NextBook, animal: SheetAnimal, found: SoldWithin) -> bool:
    """Had the last sheet the sale already, and is the owner of the cell another one since, or the one of the book?"""
    before = next_book.book.cells.get((animal.id,))
    if before is None or not found.before or animal.since is not None:
        return False
    cells, alike = dict(zip(CELL_FIELDS, before[1:])), next_book.meanings.are_alike
    exit, owner = (alike(animal.id, one, cells.get(one), animal.cells.get(one, "")) for one in (Field.EXIT, Field.OWNER))
    return exit and (not owner or is_owner_of_book(next_book, animal, found.before))


def is_owner_of_book(next_book: NextBook, animal: SheetAnimal, owner: str) -> bool:
    book = next_book.book
    record = book.records[book.society_records[animal.id].registration_number]
    return book.owner_of(record.owner_code) == book.respelt(owner)
