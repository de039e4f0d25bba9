"""What another program asks for, as a command of the book: animals are named by the society's ids, or by their
numbers."""
from __future__ import annotations

from collections.abc import Callable, Iterator
from typing import Any

from gudokeyi.domain.animals import SocietyRecord
from gudokeyi.domain.messages import Mistake
from gudokeyi.ingest.texts import as_known
from gudokeyi.reconcile.unknown_parents import unknown_parents
from gudokeyi.services.batch_fields import Asked, FieldFault, Newborn
from gudokeyi.services.filing import (
    FiledCommand, NewAnimals, Offspring, born, departed, transferred, with_parents,
)  # fmt: skip
from gudokeyi.store.animal_rows import society_record_of
from gudokeyi.store.book import Book
from gudokeyi.store.conditions import with_number
from gudokeyi.store.former_ids import ids_now


def filed_commands(book: Book, asked: Asked, new: NewAnimals) -> Iterator[FiledCommand]:
    """The commands, of a litter one after the other; raises `FieldFault`."""
    values: dict[str, Any] = dict(asked.values)
    if asked.kind in ("birth", "litter"):
        for one in values.get("offspring") or [Newborn(values["id"], values["sex"], values.get("name", ""))]:
            yield at_fault("id", lambda: birth_of(book, one, values, new))
        return
    animal = animal_of(book, "id", values["id"])
    if asked.kind == "parents":
        sire, dam = (parent_of(book, role, values) for role in ("sire", "dam"))
        yield at_fault("", lambda: with_parents(book, animal, sire, dam))
    elif asked.kind == "transfer":
        field = "from" if "from" in values else "to"
        yield at_fault(field, lambda: transferred(book, animal, values["day"], values["to"], values.get("from")))
    else:
        yield departed(book, animal, values["day"])


def birth_of(book: Book, one: Newborn, values: dict[str, Any], new: NewAnimals) -> FiledCommand:
    sire, dam = (parent_of(book, role, values) for role in ("sire", "dam"))
    owner, breed, country = (values.get(name, "") for name in ("owner", "breed", "country"))
    offspring = Offspring(
        one.id, one.sex, values["day"], one.name, record_or_none(sire), record_or_none(dam), owner,
        values.get("embryo", False), breed, country,
    )  # fmt: skip
    return born(book, offspring, new)


def record_or_none(parent: SocietyRecord | str | None) -> SocietyRecord | None:
    return parent if isinstance(parent, SocietyRecord) else None


def at_fault(field: str, make: Callable[[], FiledCommand]) -> FiledCommand:
    """A command, or a fault of a field where it can't be meant."""
    try:
        return make()
    except Mistake as mistake:
        raise FieldFault(field, mistake.sentences[0]) from None


def animal_of(book: Book, field: str, word: str) -> SocietyRecord:
    """The animal with an id, or that had it before it was corrected, or with a number."""
    word = as_known(word, book.society_records)
    animal = book.society_records.get(word)
    if animal:
        return animal
    rows = book.rows(with_number(word))
    if rows:
        return society_record_of(rows[0])
    now = ids_now(book).get(word)
    if now is None:
        told = f"the book has no animal '{word}': file its birth before, or write its id as in the book"
        raise FieldFault(field, told)
    return book.society_records[now]


def parent_of(book: Book, role: str, values: dict[str, Any]) -> SocietyRecord | str | None:
    """The parent that is named, empty for an unknown one, and none where none is said."""
    if role not in values:
        return None
    word = values[role]
    return "" if not word or word in unknown_parents(book) else animal_of(book, role, word)
