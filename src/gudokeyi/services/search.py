"""Finds animals by what somebody writes for them: one that is meant, or all whose id, name, number or owner has it."""
from __future__ import annotations

import contextlib
import pathlib
from collections.abc import Sequence
from typing import TYPE_CHECKING, NamedTuple

from gudokeyi.domain.animals import NO_OWNER, SocietyRecord
from gudokeyi.domain.folding import folded, tag_of
from gudokeyi.domain.messages import MOST_IN_PASSING, MOST_NAMED, AnyOf, MessageText, Mistake, Some, some_of
from gudokeyi.domain.mistakes import AnimalAmbiguous, AnimalNotFound, InvalidValue
from gudokeyi.domain.requests import Naming, NotSuch
from gudokeyi.domain.spelling import closest
from gudokeyi.ingest.texts import as_known, clean
from gudokeyi.store.animal_rows import AnimalRow, digits_of, society_record_of
from gudokeyi.store.book import Book
from gudokeyi.store.conditions import (
    Condition, all_of, but_for, named, nearly_named, with_id, with_id_or_name, with_name, with_number, with_text,
)  # fmt: skip
from gudokeyi.store.own_data import texts_kept
from gudokeyi.store.former_ids import former_ids_of, has_former_ids, ids_now

if TYPE_CHECKING:
    from gudokeyi.services.tables import Table

# Finds an animal by what somebody writes for it.

# so many are named that may be meant
MOST_MEANT = 3


def find(book: Book, word: str, may_be_file: bool = True) -> SocietyRecord:
    """The animal of an id, a number or a name; a mistake where there is none, or several of a name. Who writes a word
    in a terminal may mean a file by it; who writes it elsewhere isn't told what files there are."""
    word = as_known(word, book.society_records)
    animal = book.society_records.get(word)
    if animal:
        tell_others(book, word)
        return animal
    found = book.rows(with_number(word)) or book.rows(with_name(word)) or book.rows(with_id_or_name(word))
    found = found or formerly(book, word) or the_only(book.rows(nearly_named(word)))
    if len(found) == 1:
        return society_record_of(found[0])
    if found:
        ids = Some(sorted(row.id for row in found), MOST_IN_PASSING)
        raise AnimalAmbiguous(Naming.SEVERAL.said(count=len(found), word=word, ids=ids))
    raise not_found(book, word, may_be_file)


def the_only(rows: list[AnimalRow]) -> list[AnimalRow]:
    """The rows, unless these are several: a name that is only nearly meant stands for one alone."""
    return rows if len(rows) == 1 else []


def formerly(book: Book, word: str) -> list[AnimalRow]:
    """The animal that had an id before its was corrected."""
    now = {former.casefold(): id for former, id in ids_now(book).items()}.get(word.casefold())
    if now is None:
        return []
    book.notes.append(f"'{word}' was the id of {now} before it was corrected")
    return book.rows(with_id(now))


def tell_others(book: Book, word: str) -> None:
    """Other animals that have an id as their name, or one as its number."""
    taken = f"'{word}' is taken for the animal with this id"
    others = sorted(row.id for row in book.rows(named(word) & but_for(word)))
    if others:
        book.notes.append(f"{taken}; others have this name: {some_of(others, MOST_IN_PASSING)}")
    for row in book.rows(with_number(word) & but_for(word)):
        book.notes.append(f"{taken}; another has this number: {row.id}")


def not_found(book: Book, word: str, may_be_file: bool) -> Mistake:
    names = [name for row in book.all_rows for name in (row.id, row.name) if name]
    if any(name.startswith(f"{word} ") for name in names):
        return no_animal(word, Naming.WITH_BLANKS.said())
    if may_be_file and is_file(word):
        return AnimalNotFound(Naming.IS_FILE.said(word=word))
    parts = list(dict.fromkeys(name for name in names if word.casefold() in name.casefold()))
    if len(parts) > MOST_MEANT:
        return no_animal(word, Naming.MANY_PARTS.said())
    close = parts or closest(word, names)
    return no_animal(word, Naming.MEANT.said(names=AnyOf(close)) if close else Naming.FIND.said())


def is_file(word: str) -> bool:
    with contextlib.suppress(OSError):
        return pathlib.Path(word).is_file()
    return False


def no_animal(word: str, hint: MessageText) -> Mistake:
    return AnimalNotFound(Naming.NO_ANIMAL.said(word=word, hint=hint))


# Finds animals by a part of their id, name, number or owner.

# so many words a search has
MOST_WORDS = 20
# so many letters of a note are shown that is found
MOST_SHOWN = 60


class Why(NamedTuple):
    """Why an animal is found, where that isn't seen: by ids that it had before its was corrected, by its number, or
    by a note or a value of the society's own."""

    former_ids: tuple[str, ...] = ()
    number: str = ""
    kept: str = ""


def animals_found(book: Book, words: Sequence[str]) -> Table:
    """The animals in which each of the words stands, with capitals or without, in age order."""
    # who names an animal waits for no list
    from gudokeyi.services.lists import FOUND, animals_table

    condition = condition_of_words(book, words)
    found = animals_table(book, condition, FOUND)
    if not len(found):
        raise nothing_found(book, words)
    if has_former_ids(book):
        for row in book.rows(condition, in_age_order=True):
            book.notes += [
                f"'{id}' was the id of {row.id} before it was corrected"
                for id in why_found(book, row, words).former_ids
            ]
    return found


def condition_of_words(book: Book, words: Sequence[str]) -> Condition:
    """What holds for an animal that is found."""
    if len(words) > MOST_WORDS:
        raise InvalidValue(NotSuch.WORDS.said(most=MOST_WORDS, count=len(words)))
    return all_of(condition_of_word(book, word) for word in words)


def condition_of_word(book: Book, word: str) -> Condition:
    text = clean(word).casefold()
    if not text:
        raise Mistake("find needs a text: write a part of an id, a name, a number or an owner")
    owner_codes = [code for owner, code in book.owners.items() if folded(text) in folded(owner) and code != NO_OWNER]
    return with_text(text, owner_codes)


def why_found(book: Book, row: AnimalRow, words: Sequence[str]) -> Why:
    """What of an animal has a word that neither its id and name nor its owner have, which lists show."""
    shown = [row.id, row.name, book.owner_of(row.owner_code or NO_OWNER)]
    lacks = [word for word in map(clean, words) if not any(has_text(text, word) for text in shown)]
    former = former_ids_of(book, digits_of(row)) if lacks else []
    had = tuple(id for id in former if any(has_text(id, word) for word in lacks))
    number = row.registration_number if any(word.upper() in row.registration_number for word in lacks) else ""
    kept = texts_kept(book.connection, digits_of(row)) if lacks and not had and not number else []
    found = next((text for text in kept if any(folded(word) in folded(text) for word in lacks)), "")
    return Why(had, "" if had else number, shortened(found))


def shortened(text: str) -> str:
    """The beginning of a text, in a line."""
    line = " ".join(text.split())
    return line if len(line) <= MOST_SHOWN else f"{line[:MOST_SHOWN]}…"


def has_text(text: str, word: str) -> bool:
    """Has a text that is shown a word, however that is written?"""
    return folded(word) in folded(text) or bool(tag_of(word)) and tag_of(word) in tag_of(text)


def nothing_found(book: Book, words: Sequence[str]) -> Mistake:
    names = [name for row in book.all_rows for name in (row.id, row.name) if name] + list(book.owners)
    near = closest(" ".join(words), names)
    hint = f"is {' or '.join(near)} meant?" if near else "try a shorter part"
    what = " and ".join(f"'{word}'" for word in words)
    return Mistake(f"no id, name, number or owner has {what}: {hint}")


# Finds the animals that a file names.


def named_in(path: pathlib.Path, book: Book) -> list[SocietyRecord]:
    """The animals that a file names, one id a line."""
    from gudokeyi.ingest.pedigree_files import read_ids

    if not path.exists():
        raise Mistake(f"there is no file {path}: write the ids into one, each in a line, and name that")
    found: list[SocietyRecord] = []
    faults: list[str] = []
    for id in read_ids(path, book.society_records.__contains__):
        try:
            found.append(find(book, id))
        except Mistake as mistake:
            faults += mistake.sentences
    if faults:
        raise Mistake(*(f"{path}: {fault}" for fault in faults[:MOST_NAMED]), *further(len(faults)))
    return found


def further(count: int) -> list[str]:
    """That there are more than are named, if there are."""
    return [f"and {count - MOST_NAMED} more"] if count > MOST_NAMED else []
