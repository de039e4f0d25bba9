"""The words about what a society keeps beside the register: `note`, `own` and `owner` show it, and change it."""
from __future__ import annotations

import argparse
import datetime
from collections.abc import Callable, Iterator
from dataclasses import replace

from gudokeyi.cli.arguments import add_output, day, whole_number
from gudokeyi.cli.output import give_table, tell
from gudokeyi.cli.parser import CommandWords, Parser
from gudokeyi.domain.animals import SocietyRecord
from gudokeyi.domain.changes import Change
from gudokeyi.domain.messages import Mistake
from gudokeyi.domain.mistakes import WrongWords
from gudokeyi.domain.own_columns import OwnColumn
from gudokeyi.services.book_program import BookProgram
from gudokeyi.services.opening import Book, export, opened, there_to_change
from gudokeyi.services.search import find

# what the word `owner` writes of an owner, by its options, and what each is
TEXTS = {
    "name": "another name, in all of the book", "number": "the member number", "address": "the address",
    "mail": "the e-mail", "telephone": "the telephone",
}  # fmt: skip
# what an owner is called of whom all is erased
ERASED = "Owner"
NO_COLUMNS = "the book has no own columns: `import SHEET --own TITLE=KIND` keeps one of a sheet"


def add_words(words: CommandWords) -> None:
    note = words.add("note", do_note, "write a note on an animal, or show those that are there")
    note.add_argument("id", metavar="ID", help="the animal, by id, name or number")
    note.add_argument("text", nargs="?", metavar="TEXT", help="the note [all notes are shown]")
    note.add_argument("--day", type=day, metavar="DAY", help="its day, as 2001-03-01 [today, or as it is]")
    note.add_argument("--number", type=whole_number, metavar="N", help="this note is written otherwise [a new one]")
    note.add_argument("--remove", action="store_true", help="with --number: it is removed")
    own = words.add("own", do_own, "write the values of own columns of an animal, or show them")
    own.add_argument("id", nargs="?", metavar="ID", help="the animal, by id, name or number [the columns are shown]")
    own.add_argument(
        "values", nargs="*", metavar="TITLE=VALUE", help="a column and what stands in it, nothing to empty it"
    )
    add_owner(words)


def add_owner(words: CommandWords) -> None:
    owner = words.add("owner", do_owner, "write what is kept of an owner, or show it")
    owner.add_argument("owner", nargs="?", metavar="NAME", help="the owner [all are written, as CSV]")
    for name, what in TEXTS.items():
        owner.add_argument(f"--{name}", metavar="TEXT", help=f"{what} [as it is]")
    owner.add_argument("--into", metavar="NAME", help="all that it has or had becomes that of this owner")
    owner.add_argument("--erase", action="store_true", help="erase what was personal for good, also in the history")
    owner.add_argument("--anyway", action="store_true", help="with --erase: that is meant")
    add_output(owner)


def changed(asked: argparse.Namespace, make: Callable[[Book, BookProgram], Change]) -> Change:
    """A change of the book, behind which its files are written."""
    program = BookProgram()
    with there_to_change(asked.book, program) as book:
        change = make(book, program)
        notes = book.notes + export(book.folder)
    for note in notes:
        tell(note)
    return change


def shown(asked: argparse.Namespace, lines: Callable[[Book], Iterator[str]]) -> None:
    """What the book has, line by line."""
    with opened(asked.book, BookProgram()) as book:
        for line in lines(book):
            print(line)
    for note in book.notes:
        tell(note)


def called(animal: SocietyRecord) -> str:
    return f"{animal.id} ({animal.registration_number})"


# Notes.


def do_note(asked: argparse.Namespace) -> None:
    from gudokeyi.services.notes import note_numbered, write_note

    if asked.text is None and not asked.remove:
        if asked.number is not None or asked.day:
            raise WrongWords("note needs the text that is to stand there, or --remove")
        shown(asked, lambda book: notes_shown(book, find(book, asked.id)))
        return
    if asked.remove and (asked.text is not None or asked.number is None):
        raise WrongWords("--remove needs the --number of a note, and no text")
    said: list[str] = []

    def make(book: Book, program: BookProgram) -> Change:
        animal = find(book, asked.id)
        before = note_numbered(book, animal, asked.number) if asked.number is not None else None
        if asked.number is not None and before is None:
            raise Mistake(f"{animal.id} has no note {asked.number}: `note {animal.id}` shows its notes")
        today = before.day if before else datetime.date.today().isoformat()
        said.append(called(animal))
        on = asked.day or datetime.date.fromisoformat(today)
        return write_note(book, program, animal, asked.text or "", on, before)

    change = changed(asked, make)
    print(f"{said[0]}: the note is {'removed' if asked.remove else 'kept'}: change {change.number}")


def notes_shown(book: Book, animal: SocietyRecord) -> Iterator[str]:
    from gudokeyi.services.notes import notes_of

    notes = notes_of(book, animal)
    yield f"{animal.id}  {animal.name}".rstrip() + ("" if notes else ": no notes")
    for note in notes:
        yield f"  {note.number}  {note.day}  {note.author}"
        yield from (f"     {line}" for line in note.text.splitlines())


# The society's own columns.


def do_own(asked: argparse.Namespace) -> None:
    from gudokeyi.services.own_columns import columns_of, write_values

    if not asked.id:
        shown(asked, columns_shown)
        return
    if not asked.values:
        shown(asked, lambda book: values_shown(book, find(book, asked.id)))
        return
    said: list[str] = []

    def make(book: Book, program: BookProgram) -> Change:
        animal = find(book, asked.id)
        said.append(called(animal))
        return write_values(book, program, animal, dict(value_in(columns_of(book), text) for text in asked.values))

    change = changed(asked, make)
    print(f"{said[0]}: kept: change {change.number}")


def columns_shown(book: Book) -> Iterator[str]:
    from gudokeyi.services.own_columns import columns_of

    columns = columns_of(book)
    yield from [NO_COLUMNS] * (not columns)
    for one in columns:
        choices = f" ({', '.join(one.choices)})" if one.choices else ""
        yield f"{one.title}: {one.kind}{choices}{', on certificates' * one.is_certified}"


def values_shown(book: Book, animal: SocietyRecord) -> Iterator[str]:
    from gudokeyi.services.own_columns import values_of

    values = values_of(book, animal)
    yield f"{animal.id}  {animal.name}".rstrip() if values else NO_COLUMNS
    for one in values:
        yield f"  {one.column.title}: {one.value or '-'}"


def value_in(columns: list[OwnColumn], text: str) -> tuple[int, str]:
    """The place of a column and what is to stand in it; a title may have the sign itself."""
    if not columns:
        raise Mistake(NO_COLUMNS)
    begun = [one for one in columns if text.casefold().startswith(f"{one.title}=".casefold())]
    if not begun:
        titles = ", ".join(one.title for one in columns)
        raise Mistake(f"'{text}' doesn't begin with the title of an own column and =: there are {titles}")
    column = max(begun, key=lambda one: len(one.title))
    return column.place, text[len(column.title) + 1 :]


# Owners.


def do_owner(asked: argparse.Namespace) -> None:
    from gudokeyi.services.members import members_table

    texts = {name: getattr(asked, name) for name in TEXTS if getattr(asked, name) is not None}
    if asked.owner is None:
        if texts or asked.into or asked.erase:
            raise WrongWords("owner needs the owner's name")
        with opened(asked.book, BookProgram()) as book:
            give_table(asked, book, members_table(book))
        return
    if bool(texts) + bool(asked.into) + asked.erase > 1:
        raise WrongWords("say one of what is kept of the owner, --into and --erase")
    if asked.erase and not asked.anyway:
        raise Mistake(
            f"what is kept of '{asked.owner}' would be gone for good, also from the history: see whether the law asks "
            "that breeders and owners are kept, and say --anyway if not"
        )
    if not (texts or asked.into or asked.erase):
        shown(asked, lambda book: owner_shown(book, asked.owner))
        return
    change = changed(asked, lambda book, program: change_owner(book, program, asked, texts))
    done = f"is {asked.into} now" if asked.into else "is erased" if asked.erase else "is kept"
    print(f"{'the owner' if asked.erase else asked.owner} {done}: change {change.number}")


def change_owner(book: Book, program: BookProgram, asked: argparse.Namespace, texts: dict[str, str]) -> Change:
    from gudokeyi.services.members import erase, member_named, merge, write_member

    owner = member_named(book, asked.owner)
    if asked.erase:
        return erase(book, program, owner, ERASED)
    if asked.into:
        return merge(book, program, owner, member_named(book, asked.into))
    return write_member(book, program, owner, replace(owner, **texts))


def owner_shown(book: Book, name: str) -> Iterator[str]:
    from gudokeyi.services.members import member_line

    owner, animals, living = member_line(book, name)
    yield owner.name
    said = {
        "member number": owner.number, "address": ", ".join(owner.address.splitlines()), "e-mail": owner.mail,
        "telephone": owner.telephone, "animals": f"{animals}, {living} living",
    }  # fmt: skip
    yield from (f"  {what:<13} {text}" for what, text in said.items() if text)
