"""The words that file one command: `birth`, `parents`, `transfer` and `exit`."""
from __future__ import annotations

import argparse
from collections.abc import Callable
from dataclasses import replace

from gudokeyi.cli.arguments import add_anyway, day, sex, three_letters
from gudokeyi.cli.output import tell
from gudokeyi.cli.parser import CommandWords, Parser
from gudokeyi.domain.animals import SocietyRecord
from gudokeyi.domain.changes import Option
from gudokeyi.domain.kinds import ChangeKind, ExitReason
from gudokeyi.domain.mistakes import RegisterRefused, WrongWords
from gudokeyi.services.filing import (
    FiledCommand, Offspring, born, departed, file, parent_named, transferred, with_parents,
)  # fmt: skip
from gudokeyi.services.filing_warnings import looked_at, refuse_unseen
from gudokeyi.services.filing_session import seen_whole, session_to_file, to_file
from gudokeyi.services.litters import FiledLitter, Litter, Newborn, born_together, file_litter
from gudokeyi.services.opening import Book, export
from gudokeyi.services.search import find

# the command that somebody wishes, given the book
Wished = Callable[[argparse.Namespace, Book], FiledCommand]
# what isn't an option of a command
NO_OPTIONS = ("word", "book", "does", "id", "anyway")


def add_words(words: CommandWords) -> None:
    kept = "A refused one is kept in the book's history too, with the program's reply."
    birth = words.add("birth", does(wished_birth), "file a birth", kept)
    birth.add_argument("id", metavar="ID", help="the newborn's id")
    birth.add_argument("--sex", type=sex, required=True, metavar="SEX", help="m or f")
    birth.add_argument("--name", default="", help="its name")
    add_parents(birth, "[unknown]")
    birth.add_argument("--owner", default="", metavar="NAME", help="its owner [not known]")
    birth.add_argument("--embryo", action="store_true", help="it comes from a stored embryo")
    for option in "--breed", "--country":
        birth.add_argument(
            option, type=three_letters, metavar="ABC", help=f"the number's {option[2:]} [as set, or as in the book]"
        )
    add_litter(words)
    parents = words.add("parents", does(wished_parents), "file other parents of an animal", kept)
    add_parents(parents, "or 0 for an unknown one [as in the book]")
    transfer = words.add("transfer", does(wished_transfer), "file another owner of an animal", kept)
    transfer.add_argument("--to", required=True, metavar="OWNER", help="the new owner")
    transfer.add_argument("--from", dest="from_owner", metavar="OWNER", help="who gives it [its owner in the book]")
    exit = words.add("exit", does(wished_exit), "file that an animal left, by death or sale", kept)
    exit.add_argument("--reason", choices=(*ExitReason,), help="why it left [not known]")
    for one in parents, transfer, exit:
        one.add_argument("id", metavar="ID", help="the animal, by id, name or number")
    for one in birth, parents, transfer, exit:
        add_anyway(one)
    for one in birth, transfer, exit:
        one.add_argument("--day", type=day, required=True, metavar="DAY", help="the day, as 2001-03-01")


def add_litter(words: CommandWords) -> None:
    one = words.add(
        "litter", do_litter, "file all births of a dam on one day", "The register takes all of them, or none."
    )
    one.add_argument("dam", metavar="DAM", help="the dam, by id, name or number")
    one.add_argument("--sire", metavar="ID", help="the sire, by id, name or number [unknown]")
    one.add_argument("--owner", default="", metavar="NAME", help="their owner [not known]")
    one.add_argument("--day", type=day, required=True, metavar="DAY", help="the day, as 2001-03-01")
    one.add_argument(
        "--newborn", action="append", type=newborn, default=[], metavar="SEX[=ID[=NAME]]",
        help="each newborn, as f=DE-101=Berta; without an id it counts on from the one before",
    )  # fmt: skip
    one.add_argument(
        "--stillborn", action="append", dest="newborn", type=stillborn, metavar="SEX[=ID]",
        help="one that was born dead",
    )  # fmt: skip
    add_anyway(one)


def newborn(text: str) -> Newborn:
    letter, _, rest = text.partition("=")
    id, _, name = rest.partition("=")
    return Newborn(sex(letter), id, name)


def stillborn(text: str) -> Newborn:
    return replace(newborn(text), is_stillborn=True)


def do_litter(asked: argparse.Namespace) -> None:
    with session_to_file(asked.book) as program:
        with to_file(asked.book, program) as book:
            one, options = wished_litter(asked, book)
            change = file_litter(book, program, one, options, seen=None if asked.anyway else "")
        seen_whole(asked.book, program, change.number)
    for note in book.notes + export(asked.book):
        tell(note)
    for each in one.births:
        told = f"the birth on {asked.day} is accepted: change {change.number}"
        print(f"{each.animal.id} ({each.animal.registration_number}): {told}")
    for entry in one.warnings:
        tell(f"{entry.id}: {entry.finding.words()}")


def wished_litter(asked: argparse.Namespace, book: Book) -> tuple[FiledLitter, tuple[Option, ...]]:
    """The litter, and the options as they were given."""
    dam = find(book, asked.dam)
    said = Litter(dam, asked.day, parent(book, asked.sire), asked.owner, tuple(asked.newborn))
    texts = {"dam": dam.id, "sire": asked.sire, "day": str(asked.day), "owner": asked.owner}
    return born_together(book, said), tuple(Option(f"--{name}", text) for name, text in texts.items() if text)


def add_parents(word: Parser, otherwise: str) -> None:
    for role in "sire", "dam":
        word.add_argument(f"--{role}", metavar="ID", help=f"the {role}, by id, name or number {otherwise}")


def does(wished: Wished) -> Callable[[argparse.Namespace], None]:
    def filed(asked: argparse.Namespace) -> None:
        with session_to_file(asked.book) as program:
            with to_file(asked.book, program) as book:
                one = looked_at(book, replace(wished(asked, book), options=options_of(asked)))
                if not asked.anyway:
                    refuse_unseen(one.warnings)
                change, refusal = file(book, program, one)
            seen_whole(asked.book, program, change.number)
        for note in book.notes + export(asked.book):
            tell(note)
        if refusal:
            raise RegisterRefused(
                f"{one.animal.id}: {what(one)} refused: {one.refused(refusal).why().words()}. The animals are as "
                f"before; change {change.number} of the history tells of it"
            )
        print(f"{one.animal.id} ({one.animal.registration_number}): {what(one)} accepted: change {change.number}")
        for entry in one.warnings:
            tell(f"{entry.id}: {entry.finding.words()}")

    return filed


def what(one: FiledCommand) -> str:
    """What is refused or accepted."""
    if one.kind is ChangeKind.PARENTS:
        return "the parents are"
    return f"the {one.kind.value} on {one.command.day} is"


def options_of(asked: argparse.Namespace) -> tuple[Option, ...]:
    """The options as they were given."""
    names = {"from_owner": "from"}
    given = ((name, value) for name, value in vars(asked).items() if name not in NO_OPTIONS)
    return tuple(
        Option(f"--{names.get(name, name)}", "" if value is True else str(value)) for name, value in given if value
    )


def parent(book: Book, word: str | None) -> SocietyRecord | None:
    """The animal that is named; none where none is, or a word for an unknown one."""
    return None if word is None else parent_named(book, word)


def wished_birth(asked: argparse.Namespace, book: Book) -> FiledCommand:
    offspring = Offspring(
        asked.id, asked.sex, asked.day, asked.name, parent(book, asked.sire), parent(book, asked.dam), asked.owner,
        asked.embryo, asked.breed or "", asked.country or "",
    )  # fmt: skip
    return born(book, offspring)


def wished_parents(asked: argparse.Namespace, book: Book) -> FiledCommand:
    if asked.sire is None and asked.dam is None:
        raise WrongWords("parents needs one parent or both: name them by --sire and --dam, 0 for an unknown one")
    sire, dam = (None if word is None else parent(book, word) or "" for word in (asked.sire, asked.dam))
    return with_parents(book, find(book, asked.id), sire, dam)


def wished_transfer(asked: argparse.Namespace, book: Book) -> FiledCommand:
    return transferred(book, find(book, asked.id), asked.day, asked.to, asked.from_owner)


def wished_exit(asked: argparse.Namespace, book: Book) -> FiledCommand:
    return departed(book, find(book, asked.id), asked.day, asked.reason or "")
