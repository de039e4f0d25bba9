"""The word that advises on matings: `mating`."""
from __future__ import annotations

import argparse
import pathlib
from typing import TYPE_CHECKING

from gudokeyi.cli.arguments import add_output
from gudokeyi.cli.output import give_table, tell
from gudokeyi.cli.parser import CommandWords
from gudokeyi.cli.statuses import Status
from gudokeyi.domain.mistakes import WrongWords
from gudokeyi.process import is_the_only_one, keep

if TYPE_CHECKING:
    from gudokeyi.services.book_program import BookProgram
    from gudokeyi.services.matings import Advice, Candidates
    from gudokeyi.services.opening import Book
    from gudokeyi.services.relationships import Pairs


def add_words(words: CommandWords) -> None:
    mating = words.add_for_book(
        "mating", do_mating, "write the coefficient that offspring of each sire would have, the least first",
        "For many dams it is a table of all pairs. The status is 3 where each sire that is named is refused.",
        answers=advised,
    )  # fmt: skip
    mating.add_argument("--dam", metavar="ID", help="the dam, by id, name or number")
    mating.add_argument("sires", nargs="*", metavar="SIRE", help="sires, by id, name or number [all living males]")
    mating.add_argument("--all", action="store_true", help="all living males, as where no sire is named")
    mating.add_argument("--left", action="store_true", help="with the males that left too")
    mating.add_argument(
        "--dams",
        type=pathlib.Path,
        metavar="FILE",
        help="the dams that a file names, one id a line [all living females]",
    )
    mating.add_argument(
        "--sires",
        dest="sires_in",
        type=pathlib.Path,
        metavar="FILE",
        help="the sires that a file names [all living males]",
    )
    mating.add_argument(
        "--matrix", action="store_true", help="a line for each dam, and a column of percentages for each sire"
    )
    add_output(mating)


def advised(asked: argparse.Namespace, book: Book, program: BookProgram) -> object:
    from gudokeyi.services.book import mating_advice
    from gudokeyi.services.search import find

    if asked.dams or asked.sires_in:
        return pairs_advised(asked, book, program)
    advice = advice_for(asked, book, program)
    if asked.sires and not len(advice.table):
        asked.status = Status.REFUSED
    return mating_advice(find(book, asked.dam), advice)


def do_mating(asked: argparse.Namespace, book: Book, program: BookProgram) -> None:
    if asked.dams or asked.sires_in:
        do_many_matings(asked, book, program)
        return
    advice = advice_for(asked, book, program)
    is_the_only_one()
    keep(advice)
    give_table(asked, book, advice.table)
    for refused in advice.refused:
        tell(refused)
    if advice.sires.left:
        tell(f"males that left: {advice.sires.left} aren't listed: --left lists them too")
    for sentence in advice.sires.told():
        tell(sentence)
    if asked.sires and not len(advice.table):
        asked.status = Status.REFUSED


def advice_for(asked: argparse.Namespace, book: Book, program: BookProgram) -> Advice:
    """Those of one dam; a mistake where the words don't go together."""
    from gudokeyi.services.advising import advise
    from gudokeyi.services.search import find

    if not asked.dam:
        raise WrongWords("mating needs a dam: name one by --dam, or many in a file by --dams")
    if asked.matrix:
        raise WrongWords("--matrix is for many dams: name a file by --dams")
    if asked.sires and (asked.all or asked.left):
        raise WrongWords("mating takes sires that are named, or all of them, not both: leave out --all and --left")
    return advise(book, program, find(book, asked.dam), [find(book, sire) for sire in asked.sires], asked.left)


def pairs_advised(asked: argparse.Namespace, book: Book, program: BookProgram) -> object:
    from gudokeyi.services.answers import matings

    return matings(*pairs_asked(asked, book, program))


def do_many_matings(asked: argparse.Namespace, book: Book, program: BookProgram) -> None:
    """A table of all pairs."""
    from gudokeyi.services.matings import mates_matrix, mates_table, told_of_refused

    dams, sires, pairs = pairs_asked(asked, book, program)
    give_table(asked, book, (mates_matrix if asked.matrix else mates_table)(dams, sires, pairs))
    for sentence in told_of_refused(book, pairs) + dams.told() + sires.told():
        tell(sentence)


def pairs_asked(
    asked: argparse.Namespace, book: Book, program: BookProgram
) -> tuple[Candidates, Candidates, Pairs]:
    """Dams, sires and all pairs of them; a mistake where the words don't go together."""
    from gudokeyi.domain.kinds import Role
    from gudokeyi.services.matings import candidates_of
    from gudokeyi.services.relationships import pairs_of
    from gudokeyi.services.search import find, named_in

    if asked.dam and asked.dams or asked.sires and asked.sires_in:
        raise WrongWords("mating takes animals that are named, or those of a file, not both")
    if asked.all or asked.left:
        raise WrongWords("--all and --left are for one dam: a table has all living males where no sire is named")
    named = {
        Role.DAM: [find(book, asked.dam)] if asked.dam else named_in(asked.dams, book) if asked.dams else None,
        Role.SIRE: named_in(asked.sires_in, book) if asked.sires_in else [find(book, id) for id in asked.sires] or None,
    }
    dams, sires = (candidates_of(book, role, named[role]) for role in (Role.DAM, Role.SIRE))
    pairs = pairs_of(book, program, dams.numbers, sires.numbers)
    if named[Role.SIRE] and not pairs.coefficients:
        asked.status = Status.REFUSED
    return dams, sires, pairs
