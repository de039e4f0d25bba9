"""The word that lists animals: `list`."""
from __future__ import annotations

import argparse

from gudokeyi.cli.arguments import add_choice, add_described, add_output, whole_number
from gudokeyi.cli.output import give_table, tell
from gudokeyi.cli.parser import CommandWords
from gudokeyi.domain.messages import number_and_some
from gudokeyi.domain.options import LIST
from gudokeyi.services.book_program import BookProgram
from gudokeyi.services.lists import USUAL, Column
from gudokeyi.services.opening import Book


def add_words(words: CommandWords) -> None:
    listing = words.add_for_book("list", do_list, "write animals with their coefficients, in age order", answers=listed)
    add_choice(listing)
    for name in "sex", "born":
        add_described(listing, LIST[name])
    listing.add_argument(
        "--columns", type=columns, metavar="COLUMN,..",
        help=f"these columns, or behind the usual ones with + in front: {', '.join(Column)} [{', '.join(USUAL)}]",
    )  # fmt: skip
    add_output(listing)
    year = words.add_for_book("year", do_year, "write the births, exits and new owners of a year, by their days")
    year.add_argument("year", type=whole_number, metavar="YEAR", help="the year, as 2024")
    add_output(year)


def do_year(asked: argparse.Namespace, book: Book, program: BookProgram) -> None:
    from gudokeyi.services.years import table_of

    give_table(asked, book, table_of(book, asked.year))


def columns(text: str) -> list[Column]:
    """The columns of a list; with + in front those of a usual one and these."""
    words = [
        "_".join(word.casefold().replace("-", " ").replace("_", " ").split()) for word in text.lstrip("+").split(",")
    ]
    wrong = [word for word in words if word not in list(Column)]
    if wrong:
        raise argparse.ArgumentTypeError(f"there is no column '{wrong[0]}': there are {', '.join(Column)}")
    return list(dict.fromkeys([*USUAL * text.startswith("+"), *map(Column, words)]))


def listed(asked: argparse.Namespace, book: Book, program: BookProgram) -> object:
    from gudokeyi.services.answers import listed
    from gudokeyi.services.selection import Choice, chosen

    choice = Choice.of({one.attribute: getattr(asked, one.in_form) for one in LIST.values()})
    return listed(book, chosen(book, choice))


def do_list(asked: argparse.Namespace, book: Book, program: BookProgram) -> None:
    from gudokeyi.services.lists import animals_listed
    from gudokeyi.services.selection import Choice

    choice = Choice.of({one.attribute: getattr(asked, one.in_form) for one in LIST.values()})
    give_table(asked, book, animals_listed(book, choice, asked.columns or USUAL))
    without_row = [] if asked.living else book.without_row()
    if without_row:
        tell(f"animals without a row in the sheet: {number_and_some(without_row)}: added as parents, or gone")
