"""The word that writes a matrix, of a pedigree file or of a book: `inverse`."""
from __future__ import annotations

import argparse
import pathlib

from gudokeyi.cli.arguments import add_force, file
from gudokeyi.cli.output import give_json
from gudokeyi.cli.parser import CommandWords, add_json, with_book
from gudokeyi.cli.words import pedigrees
from gudokeyi.domain.messages import counted
from gudokeyi.domain.mistakes import WrongWords
from gudokeyi.services.book_program import BookProgram
from gudokeyi.services.opening import Book


def add_words(words: CommandWords) -> None:
    inverse = words.add("inverse", do_inverse, "write the summed inverse of the numerator relationship matrix")
    inverse.add_argument(
        "pedigree", nargs="?", type=pathlib.Path, metavar="PEDIGREE", help=f"{pedigrees.FILE_HELP} [the book's animals]"
    )
    inverse.add_argument(
        "--out", type=file, metavar="FILE",
        help="of a pedigree file: .mtx or .npz; the ids of the rows go to FILE.ids; beside --json that, also of a book",
    )
    inverse.add_argument(
        "--matrix-market", type=file, metavar="FILE",
        help="of a book: its lower triangle; the ids of the rows go to FILE.ids",
    )  # fmt: skip
    pedigrees.add_reading(inverse)
    add_json(inverse, "inverse")
    add_force(inverse)


def do_inverse(asked: argparse.Namespace) -> None:
    if asked.pedigree and asked.matrix_market:
        raise WrongWords("--matrix-market is of a book: name the file of a pedigree's by --out")
    if asked.pedigree:
        pedigrees.do_inverse(asked)
    elif asked.json and asked.matrix_market:
        raise WrongWords("--json writes to the screen, or to --out FILE: leave out --matrix-market")
    elif asked.out and asked.matrix_market:
        raise WrongWords("--out is of a pedigree file, or beside --json: leave it out beside --matrix-market")
    elif asked.json or asked.matrix_market:
        with_book(do_book_inverse)(asked)
    else:
        raise WrongWords("inverse writes a file: name a pedigree and --out, or of a book --matrix-market, or say --json")


def do_book_inverse(asked: argparse.Namespace, book: Book, program: BookProgram) -> None:
    if asked.json:
        from gudokeyi.services.answers import inverse

        give_json(asked, book, inverse(book, program))
        return
    from gudokeyi.services.exports import write_inverse

    rows, elements, ids = write_inverse(book, program, asked.matrix_market, asked.force)
    print(
        f"{asked.matrix_market}: {counted(rows, 'row')}, {counted(elements, 'element')} of the lower triangle; "
        f"{ids} has the ids of the rows"
    )
