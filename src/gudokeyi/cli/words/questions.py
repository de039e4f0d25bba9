"""The words that ask for animals: `show`, `find`, `kinship` and `export`."""
from __future__ import annotations

import argparse
import pathlib
import sys

from gudokeyi.cli.output import give_file, give_table
from gudokeyi.cli.arguments import add_output
from gudokeyi.cli.parser import CommandWords
from gudokeyi.domain.animals import SocietyRecord
from gudokeyi.domain.messages import counted
from gudokeyi.domain.mistakes import WrongWords
from gudokeyi.services.book_program import BookProgram
from gudokeyi.services.opening import Book
from gudokeyi.services.search import find, named_in


def add_words(words: CommandWords) -> None:
    show = words.add_for_book("show", do_show, "show an animal's record, relatives and history", answers=shown)
    show.add_argument("id", metavar="ID", help="the animal, by id, name or number")
    show.add_argument("--all", action="store_true", help="all offspring and sibs, also where there are many")
    look = words.add_for_book(
        "find", do_find, "write the animals that have a text in id, name, number or owner", answers=found
    )
    look.add_argument("text", nargs="+", metavar="TEXT", help="a part of one of these; of several texts each")
    kinship = words.add_for_book(
        "kinship", do_kinship, "write relationships and kinships: of all pairs, an animal with itself too",
        answers=kin,
    )
    kinship.add_argument("ids", nargs="*", metavar="ID", help="the animals, by id, name or number")
    kinship.add_argument(
        "--among", type=pathlib.Path, metavar="FILE", help="the animals that a file names, one id a line"
    )
    kinship.add_argument(
        "--with",
        dest="others",
        type=pathlib.Path,
        metavar="FILE",
        help="each of the animals with each of those of a file",
    )
    kinship.add_argument(
        "--matrix",
        choices=("kinship", "relationship"),
        help="a matrix of kinships or relationships, not a table of pairs",
    )
    export = words.add_for_book(
        "export", do_export, "write the whole pedigree by the society's ids, in age order", answers=exported
    )
    export.add_argument("--triples", action="store_true", help="lines of `id sire dam`, as R's packages read them")
    export.add_argument(
        "--keep", type=pathlib.Path, metavar="FILE", help="only the animals that a file names, and their ancestors"
    )
    for one in look, kinship, export:
        add_output(one)


def shown(asked: argparse.Namespace, book: Book, program: BookProgram) -> object:
    from gudokeyi.services.answers import shown

    return shown(book, asked.id)


def found(asked: argparse.Namespace, book: Book, program: BookProgram) -> object:
    from gudokeyi.services.answers import listed
    from gudokeyi.services.search import condition_of_words

    return listed(book, book.rows(condition_of_words(book, asked.text), in_age_order=True))


def exported(asked: argparse.Namespace, book: Book, program: BookProgram) -> object:
    from gudokeyi.services.answers import listed
    from gudokeyi.services.exports import rows_kept

    return listed(book, rows_kept(book, named_in(asked.keep, book) if asked.keep else None))


def kin(asked: argparse.Namespace, book: Book, program: BookProgram) -> object:
    from gudokeyi.services.answers import Related
    from gudokeyi.services.book import kinships_of

    return Related(kinships_of(book, program, *kin_asked(asked, book)))


def kin_asked(asked: argparse.Namespace, book: Book) -> tuple[list[SocietyRecord], list[SocietyRecord] | None]:
    """The animals, and others with each of which each of them is asked for, or none."""
    from gudokeyi.services.relationships import each_once

    named = [find(book, id) for id in asked.ids]
    animals = each_once(named + (named_in(asked.among, book) if asked.among else []))
    if not animals:
        raise WrongWords("kinship needs animals: name two or more, or a file by --among")
    return animals, each_once(named_in(asked.others, book)) if asked.others else None


def do_show(asked: argparse.Namespace, book: Book, program: BookProgram) -> None:
    from gudokeyi.render.animals import AnimalView

    for line in AnimalView(book, find(book, asked.id), asked.all).lines():
        print(line)


def do_find(asked: argparse.Namespace, book: Book, program: BookProgram) -> None:
    from gudokeyi.services.search import animals_found

    give_table(asked, book, animals_found(book, asked.text))


def do_kinship(asked: argparse.Namespace, book: Book, program: BookProgram) -> None:
    from gudokeyi.services.relationships import kinship_matrix, kinship_table, related

    animals, others = kin_asked(asked, book)
    pairs = related(book, program, animals, others)
    if asked.matrix:
        give_table(asked, book, kinship_matrix(pairs, animals, others, asked.matrix == "kinship"))
    else:
        give_table(asked, book, kinship_table(book, pairs))


def do_export(asked: argparse.Namespace, book: Book, program: BookProgram) -> None:
    from gudokeyi.services.exports import export_table, triples, triples_text

    if asked.triples and asked.semicolons:
        raise WrongWords("--triples has blanks between its cells: leave out --semicolons")
    kept: list[SocietyRecord] | None = named_in(asked.keep, book) if asked.keep else None
    if not asked.triples:
        give_table(asked, book, export_table(book, kept))
        return
    rows = triples(book, kept)
    if asked.out:
        give_file(asked, book, triples_text(rows).encode(), counted(len(rows), "animal"))
    else:
        sys.stdout.write(triples_text(rows))
