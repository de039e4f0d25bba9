"""The words that make pages and pictures: `certificate`, `pedigree` and `trend`."""
from __future__ import annotations

import argparse
import datetime
import pathlib
from typing import TYPE_CHECKING

from gudokeyi.cli.arguments import add_choice, add_force, day, file, generations
from gudokeyi.cli.parser import CommandWords
from gudokeyi.domain.animals import SocietyRecord
from gudokeyi.domain.messages import Mistake, counted
from gudokeyi.domain.mistakes import WrongWords
from gudokeyi.domain.settings import LANGUAGES
from gudokeyi.packages import Group
from gudokeyi.services.animals import kept_coefficients
from gudokeyi.services.certificates import GENERATIONS, MOST_GENERATIONS, begin_certificates
from gudokeyi.services.search import find, named_in

if TYPE_CHECKING:
    from gudokeyi.services.book_program import BookProgram
    from gudokeyi.services.opening import Book


def add_words(words: CommandWords) -> None:
    certificate = words.add_for_book(
        "certificate",
        do_certificate,
        "write certificates, a page for each animal in one file for the printer",
        "They show what `settings` says of the society.",
        Group.PAGES,
        shows=False,
        answers=certified,
    )
    certificate.add_argument("ids", nargs="*", metavar="ID", help="the animals, by id, name or number")
    certificate.add_argument(
        "--among", type=pathlib.Path, metavar="FILE", help="those that a file names, one id a line"
    )
    add_choice(certificate)
    certificate.add_argument("--day", type=day, metavar="DAY", help="the day of issue [today]")
    certificate.add_argument(
        "--title", default="", help="what stands above the animal [Certificate of pedigree, in the language]"
    )
    certificate.add_argument(
        "--generations", type=int, choices=range(GENERATIONS, MOST_GENERATIONS + 1), default=GENERATIONS,
        help="how many generations of ancestors, 3 to 5 [3]", metavar="N",
    )  # fmt: skip
    pedigree = words.add_for_book(
        "pedigree", do_pedigree, "draw an animal with its known ancestors, inbred and common ones marked",
        "More than five generations go on on further pages of one file.",
        answers=drawn,
    )  # fmt: skip
    pedigree.add_argument("--generations", type=generations, default=4, metavar="N", help="how many, 1 to 10 [4]")
    pedigree.add_argument("id", metavar="ID", help="the animal, by id, name or number")
    trend = words.add_for_book(
        "trend", do_trend, "draw the mean coefficient by birth year, with how many animals each year has",
        answers=trend_values,
    )  # fmt: skip
    for one in certificate, pedigree, trend:
        one.add_argument("--language", choices=LANGUAGES, default="en", help="the language, en, de or fr [en]")
        one.add_argument("--out", type=file, metavar="FILE", help="write to this file [one in the book's folder]")
        add_force(one)


def certified(asked: argparse.Namespace, book: Book, program: BookProgram) -> object:
    from gudokeyi.services.answers import Certificates
    from gudokeyi.services.book import Book as LibraryBook

    if asked.generations != GENERATIONS:
        raise WrongWords(f"--json has {GENERATIONS} generations of ancestors: `pedigree` has more beside --json")
    library = LibraryBook(asked.book, program)
    return Certificates(tuple(library.certificate(one.id) for one in animals_asked_for(asked, book)))


def do_certificate(asked: argparse.Namespace, book: Book, program: BookProgram) -> None:
    from gudokeyi.render.certificates import Issue, PrintedPicture, Society, certificates_page
    from gudokeyi.render.drawing import file_name
    from gudokeyi.render.languages import Language
    from gudokeyi.services.cache import SeenBefore
    from gudokeyi.services.seals import last_sealed
    from gudokeyi.services.settings import picture_of
    from gudokeyi.services.verification import refuse_to_certify

    animals = animals_asked_for(asked, book)
    numbers = [animal.registration_number for animal in animals]
    certified = begin_certificates(book, program, numbers, asked.generations)
    refuse_to_certify(book, program, SeenBefore(book, program.path))
    society = Society.of(book, PrintedPicture.within(picture_of(book)))
    day_of_issue = asked.day or datetime.date.today()
    issue = Issue(asked.title, society, day_of_issue, last_sealed(book), generations=asked.generations)
    page = certificates_page(book, animals, certified, Language(asked.language), issue)
    name = file_name("certificate", animals[0].id, ".html") if len(animals) == 1 else "certificates.html"
    give(asked, book, page, name, f", {counted(len(animals), 'page')}" * (len(animals) > 1))


def animals_asked_for(asked: argparse.Namespace, book: Book) -> list[SocietyRecord]:
    """Those that are named, or those of an owner or that live; each once."""
    from gudokeyi.services.selection import Choice, animals_chosen

    choice = Choice(asked.living, "", asked.owner)
    named = [find(book, id) for id in asked.ids] + (named_in(asked.among, book) if asked.among else [])
    if named and not choice.is_everything:
        raise WrongWords("certificate takes animals that are named, or those of --owner and --living, not both")
    if not named and choice.is_everything:
        raise WrongWords("certificate needs animals: name them, or choose some by --owner or --living")
    animals = named or animals_chosen(book, choice)
    if not animals:
        raise Mistake("there is no such animal: `list` with the same options shows which there are")
    return list({animal.registration_number: animal for animal in animals}.values())


def drawn(asked: argparse.Namespace, book: Book, program: BookProgram) -> object:
    from gudokeyi.services.answers import pedigree

    return pedigree(book, asked.id, asked.generations)


def do_pedigree(asked: argparse.Namespace, book: Book, program: BookProgram) -> None:
    from gudokeyi.render.drawing import file_name
    from gudokeyi.render.languages import Language
    from gudokeyi.render.pedigree_pictures import Pedigree

    animal = find(book, asked.id)
    drawn = Pedigree(book, animal, kept_coefficients(book), asked.generations, Language(asked.language))
    if drawn.is_long and asked.out and asked.out.suffix.lower() == ".svg":
        raise WrongWords(f"{counted(asked.generations, 'generation')} stand on several pages: name a file as tree.html")
    pages = f", {counted(len(drawn.tops), 'page')}" * drawn.is_long
    give(asked, book, drawn.text(), file_name("pedigree", animal.id, ".html" if drawn.is_long else ".svg"), pages)


def trend_values(asked: argparse.Namespace, book: Book, program: BookProgram) -> object:
    from gudokeyi.services.trends import trend_of

    return trend_of(book, kept_coefficients(book))


def do_trend(asked: argparse.Namespace, book: Book, program: BookProgram) -> None:
    from gudokeyi.render.languages import Language
    from gudokeyi.render.trend_pictures import trend_picture

    give(asked, book, trend_picture(book, kept_coefficients(book), Language(asked.language)), "trend.svg")


def give(asked: argparse.Namespace, book: Book, text: str, name: str, what: str = "") -> None:
    """Writes a page or picture, where no file is named to one in the book's folder."""
    from gudokeyi.services.output_files import write_outs, write_page

    path = asked.out or asked.book / name
    if asked.out:
        write_outs(book, {path: text.encode()}, asked.force)
    else:
        write_page(book, path, text.encode())
    print(f"{path} is written{what}: open it in a browser, and print it there")
