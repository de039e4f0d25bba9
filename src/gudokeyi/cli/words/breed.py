"""The words on the breed as a whole: `breed`, its state, and `plan`, its matings."""
from __future__ import annotations

import argparse
import pathlib
from collections.abc import Callable
from fractions import Fraction
from typing import TYPE_CHECKING

from gudokeyi.cli.arguments import add_described, add_force, add_output, birth_days, file
from gudokeyi.cli.output import give_table, tell
from gudokeyi.cli.parser import CommandWords
from gudokeyi.domain.kinds import Role
from gudokeyi.domain.messages import Mistake, counted
from gudokeyi.domain.mistakes import WrongWords
from gudokeyi.domain.options import PLAN
from gudokeyi.packages import Group
from gudokeyi.services.book_program import BookProgram
from gudokeyi.services.opening import Book
from gudokeyi.services.output_files import write_into, write_outs, write_page
from gudokeyi.services.plans import Assume
from gudokeyi.services.search import named_in

if TYPE_CHECKING:
    from gudokeyi.services.breed_pedigree import Breed

# what holds of a plan where nothing is said
USUAL: dict[str, object] = {
    "most-for-a-sire": Assume.USUAL,
    "minimum-age": Assume.USUAL,
    "kinship-weight": Fraction(0),
}
# populations of so many animals are told how far the work is
LARGE = 5_000


def add_words(words: CommandWords) -> None:
    breed = words.add_for_book(
        "breed",
        do_breed,
        "write a page on the state of the breed: inbreeding, kinship, founders, effective size",
        "The measures are of a reference population, the living animals by default.",
        Group.BREED,
        answers=measured,
    )
    add_population(breed)
    breed.add_argument(
        "--csv", type=pathlib.Path, metavar="FOLDER", help="write the tables into this folder too, which is made"
    )
    breed.add_argument("--language", choices=("en", "de", "fr"), default="en", help="the language, en, de or fr [en]")
    breed.add_argument("--out", type=file, metavar="FILE", help="write to this file [breed.html in the book's folder]")
    add_force(breed)
    plan = words.add_for_book(
        "plan",
        do_plan,
        "write for each dam the sire so that the mean coefficient of the offspring is least",
        "What it assumes of ages and of dams for a sire is told.",
        Group.BREED,
        answers=planned,
    )
    for role in "dams", "sires":
        plan.add_argument(
            f"--{role}", type=pathlib.Path, metavar="FILE", help=f"the {role}, one id a line [all living ones]"
        )
    plan.add_argument("--living", action="store_true", help="all living animals, as where no file is named")
    for described in PLAN.values():
        add_described(plan, described, USUAL.get(described.name))
    plan.add_argument("--table", action="store_true", help="write all pairs with their coefficients")
    add_output(plan)


def add_population(word: argparse.ArgumentParser) -> None:
    which = word.add_mutually_exclusive_group()
    which.add_argument("--living", action="store_true", help="the living animals, as where nothing is said")
    which.add_argument("--born", type=birth_days, metavar="FROM..TO", help="the animals born so, as 2010..2019")
    which.add_argument("--owner", metavar="NAME", help="the living animals of an owner")
    which.add_argument("--among", type=pathlib.Path, metavar="FILE", help="the animals of a file, one id a line")


def breed_asked(asked: argparse.Namespace, book: Book) -> tuple[Breed, list[int], str]:
    """The breed, the ranks of the reference population, and who it is."""
    from gudokeyi.services.breed_pedigree import all_seem_living, breed_of

    breed = breed_of(book)
    is_named = asked.living or asked.born or asked.owner or asked.among
    if not is_named and all_seem_living(breed):
        raise WrongWords(
            "the book is of a pedigree without exits, so that each animal would count as living: name the reference "
            "population by --among FILE or --born FROM..TO, or all by --living"
        )
    population, of_whom = population_of(asked, breed)
    if not population:
        raise Mistake(f"the book has none of {of_whom}: name others by --born, --owner or --among")
    return breed, population, of_whom


def measured(asked: argparse.Namespace, book: Book, program: BookProgram) -> object:
    from gudokeyi.services.library_answers import breed_state

    breed, population, _ = breed_asked(asked, book)
    return breed_state(breed, population)


def planned(asked: argparse.Namespace, book: Book, program: BookProgram) -> object:
    from gudokeyi.services.book import Book as LibraryBook
    from gudokeyi.services.plans import PlanRules

    dams, sires = ([one.id for one in named_in(path, book)] if path else None for path in (asked.dams, asked.sires))
    rules = PlanRules(**{one.attribute: getattr(asked, one.in_form) for one in PLAN.values()})
    return LibraryBook(asked.book, program).plan(dams, sires, rules)


def do_breed(asked: argparse.Namespace, book: Book, program: BookProgram) -> None:
    from gudokeyi.render.breed_pages import breed_page
    from gudokeyi.render.breed_tables import files_of
    from gudokeyi.services.breed_pedigree import state_of_breed

    breed, population, of_whom = breed_asked(asked, book)
    report: Callable[[str], None] = tell if len(breed.pedigree) > LARGE else lambda what: None
    state = state_of_breed(breed, population, lambda what: report(f"{what} .."))
    page = breed_page(state, breed, asked.language, of_whom).encode()
    if asked.csv:
        files = files_of(state, breed)
        write_into(book, asked.csv, files, asked.force)
        print(f"{asked.csv}: {', '.join(files)}")
    path = asked.out or asked.book / "breed.html"
    if asked.out:
        write_outs(book, {path: page}, asked.force)
    else:
        write_page(book, path, page)
    print(f"{path} is written, of {counted(len(population), 'animal')}: open it in a browser")


def population_of(asked: argparse.Namespace, breed: Breed) -> tuple[list[int], str]:
    """The ranks of the reference population, and who it is in the language of the page."""
    from gudokeyi.render.breed_pages import BreedWords as PageWords
    from gudokeyi.services import breed_pedigree

    words = PageWords(asked.language)
    if asked.born:
        first, last = asked.born
        whom = words.of_born(first, last)
        return breed_pedigree.born_between(breed, first, last), whom
    if asked.owner:
        return breed_pedigree.owned_by(breed, asked.owner), words.of_owner(asked.owner)
    if asked.among:
        ranks = breed_pedigree.among(breed, named_in(asked.among, breed.book))
        return ranks, words.of_file(asked.among.name)
    return breed_pedigree.living(breed), words.of_living()


def do_plan(asked: argparse.Namespace, book: Book, program: BookProgram) -> None:
    from gudokeyi.services.plans import PlanRules, best_plan, plan_table, prepared, told_of

    files = {Role.DAM: asked.dams, Role.SIRE: asked.sires}
    named = {role: named_in(path, book) if path else None for role, path in files.items()}
    wished = PlanRules(**{one.attribute: getattr(asked, one.in_form) for one in PLAN.values()})
    among = prepared(book, wished, named)
    found = best_plan(book, program, among.dams, among.sires, among.rules)
    give_table(asked, book, plan_table(book, found, asked.table))
    for sentence in [*told_of(book, found), *among.assumed, *among.dams.told(), *among.sires.told()]:
        tell(sentence)
