"""The word by which a sheet or a pedigree is taken."""
from __future__ import annotations

import argparse
import contextlib
import gc
import pathlib
import sys
from dataclasses import replace
from typing import TYPE_CHECKING

from gudokeyi.bounds import bound_look, bounded_reading
from gudokeyi.cli.arguments import add_described
from gudokeyi.cli.output import json_line, tell
from gudokeyi.cli.parser import CommandWords
from gudokeyi.domain.mistakes import InvalidValue, WrongWords
from gudokeyi.domain.options import IMPORT
from gudokeyi.packages import Group, need
from gudokeyi.process import is_the_only_one
from gudokeyi.services.book_program import BookProgram
from gudokeyi.services.option_values import three_letters

if TYPE_CHECKING:
    from gudokeyi.services.imports import Bounds, Import, ImportOptions


def add_words(words: CommandWords) -> None:
    take = words.add(
        "import",
        do_import,
        "take a spreadsheet into the book",
        "The columns are known by their usual names in English, German and French.",
    )
    take.add_argument(
        "sheet", nargs="?", type=pathlib.Path, metavar="SHEET",
        help="the spreadsheet: CSV, or .xlsx where openpyxl is installed",
    )  # fmt: skip
    take.add_argument(
        "--pedigree", type=pathlib.Path, metavar="TRIPLES",
        help="a text file with `id sire dam` in each line, or with these among its titles, in place of a sheet; - is "
        "standard input",
    )  # fmt: skip
    for described in IMPORT.values():
        add_described(take, described)


    take.add_argument("--json", action="store_true", help="of a preview: write JSON as schemas/import.json says")


def do_import(asked: argparse.Namespace) -> None:
    from gudokeyi.services.imports import Import, ImportOptions

    if (asked.sheet is None) == (asked.pedigree is None):
        raise WrongWords("import reads one file: name a sheet, or a pedigree with --pedigree")
    if asked.json and not asked.preview:
        raise WrongWords("--json is for a look: say --preview too")
    if asked.preview:
        bound_look()
    if asked.pedigree and asked.sexes:
        raise WrongWords("--sexes is for a sheet: in a pedigree write M and F, or 1 and 2")
    if asked.append and (asked.pedigree or asked.drop_gone):
        raise WrongWords("--append is for a sheet that has new rows alone: leave out --pedigree and --drop-gone")
    if asked.pedigree and (asked.no_animal or asked.animal):
        raise WrongWords("--no-animal and --animal are for a sheet: leave such lines out of a pedigree")
    if asked.sheet and (asked.keep or asked.leave_out):
        raise WrongWords("--keep and --leave-out are for a pedigree, as --pedigree FILE")
    options = ImportOptions.of(asked.book, {name: getattr(asked, one.in_form) for name, one in IMPORT.items()})
    options = with_letters_asked(options)
    wished = Import(asked.sheet or asked.pedigree, options, is_pedigree=not asked.sheet)
    if wished.is_workbook:
        need(Group.WORKBOOKS, ": or save the sheet as CSV, and take that")
    # what an import makes of a large sheet is needed to its end, and nothing of it goes round: to look for what isn't
    # needed any more would find nothing, again and again
    gc.disable()
    is_the_only_one()
    for note in imported(wished, asked.json):
        tell(note)


def with_letters_asked(options: ImportOptions) -> ImportOptions:
    """The options, with the breed and country that somebody at a terminal is asked for where nobody said them yet."""
    from gudokeyi.services.opening import book_in
    from gudokeyi.services.settings import letters_said

    if options.preview or not (sys.stdin.isatty() and sys.stdout.isatty()):
        return options
    with book_in(options.book) as book:
        breed, country = letters_said(book, options.breed, options.country)
    if breed and country:
        return options
    print("Each animal gets a number that begins with its breed and country, three letters each. They are asked once.")
    return replace(
        options, breed=options.breed or breed or letters_typed("Breed, as SKU: "),
        country=options.country or country or letters_typed("Country, as DEU: "),
    )  # fmt: skip


def letters_typed(question: str) -> str:
    """What somebody types, asked for until it is three letters; nothing where the terminal ends."""
    while True:
        try:
            text = input(question).strip().upper()
        except EOFError:
            return ""
        try:
            return three_letters(text)
        except InvalidValue as mistake:
            print(*mistake.sentences)


def imported(wished: Import, as_json: bool) -> list[str]:
    """Imports, and prints what that made; answers what is to be told behind it."""
    from gudokeyi.render.import_reports import lines_of, told_with

    # the whole of a preview is bounded already
    bounds: Bounds = contextlib.nullcontext
    if not wished.options.preview:
        bounds = bounded_reading
    program = BookProgram()
    with told_with(wished.call()):
        outcome, notes = wished.made(program, bounds)
        if as_json:
            from gudokeyi.services.library_answers import imported_value

            sys.stdout.write(json_line(imported_value(outcome, notes)))
            return []
        print("\n".join(lines_of(outcome)))
    return notes
