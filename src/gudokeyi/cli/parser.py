"""The command line as a whole: its words, which the families add, and what is told where it can't be read."""
from __future__ import annotations

import argparse
import os
import pathlib
import re
import sys
from collections.abc import Callable
from typing import TYPE_CHECKING, NoReturn

import gudokeyi
from gudokeyi.cli.output import give_json, refuse_beside_json, tell
from gudokeyi.cli.statuses import ABOUT as STATUSES, Status
from gudokeyi.domain.mistakes import WrongWords
from gudokeyi.domain.spelling import closest

if TYPE_CHECKING:
    from gudokeyi.packages import Group
    from gudokeyi.services.book_program import BookProgram
    from gudokeyi.services.opening import Book

# What is told where the words of a call can't be read: argparse's messages in plain sentences.

# what argparse tells, and what is told in its place
SENTENCES = (
    (r"the following arguments are required: WORD", "a word is lacking that says what to do, as import, list or show"),
    (r"the following arguments are required: (?P<what>.*)", "{what} is lacking"),
    (r"unrecognized arguments: (?P<what>-\S*).*", "there is no option {what} here"),
    (r"unrecognized arguments: (?P<what>.*)",
     "there is no room for '{what}' here: put an id or a name with blanks between quotation marks"),
    (r"argument (?P<what>\S+): expected .*", "nothing stands behind {what}, which needs something there"),
    (r"argument (?P<what>\S+): not allowed with argument (?P<other>\S+)", "{what} and {other} don't go together"),
    (r"argument (?P<what>--\S+): invalid choice: '(?P<word>.*)' \(choose from (?P<some>.*)\)",
     "{what}: '{word}' is none of {some}"),
    (r"argument (?P<what>--\S+): (?P<why>.*)", "{what}: {why}"),
)  # fmt: skip
NO_SUCH_WORD = re.compile(r"argument WORD: invalid choice: '(?P<word>.*)' \(choose from (?P<some>.*)\)", re.DOTALL)


def plainly(message: str) -> str:
    """A message of argparse in plain words."""
    no_word = NO_SUCH_WORD.fullmatch(message)
    if no_word:
        return no_such_word(no_word["word"], re.findall("'(.*?)'", no_word["some"]))
    for form, sentence in SENTENCES:
        found = re.fullmatch(form, message, re.DOTALL)
        if found:
            parts = found.groupdict()
            return sentence.format(**parts | {"some": parts.get("some", "").replace("'", "")})
    return message


def no_such_word(word: str, words: list[str]) -> str:
    near = closest(word.casefold(), words, least=0.6)
    return f"there is no word '{word}'" + (f": is {' or '.join(near)} meant?" if near else "")


# The command line as a whole: its words, which the families add, and what is told where it can't be read.

ABOUT = """Keeps a society's herd book in a folder: takes its spreadsheet, and writes lists, certificates, mating advice
and pictures. Every refusal and every coefficient comes from the program herdbook; the front desk around it isn't
proved."""
EXAMPLES = """examples:
  {called} import sheet.csv                   from a spreadsheet to a book in the folder `book`
  {called} list --out list.csv                all animals with their coefficients
  {called} find berta                         animals by a part of id, name, number or owner
  {called} show HA-17/3                       its record, relatives and history
  {called} certificate HA-17/3                a page for the printer
  {called} mating --dam HA-17/3               each living male, the least related first
  {called} inbreeding triples.txt             of lines `id sire dam`, for geneticists, without a book
  {called} inverse triples.txt --out inverse.mtx

{statuses}"""

# of a terminal that doesn't tell how many it has
USUAL_COLUMNS = 80
# what a word does, given its options
Does = Callable[[argparse.Namespace], None]
# what it answers, which is written as JSON
Answers = Callable[[argparse.Namespace, "Book", "BookProgram"], object]


class HelpFormat(argparse.HelpFormatter):
    """As wide as the terminal. argparse asks for one at each option, and would import for it what hardly a call
    needs."""

    def __init__(self, prog: str) -> None:
        super().__init__(prog, width=columns() - 2)


class AsWritten(HelpFormat, argparse.RawDescriptionHelpFormatter):
    """The same with texts as they are written."""


def columns() -> int:
    """The columns of the terminal, or what the variable says."""
    said = os.environ.get("COLUMNS", "")
    if said.isdecimal() and int(said):
        return int(said)
    try:
        return os.get_terminal_size(1).columns or USUAL_COLUMNS
    except OSError:
        return USUAL_COLUMNS


class Parser(argparse.ArgumentParser):
    def read(self, words: list[str]) -> argparse.Namespace:
        """The options of a word; what it doesn't know is told with its own help."""
        asked, unknown = self.parse_known_args(words)
        if unknown:
            self.prog = f"{self.prog} {asked.word}"
            self.error(f"unrecognized arguments: {' '.join(unknown)}")
        return asked

    def _get_values(self, action: argparse.Action, arg_strings: list[str]) -> object:
        # argparse takes `--` out, also as in `--seal=--`, and hands on an empty list
        if action.option_strings and action.nargs is None and arg_strings == ["--"]:
            self.error(f"argument {'/'.join(action.option_strings)}: expected one argument")
        return super()._get_values(action, arg_strings)

    def error(self, message: str) -> NoReturn:
        told = plainly(message)
        raise WrongWords(f"{told}{'' if told[-1] == '?' else ':'} `{self.prog} --help` shows what can be written")


class Version(argparse.Action):
    """Writes the version, which isn't known before it is asked for."""

    def __call__(self, parser: argparse.ArgumentParser, *_: object) -> NoReturn:
        print(f"gudokeyi {gudokeyi.__version__}")
        parser.exit()


class CommandWords:
    """The words of the command line. Each family adds its own."""

    def __init__(self, called: str) -> None:
        shown = EXAMPLES.format(called=called, statuses=STATUSES)
        self.parser = Parser(prog=called, description=ABOUT, epilog=shown, formatter_class=AsWritten)
        self.parser.add_argument("--version", action=Version, nargs=0, help="write the version, and nothing else")
        self.words = self.parser.add_subparsers(prog=called, dest="word", metavar="WORD", required=True)

    def add_without_book(self, name: str, does: Does, help: str, more: str = "") -> Parser:
        """A word; `does` is called with its options."""
        about = f"{help[0].upper()}{help[1:]}. {more}".strip()
        one: Parser = self.words.add_parser(
            name, help=help, description=about, epilog=STATUSES, formatter_class=HelpFormat
        )
        one.set_defaults(does=does, status=Status.DONE)
        return one

    def add(self, name: str, does: Does, help: str, more: str = "") -> Parser:
        """The same with the option `--book`."""
        one = self.add_without_book(name, does, help, more)
        one.add_argument(
            "--book", type=pathlib.Path, default=pathlib.Path("book"), metavar="FOLDER",
            help="the book's folder [book]",
        )  # fmt: skip
        return one

    def add_for_book(
        self, name: str, does: Callable[[argparse.Namespace, Book, BookProgram], None], help: str, more: str = "",
        group: Group | None = None, shows: bool = True, answers: Answers | None = None,
    ) -> Parser:  # fmt: skip
        """A word for a book that is there, with the packages that it needs. With `answers` it has an option by which
        these are written as JSON in place of what it does."""
        one = self.add(name, with_book(does, group, shows, answers), help, more)
        if answers:
            add_json(one, name)
        return one


def add_json(word: argparse.ArgumentParser, name: str) -> None:
    """The option for words that answer programs too."""
    word.add_argument("--json", action="store_true", help=f"write JSON as schemas/{name}.json of the package says")


def with_book(
    does: Callable[[argparse.Namespace, Book, BookProgram], None], group: Group | None = None, shows: bool = True,
    answers: Answers | None = None,
) -> Does:  # fmt: skip
    """What a word does with a book that is there. Behind it is told that the book isn't whole, where it shows something
    of it, and the book's notes."""

    def does_with_book(asked: argparse.Namespace) -> None:
        if answers and asked.json:
            refuse_beside_json(asked)
        if group:
            from gudokeyi.packages import need

            need(group)
        from gudokeyi.services.book_program import BookProgram
        from gudokeyi.services.opening import opened

        program = BookProgram()
        with opened(asked.book, program) as book:
            if answers and asked.json:
                give_json(asked, book, answers(asked, book, program))
            else:
                does(asked, book, program)
            faults = not_whole(book, program) if shows else ()
        for note in (*faults, *book.notes):
            tell(note)

    return does_with_book


def not_whole(book: Book, program: BookProgram) -> tuple[str, ...]:
    """What is told where its kept coefficients aren't the program's, or where that isn't known. Whoever asked has the
    answer already."""
    from gudokeyi.services.verification import told_once

    sys.stdout.flush()
    why = program.why_not_there()
    return tuple(f"{one}: whether the book's coefficients are the program's isn't known" for one in why) or (
        told_once(book, program)
    )


def joined(words: list[str]) -> list[str]:
    """The words, with `import`, as `import` was called before, as `import`, and with `--unknown -9,00` as
    `--unknown=-9,00`: else `-9,00` would be taken for an option."""
    found: list[str] = ["import" if word == "take" else word for word in words[:1]]
    for word in words[1:]:
        if found and found[-1] in ("--unknown", "--known") and re.match("-(?!-.)", word):
            found[-1] += f"={word}"
        else:
            found.append(word)
    return found
