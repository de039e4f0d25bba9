"""The words of both programs with their options, as their help has them, for man pages and completion."""
from __future__ import annotations

import argparse
import pathlib
import re
from collections.abc import Callable, Iterator
from dataclasses import dataclass, field

from gudokeyi.cli import arguments
from gudokeyi.cli.words import words_for

# what may stand behind an option, or in the place of an argument
FILE, FOLDER, TEXT, NOTHING = "file", "folder", "text", ""


@dataclass(frozen=True)
class Argument:
    """An option with its flags, or what stands without one."""

    flags: tuple[str, ...]
    metavar: str
    about: str
    takes: str = NOTHING
    choices: tuple[str, ...] = ()


@dataclass(frozen=True)
class Word:
    """`usage` is what stands behind the program's name; `parts` are texts under headings of their own."""

    name: str
    about: str
    usage: str
    arguments: tuple[Argument, ...]
    parts: dict[str, str] = field(default_factory=dict)


@dataclass(frozen=True)
class Program:
    name: str
    title: str
    words: tuple[Word, ...]
    arguments: tuple[Argument, ...]
    parts: dict[str, str]


# The front desk's words, of its parser.


def front_desk() -> Program:
    name = "gudokeyi"
    words = words_for([], called=name)
    found = tuple(word_of(word, parser, name) for word, parser in words.words.choices.items())
    about, epilog = words.parser.description or "", words.parser.epilog or ""
    shown, _, status = epilog.removeprefix("examples:\n").partition("\n\n")
    whole = tuple(argument_of(one) for one in words.parser._actions if one.option_strings)
    return Program(
        name, "a breed society's herd book, from its spreadsheet to certificates", found, whole,
        {"": about, "Example": shown, "Status": status},
    )  # fmt: skip


def word_of(name: str, parser: argparse.ArgumentParser, program: str) -> Word:
    usage = " ".join(parser.format_usage().removeprefix("usage: ").split()).removeprefix(f"{program} ")
    given = tuple(argument_of(one) for one in parser._actions)
    return Word(name, parser.description or "", usage, given)


def argument_of(action: argparse.Action) -> Argument:
    flags = tuple(action.option_strings)
    metavar = "" if action.nargs == 0 else shown_as(action)
    return Argument(flags, metavar, action.help or "", takes(action, metavar), tuple(map(str, action.choices or ())))


def shown_as(action: argparse.Action) -> str:
    if action.metavar:
        return action.metavar if isinstance(action.metavar, str) else " ".join(action.metavar)
    return "{" + ",".join(map(str, action.choices)) + "}" if action.choices else action.dest.upper()


def takes(action: argparse.Action, metavar: str) -> str:
    if not metavar:
        return NOTHING
    if metavar == "FOLDER":
        return FOLDER
    return FILE if action.type in (pathlib.Path, arguments.file) or metavar in ("SHEET", "TRIPLES") else TEXT


# The program's words, of the texts of its help.

OPTION = re.compile(r"  (?:(-\w), |    )(--[\w-]+)(?: (<\w+>(?:\.\.\.)?))?  +(.*)")
POSITIONAL = re.compile(r"  ((?:<\w+>|\[\w+\])(?:\.\.\.)?)  +(.*)")
COMMAND = re.compile(r"  (\w+)  +(.*)")


def register(help_of: Callable[[str], str]) -> Program:
    """`help_of` answers the help of a word, and of the program for an empty one."""
    whole = word_in("", help_of(""))
    named = [COMMAND.fullmatch(line) for line in whole.parts.pop("Commands").splitlines()]
    words = tuple(one[1] for one in named if one and one[1] != "help")
    asked = Argument((), "COMMAND", "The subcommand", TEXT, words)
    helps = Word("help", "Prints the help of a subcommand, or of the program.", "help [COMMAND]", (asked,))
    found = (*(word_in(word, help_of(word)) for word in words), helps)
    return Program(
        "herdbook", "proved answers about a herd book", found, whole.arguments, {"": whole.about} | whole.parts
    )


def word_in(name: str, text: str) -> Word:
    about, usage, given, parts = "", "", list[Argument](), dict[str, str]()
    for heading, block in blocks(text):
        if heading == "Usage":
            usage = block.removeprefix("herdbook ")
        elif heading in ("Arguments", "Options"):
            given += map(argument_in, block.splitlines())
        elif heading:
            parts[heading] = block
        else:
            about = f"{about}\n\n{block}".strip()
    return Word(name, about, usage, tuple(given), parts)


def blocks(text: str) -> Iterator[tuple[str, str]]:
    """The blocks of a help, each with its heading, which is empty where it has none."""
    for block in text.strip("\n").split("\n\n"):
        heading, colon, rest = block.partition(":")
        is_headed = bool(colon) and heading.isalpha() and heading.istitle() and rest[:1] in (" ", "\n")
        yield (heading, rest.lstrip("\n").removeprefix(" " * (rest[:1] == " "))) if is_headed else ("", block)


def argument_in(line: str) -> Argument:
    option, positional = OPTION.fullmatch(line), POSITIONAL.fullmatch(line)
    if option:
        flags = tuple(flag for flag in option.group(1, 2) if flag)
        return Argument(flags, option[3] or "", option[4], TEXT if option[3] else NOTHING)
    assert positional, f"a line of help that is no argument: {line!r}"
    return Argument((), positional[1], positional[2], TEXT)
