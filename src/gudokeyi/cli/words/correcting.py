"""The word `correct`, which corrects anything of one animal."""
from __future__ import annotations

import argparse

from gudokeyi.cli.arguments import add_anyway, day_or_period, sex
from gudokeyi.cli.output import tell
from gudokeyi.cli.parser import CommandWords
from gudokeyi.domain.changes import Option
from gudokeyi.domain.mistakes import WrongWords
from gudokeyi.services.book_program import BookProgram
from gudokeyi.services.correcting import (
    ANY_DAY, Correction, Exit, ExitReason, OwnerSince, Span, correct, corrected,
)  # fmt: skip
from gudokeyi.services.filing import clean, parent_named
from gudokeyi.services.opening import Book, export, there_to_change
from gudokeyi.services.option_values import day
from gudokeyi.services.search import find

UNKNOWN, NONE, YES, NO = "unknown", "none", "yes", "no"
# the options of the word, which the history keeps
SAID = ("id", "name", "sex", "castrated", "born", "sire", "dam", "embryo", "owner", "exit", "reason")


def add_words(words: CommandWords) -> None:
    kept = (
        "What isn't said stays as it is. The register takes all of it, or nothing is changed. A sheet whose cells say "
        "what they said before doesn't change it back."
    )
    one = words.add("correct", does, "correct anything of an animal", kept)
    one.add_argument("animal", metavar="ID", help="the animal, by id, name or number")
    one.add_argument("--id", dest="said_id", metavar="ID", help="its id; the one that it had is remembered, and found")
    one.add_argument("--name", help="its name, empty for none")
    one.add_argument("--sex", type=sex, metavar="SEX", help="m or f")
    one.add_argument("--castrated", choices=(YES, NO), help="a male that can't be a sire any more")
    one.add_argument(
        "--born", type=day_or_unknown, metavar="DAY", help="its birth day, as 2001-03-01, 03.2001, 2001 or unknown"
    )
    for role in "sire", "dam":
        one.add_argument(f"--{role}", metavar="ID", help=f"the {role}, by id, name or number, 0 for an unknown one")
    one.add_argument("--embryo", choices=(YES, NO), help="it comes from a stored embryo")
    one.add_argument(
        "--owner", action="append", metavar="NAME[=DAY]",
        help="all its owners, the first one first: NAME from its birth on, or NAME=2001-03-01 since that day",
    )  # fmt: skip
    one.add_argument(
        "--exit",
        type=exit_said,
        metavar="DAY",
        help="the day on which it left, or unknown, or none where it hasn't left",
    )
    add_anyway(one)
    one.add_argument("--reason", choices=(*ExitReason, NONE), help="why it left")


def day_or_unknown(text: str) -> Span:
    return ANY_DAY if text == UNKNOWN else day_or_period(text)


def exit_said(text: str) -> Exit:
    if text == NONE:
        return Exit(False)
    return Exit(True, None if text == UNKNOWN else day_or_period(text))


def does(asked: argparse.Namespace) -> None:
    program = BookProgram()
    with there_to_change(asked.book, program) as book:
        known = find(book, asked.animal)
        said = correction(book, asked)
        one = corrected(book, known, said)
        change = correct(book, program, one, options_of(asked), seen=None if asked.anyway else "")
        notes = book.notes + export(book.folder)
    for note in notes:
        tell(note)
    print(f"{one.known.id} ({one.known.registration_number}): corrected: change {change.number}")
    for finding in one.findings:
        print(f"  {finding.words()}")
    for entry in one.warnings:
        tell(f"{entry.id}: {entry.finding.words()}")


def correction(book: Book, asked: argparse.Namespace) -> Correction:
    """What is said by the options; a mistake where nothing is."""
    sire, dam = (None if word is None else parent_named(book, word) or "" for word in (asked.sire, asked.dam))
    said = Correction(
        text_of(asked.said_id), text_of(asked.name), asked.sex, is_yes(asked.castrated), asked.born, sire, dam,
        is_yes(asked.embryo), None if asked.owner is None else tuple(map(owner_since, asked.owner)), asked.exit,
        "" if asked.reason == NONE else asked.reason,
    )  # fmt: skip
    if said == Correction():
        raise WrongWords("correct needs what is to be otherwise, as --name Berta: `--help` shows what can be said")
    return said


def text_of(text: str | None) -> str | None:
    return None if text is None else clean(text)


def is_yes(text: str | None) -> bool | None:
    return None if text is None else text == YES


def owner_since(text: str) -> OwnerSince:
    """`NAME`, or `NAME=DAY`."""
    owner, equals, since = text.rpartition("=")
    return OwnerSince(clean(owner), day(since)) if equals else OwnerSince(clean(text))


def options_of(asked: argparse.Namespace) -> tuple[Option, ...]:
    """The options as they were given."""
    texts = vars(asked) | {"id": asked.said_id, "born": written(asked.born), "exit": written_exit(asked.exit)}
    return tuple(
        Option(f"--{name}", str(value))
        for name in SAID
        for value in (texts[name] if isinstance(texts[name], list) else [texts[name]])
        if value is not None
    )


def written(span: Span | None) -> str | None:
    """A day, month or year as it can be said again."""
    if span is None:
        return None
    return UNKNOWN if span == ANY_DAY else span.first.isoformat() if span.is_day else span.period().text


def written_exit(exit: Exit | None) -> str | None:
    if exit is None:
        return None
    return (written(exit.on) or UNKNOWN) if exit.has_left else NONE
