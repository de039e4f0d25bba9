"""What may stand behind an option: each kind with what is told where it is written otherwise."""
from __future__ import annotations

import argparse
import functools
import pathlib
from collections.abc import Callable
from typing import TypeVar

from gudokeyi.domain.messages import Mistake
from gudokeyi.domain.options import LIST, Described, Kind
from gudokeyi.services import option_values as values
from gudokeyi.services.option_values import is_number

Value = TypeVar("Value")


def typed(reader: Callable[[str], Value]) -> Callable[[str], Value]:
    """A reader of values, as argparse asks for one."""

    @functools.wraps(reader)
    def read(text: str) -> Value:
        try:
            return reader(text)
        except Mistake as mistake:
            raise argparse.ArgumentTypeError(mistake.sentences[0]) from None

    return read


three_letters = typed(values.three_letters)
day, day_until_today, days = typed(values.day), typed(values.day_until_today), typed(values.days)
coefficient, positive = typed(values.coefficient), typed(values.positive)
day_or_period = typed(values.day_or_period)
sex, birth_days = typed(values.sex), typed(values.birth_days)


def add_described(word: argparse.ArgumentParser, one: Described, default: object = None) -> None:
    """An option as it is described."""
    if one.kind is Kind.FLAG:
        word.add_argument(one.option, action="store_true", help=one.help)
    elif one.kind in (Kind.TEXTS, Kind.OWNERS, Kind.SEXES):
        word.add_argument(one.option, action="append", default=[], metavar=one.shape, help=one.help)
    elif one.kind is Kind.TEXT:
        word.add_argument(one.option, default="", metavar=one.shape, help=one.help)
    else:
        word.add_argument(one.option, type=READERS[one.kind], default=default, metavar=one.shape, help=one.help)


def most(text: str) -> int | None:
    """A greatest number; none for `any`."""
    return None if text == "any" else positive(text)


def file(text: str) -> pathlib.Path:
    if pathlib.Path(text).is_dir():
        raise argparse.ArgumentTypeError(f"'{text}' is a folder: name a file")
    return pathlib.Path(text)


def whole_number(text: str) -> int:
    if not is_number(text):
        raise argparse.ArgumentTypeError(f"'{text}' isn't a whole number")
    return int(text)


def generations(text: str) -> int:
    if not is_number(text) or not 1 <= int(text) <= 10:
        raise argparse.ArgumentTypeError(f"'{text}' isn't 1 to 10")
    return int(text)


# what reads a value of each kind that isn't a text
READERS: dict[Kind, Callable[[str], object]] = {
    Kind.LETTERS: three_letters,
    Kind.FILE: pathlib.Path,
    Kind.DAY: day_until_today,
    Kind.SPAN: birth_days,
    Kind.DAYS: days,
    Kind.BOUND: most,
    Kind.COEFFICIENT: coefficient,
    Kind.SEX: sex,
}


def add_choice(word: argparse.ArgumentParser) -> None:
    """The options that choose animals by what they are."""
    for name in "living", "owner":
        add_described(word, LIST[name])


def add_force(word: argparse.ArgumentParser) -> None:
    """The option for words that write a file."""
    word.add_argument("--force", action="store_true", help="write over a file that is there, if it isn't the book's")


def add_anyway(word: argparse.ArgumentParser) -> None:
    """The option for words that file what may be wrong."""
    word.add_argument("--anyway", action="store_true", help="file it also where something may be wrong of it")


def add_output(word: argparse.ArgumentParser) -> None:
    """The options for words that write a table."""
    word.add_argument("--semicolons", action="store_true", help="semicolons between cells, and commas in decimals")
    word.add_argument("--out", type=file, metavar="FILE", help="write to this file, not to the screen")
    add_force(word)
