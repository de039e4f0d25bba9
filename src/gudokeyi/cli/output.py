"""What a word prints, and the table or the JSON that it writes to the screen or to a file."""
from __future__ import annotations

import argparse
import io
import sys
from collections.abc import Iterable
from typing import TYPE_CHECKING, TextIO

from gudokeyi.domain.cells import for_terminals
from gudokeyi.domain.messages import counted
from gudokeyi.domain.mistakes import WrongWords

if TYPE_CHECKING:
    from gudokeyi.services.opening import Book
    from gudokeyi.services.tables import Table


# options that shape a table or a page alone
SHAPING = {
    "columns": "table", "csv": "table", "matrix": "table", "semicolons": "table", "table": "table", "triples": "table",
    "day": "page", "title": "page",
}  # fmt: skip
# the language of pages where none is said
ENGLISH = "en"
# what a file is told to have, where it isn't a table
JSON_IN_FILE = "JSON, in one line"


class Harmless(io.TextIOBase):
    """A stream to a terminal or a file, to which no character is written that would do something there."""

    def __init__(self, stream: TextIO) -> None:
        self.stream = stream

    def write(self, text: str) -> int:
        self.stream.write(for_terminals(text))
        return len(text)

    def flush(self) -> None:
        self.stream.flush()

    def fileno(self) -> int:
        return self.stream.fileno()

    def isatty(self) -> bool:
        return self.stream.isatty()


def tell(sentence: str) -> None:
    """What isn't part of an output, behind it."""
    sys.stdout.flush()
    print(f"gudokeyi: {sentence}", file=sys.stderr)


def refuse_beside_json(asked: argparse.Namespace, options: Iterable[str] = SHAPING) -> None:
    """A mistake where an option that shapes a table or a page stands beside --json, which writes none."""
    for name in options:
        if getattr(asked, name, None):
            raise WrongWords(f"--json writes no {SHAPING[name]}: leave out --{name}")
    if getattr(asked, "language", ENGLISH) != ENGLISH:
        raise WrongWords("--json is in English: leave out --language")


def give_json(asked: argparse.Namespace, book: Book, value: object) -> None:
    """Writes a value as JSON, in a line, to the screen or to a file."""
    # a word that writes to the screen alone has no such option
    if getattr(asked, "out", None):
        give_file(asked, book, json_line(value).encode(), JSON_IN_FILE)
    else:
        sys.stdout.write(json_line(value))


def json_line(value: object) -> str:
    from gudokeyi.domain.encoding import json_text

    return f"{json_text(value)}\n"


def give_table(asked: argparse.Namespace, book: Book, table: Table) -> None:
    """Writes a table to the screen or to a file."""
    text = table.text(asked.semicolons)
    if asked.out:
        # spreadsheets that want semicolons tell UTF-8 by a byte-order mark
        encoded = text.encode("utf-8-sig" if asked.semicolons else "utf-8")
        give_file(asked, book, encoded, counted(len(table), "row"))
    else:
        sys.stdout.write(text)


def give_file(asked: argparse.Namespace, book: Book, text: bytes, what: str) -> None:
    """Writes the file that is asked for, and tells what it has."""
    from gudokeyi.services.output_files import write_outs

    write_outs(book, {asked.out: text}, asked.force)
    print(f"{asked.out}: {what}")
