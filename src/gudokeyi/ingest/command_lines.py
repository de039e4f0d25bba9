"""Commands of another program as they are read from a file: JSON lines, or CSV with titles."""
from __future__ import annotations

import csv
import io
import json
from collections.abc import Iterator, Mapping
from dataclasses import dataclass

# what a line isn't
NO_OBJECT = "the line isn't a JSON object: write one, as {\"request\": \"a1\", \"kind\": \"exit\", \"id\": \"17\", ..}"
NO_TEXT = "the line isn't UTF-8 text: write it as that"
TOO_MANY_CELLS = "the line has more cells than titles: put a text with a comma between quotation marks"


@dataclass(frozen=True, slots=True)
class CommandLine:
    """A line with its number and its fields, or what is wrong with the whole of it."""

    line: int
    values: Mapping[str, object]
    fault: str = ""


def read_command_lines(text: bytes) -> Iterator[CommandLine]:
    """The lines but for blank ones. A file whose first letter is { has JSON, any other CSV with titles."""
    text = text.removeprefix(b"\xef\xbb\xbf")
    return json_lines(text) if text.lstrip().startswith(b"{") else csv_lines(text)


def json_lines(text: bytes) -> Iterator[CommandLine]:
    for number, line in enumerate(text.split(b"\n"), 1):
        if line.strip():
            yield json_line(number, line)


def json_line(number: int, line: bytes) -> CommandLine:
    try:
        found = json.loads(line.decode())
    except UnicodeDecodeError:
        return CommandLine(number, {}, NO_TEXT)
    except (ValueError, RecursionError):
        found = None
    return CommandLine(number, found) if isinstance(found, dict) else CommandLine(number, {}, NO_OBJECT)


def csv_lines(text: bytes) -> Iterator[CommandLine]:
    """An empty cell says nothing."""
    lines = io.StringIO(text.decode("utf-8", "surrogateescape"), newline="")
    first = lines.readline()
    lines.seek(0)
    reader = csv.reader(lines, delimiter=";" if first.count(";") > first.count(",") else ",")
    titles = [title.strip() for title in next(reader, [])]
    for cells in reader:
        if any(cell.strip() for cell in cells):
            yield csv_line(reader.line_num, titles, cells)


def csv_line(number: int, titles: list[str], cells: list[str]) -> CommandLine:
    if any("\ud800" <= letter <= "\udfff" for cell in cells for letter in cell):
        return CommandLine(number, {}, NO_TEXT)
    if any(cell.strip() for cell in cells[len(titles) :]):
        return CommandLine(number, {}, TOO_MANY_CELLS)
    return CommandLine(number, {title: cell for title, cell in zip(titles, cells) if cell.strip()})
