"""A man page of a program's words."""
from __future__ import annotations

import datetime
import re
from collections.abc import Iterable, Iterator

from building.packages.words import Argument, Program, Word

OTHER = {"gudokeyi": "herdbook", "herdbook": "gudokeyi"}


def manual(program: Program, version: str, day: datetime.date) -> str:
    return "\n".join(lines_of(program, version, day)) + "\n"


def lines_of(program: Program, version: str, day: datetime.date) -> Iterator[str]:
    name = program.name
    yield f'.TH {name.upper()} 1 {day} "{name} {version}" "Herd book"'
    # words stand as they are written
    yield from [".nh", ".ad l", ".SH NAME", rf"{name} \- {escaped(program.title)}"]
    yield from [".SH SYNOPSIS", f".B {name}", ".I WORD", "[options] ..."]
    yield from [".SH DESCRIPTION", *paragraphs(program.parts[""])]
    yield from [".SH OPTIONS", *options(program.arguments), ".SH WORDS"]
    for word in program.words:
        yield from section(name, word)
    for heading, title in ("Example", "EXAMPLES"), ("Status", "EXIT STATUS"):
        if heading in program.parts:
            yield from [f".SH {title}", *part(heading, program.parts[heading])]
    yield from [".SH SEE ALSO", rf".BR {OTHER[name]} (1)", ".PP", "The pages in", rf".I /usr/share/doc/gudokeyi"]


def section(program: str, word: Word) -> Iterator[str]:
    yield from [f".SS {word.name}", rf".B {program}", escaped(word.usage)]
    yield from [".PP", *paragraphs(word.about), *options(word.arguments)]
    for heading, text in word.parts.items():
        yield from [".PP", f"{heading}:", *part(heading, text)]


def paragraphs(text: str) -> Iterator[str]:
    for number, paragraph in enumerate(re.split(r"\n\n+", text.strip())):
        yield from [*([".PP"] if number else []), *map(escaped, paragraph.splitlines())]


def options(arguments: Iterable[Argument]) -> Iterator[str]:
    """Each with what it is for; those that stand without flags first."""
    for one in sorted(arguments, key=lambda one: bool(one.flags)):
        flags = ", ".join(rf"\fB{escaped(flag)}\fR" for flag in one.flags)
        yield from [".TP", f"{flags} {italic(one.metavar)}".strip(), escaped(one.about)]


def italic(text: str) -> str:
    return rf"\fI{escaped(text)}\fR" if text else ""


def part(heading: str, text: str) -> Iterator[str]:
    """Examples stand as they are; a list of statuses has an item for each."""
    if heading != "Status" or not re.match(r"  \d  ", text):
        is_shown = heading == "Example"
        lines = [escaped(line) for line in text.splitlines()]
        yield from [".EX", *lines, ".EE"] if is_shown else lines
        return
    for item in re.split(r"\n(?=  \d  )", text):
        status, _, told = item.strip().partition("  ")
        yield from [".TP", rf"\fB{status}\fR", escaped(" ".join(told.split()))]


def escaped(text: str) -> str:
    """A line of text in which nothing is a request."""
    shown = text.strip("\n").replace("\\", "\\e").replace("-", "\\-").replace("'", "\\(aq").replace("`", "\\(ga")
    return f"\\&{shown}" if shown.startswith(".") else shown
