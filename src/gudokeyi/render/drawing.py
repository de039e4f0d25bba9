"""What pages and pictures share: escaping, colours, how wide a text is drawn, and templates by Jinja2."""
from __future__ import annotations

import bisect
import contextlib
import hashlib
import itertools
import os
import pathlib
import pickle
import stat
import unicodedata
from collections.abc import Callable

import jinja2
import jinja2.bccache

from gudokeyi.domain.animals import SocietyRecord
from gudokeyi.render.languages import Language, mark_of
from gudokeyi.services.cache import cache, cached_file
from gudokeyi.store.book import Book

# How wide a text is drawn, and what of it fits. Fonts differ, so widths are taken rather too wide than too narrow.

# widths in parts of the size of the letters
NARROW = dict.fromkeys("iIjlI.,:;'|!()[]{}/\\ \u00a0\u202fftr-", 0.38)
WIDE = dict.fromkeys("mwMWÆŒ@%…", 1.0)
OTHERS = {"Lu": 0.76, "Ll": 0.58, "Nd": 0.58}
# no line is so wide that more letters of a text are drawn
MOST_DRAWN = 1_000
WIDEST = 1.0
BOLD = 1.08


def width_of(text: str, size: float, is_bold: bool = False) -> float:
    return size * (BOLD if is_bold else 1) * sum(map(width_of_character, text))


def width_of_character(character: str) -> float:
    if character in NARROW:
        return NARROW[character]
    if character in WIDE or unicodedata.east_asian_width(character) in "WF":
        return WIDEST
    if unicodedata.combining(character):
        return 0.0
    return OTHERS.get(unicodedata.category(character), 0.68)


def fitted(text: str, width: float, size: float, is_bold: bool = False) -> str:
    """The text, or its beginning with dots where it is too wide."""
    begin = text[:MOST_DRAWN]
    if begin == text and width_of(text, size, is_bold) <= width:
        return text
    return begin[: most_that_fit(len(begin), lambda keep: width_of(begin[:keep] + "…", size, is_bold), width)] + "…"


def most_that_fit(most: int, width_with: Callable[[int], float], width: float) -> int:
    """The greatest number up to so many with which a text isn't too wide: with each more it is as wide, or wider."""
    return max(0, bisect.bisect_right(range(most + 1), width, key=width_with) - 1)


def in_two_lines(text: str, width: float, size: float) -> tuple[str, str]:
    """The text with as many of its words in the first line as fit; what doesn't fit in the second ends with dots."""
    words = text[: 2 * MOST_DRAWN].split(" ")
    count = max(1, most_that_fit(len(words), lambda count: width_of(" ".join(words[:count]), size), width))
    return fitted(" ".join(words[:count]), width, size), fitted(" ".join(words[count:]), width, size)


def fitted_id(id: str, width: float, size: float, is_bold: bool = False) -> str:
    """An id, or its beginning and end with dots between them: ids that begin alike stay apart."""
    if len(id) <= MOST_DRAWN and width_of(id, size, is_bold) <= width:
        return id
    most = min(len(id) - 1, MOST_DRAWN)
    return cut(id, max(1, most_that_fit(most, lambda keep: width_of(cut(id, keep), size, is_bold), width)))


def cut(id: str, keep: int) -> str:
    """So many characters of an id, more of its end than of its beginning."""
    if keep >= len(id):
        return id
    first = keep * 2 // 5
    return f"{id[:first]}…{id[len(id) - (keep - first):]}"


# What pages and pictures share: escaping, colours, and the facts that they show of an animal.

FONT = "'Helvetica Neue', Arial, 'Liberation Sans', 'DejaVu Sans', sans-serif"
INK, GREY, LINE, PAPER = "#1d2733", "#5b6672", "#98a2ad", "#ffffff"
SIRE, DAM = "#e8f0f8", "#fbeef0"
# so long a file's name may be, but for what stands before and behind the id
MOST_BYTES = 200
INBRED, INBRED_INK = "#fff3cf", "#a34e0b"


def printable(text: str) -> str:
    """The text without the characters that no page may have."""
    if text.isprintable():
        return text
    return "".join(one for one in text if one >= " " and not 0xD800 <= ord(one) < 0xE000 and one not in "\ufffe\uffff")


# signs that mean something in a page, as a text has them there
ESCAPED = str.maketrans({"&": "&amp;", "<": "&lt;", ">": "&gt;", '"': "&quot;", "'": "&#x27;"})


def escape(text: object) -> str:
    """The text for a picture."""
    return printable(str(text)).translate(ESCAPED)


def text_at(
    x: float, y: float, what: str, colour: str, size: float, anchor: str = "start", weight: str = "normal"
) -> str:
    """A line of text in a picture, nothing where there is no text."""
    if not what:
        return ""
    look = f'fill="{colour}" font-size="{size:.3g}" font-weight="{weight}" text-anchor="{anchor}"'
    return f'<text x="{x:.1f}" y="{y:.1f}" {look}>{escape(what)}</text>'


def svg(width: int, height: int, parts: list[str]) -> str:
    """A picture, which fits on a page where it is printed, and is no wider than a screen."""
    return (
        f'<svg xmlns="http://www.w3.org/2000/svg" viewBox="0 0 {width} {height}" width="{width}" height="{height}" '
        f'font-family="{escape(FONT)}">\n'
        f"<style>@page {{ size: A4 {'landscape' if width > height else 'portrait'}; margin: 10mm; }} "
        "@media print { svg { width: 100%; height: 100%; } }\n"
        f"@media screen and (max-width: {width}px) {{ svg {{ width: 100%; height: auto; }} }}</style>\n"
        f'<rect width="{width}" height="{height}" fill="{PAPER}"/>\n' + "\n".join(parts) + "\n</svg>\n"
    )


def shortened(text: str, most: int) -> str:
    return text if len(text) <= most else text[: most - 1] + "…"


def year_of(book: Book, animal: SocietyRecord, language: Language) -> str:
    """The birth year, with a mark where the day was inferred."""
    return language.marked(str(book.records[animal.registration_number].born.year), mark_of(animal.birth))


def file_name(kind: str, id: str, suffix: str) -> str:
    """A file name for an animal's page, which no other animal has."""
    written = "".join(one if one.isalnum() or one in "._-" else quoted(one) for one in id)
    if len(written.encode()) > MOST_BYTES:
        written = f"{written[:40]}~x{hashlib.sha256(id.encode()).hexdigest()}"
    return f"{kind}-{written}{suffix}"


def quoted(character: str) -> str:
    """What stands for a character that a file's name shouldn't have: no two are alike."""
    return f"~u{ord(character):x}~" if ord(character) > 0xFF else f"~{ord(character):02x}"


# Makes pages of templates by Jinja2, which is imported where a page is made alone.

HERE = pathlib.Path(__file__).resolve().parent


def finished(value: object) -> object:
    """A value as it goes into a page, before it is escaped."""
    return printable(value) if type(value) is str else value


class KeptTemplates(jinja2.BytecodeCache):
    """Templates as Jinja2 has made Python of them, in the caches of who asks: else each call makes it anew. It is run,
    so nobody else may have written it."""

    def file(self, bucket: jinja2.bccache.Bucket) -> pathlib.Path:
        return cached_file(f"{bucket.key[:16]}-{jinja2.__version__}.template")

    def load_bytecode(self, bucket: jinja2.bccache.Bucket) -> None:
        with contextlib.suppress(OSError, EOFError, pickle.UnpicklingError), open(self.file(bucket), "rb") as file:
            found = os.fstat(file.fileno())
            if found.st_uid == os.getuid() and not found.st_mode & WRITTEN_BY_OTHERS:
                bucket.load_bytecode(file)

    def dump_bytecode(self, bucket: jinja2.bccache.Bucket) -> None:
        cache(self.file(bucket), bucket.bytecode_to_string())


# the bits of a file that its group or others may write
WRITTEN_BY_OTHERS = stat.S_IWGRP | stat.S_IWOTH
ENVIRONMENT = jinja2.Environment(
    bytecode_cache=KeptTemplates(),
    loader=jinja2.FileSystemLoader([HERE / "templates", HERE / "styles"]),
    autoescape=True,
    undefined=jinja2.StrictUndefined,
    finalize=finished,
    trim_blocks=True,
    lstrip_blocks=True,
    keep_trailing_newline=True,
)


# so many pieces of a text are joined at once: certificates of many animals have millions
PIECES = 10_000


def rendered(template: str, **values: object) -> str:
    pieces = ENVIRONMENT.get_template(template).generate(**values)
    return "".join(map("".join, iter(lambda: list(itertools.islice(pieces, PIECES)), [])))
