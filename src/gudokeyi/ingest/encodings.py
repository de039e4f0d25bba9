"""From a file's bytes to its text: UTF-8, UTF-16, Windows-1252 or Mac Roman, and what is wrong with the letters."""
from __future__ import annotations

import functools
import pathlib
import re
from typing import TYPE_CHECKING, NamedTuple

from gudokeyi.domain.messages import Mistake
from gudokeyi.ingest.messages import OtherKind, SheetFault

if TYPE_CHECKING:
    from gudokeyi.ingest.findings.columns import SheetFinding
    from gudokeyi.ingest.findings.files import StrayBytes

# how files begin that are no text
NOT_TEXT = {
    b"\xd0\xcf\x11\xe0": OtherKind.XLS,
    b"%PDF": OtherKind.PDF,
    b"{\\rtf": OtherKind.RTF,
}
# a letter of UTF-8 in several bytes
SEVERAL_BYTES = re.compile(rb"[\xc2-\xdf][\x80-\xbf]|[\xe0-\xef][\x80-\xbf]{2}|[\xf0-\xf4][\x80-\xbf]{3}")
# letters outside of ASCII that follow one another, of which one that was decoded twice has two at least
FOREIGN, TWO_FOREIGN = re.compile(r"[^\x00-\x7f]+"), re.compile(r"[^\x00-\x7f]{2}")
LOST = "\ufffd"


class Decoded(NamedTuple):
    """A file's text, the encoding in words, and what is wrong with some bytes, if anything is, or told of them."""

    text: str
    encoding: str
    fault: StrayBytes | None = None
    note: SheetFinding | None = None


def decoding(path: pathlib.Path, data: bytes) -> Decoded:
    for beginning, what in NOT_TEXT.items():
        if data.startswith(beginning):
            raise Mistake(SheetFault.OTHER_KIND.said(path=path, what=what.said()))
    if data.startswith((b"\xff\xfe", b"\xfe\xff")):
        try:
            return Decoded(data.decode("utf-16"), "UTF-16")
        except UnicodeDecodeError:
            raise no_text(path) from None
    if b"\0" in data:
        raise no_text(path)
    try:
        return Decoded(data.decode("utf-8-sig"), "UTF-8")
    except UnicodeDecodeError as error:
        if not is_mostly_utf8(data):
            return windows(path, data)
        return Decoded(data.decode("utf-8-sig", errors="replace"), "UTF-8", stray_bytes(path, data, error))


def decoded(path: pathlib.Path, data: bytes) -> tuple[str, str]:
    """A file's text and encoding, where each of its bytes is right."""
    found = decoding(path, data)
    if found.fault:
        raise Mistake(found.fault.words())
    return found.text, found.encoding


def windows(path: pathlib.Path, data: bytes) -> Decoded:
    """The text in the encoding of Windows, or in that of a Mac, where it has words in this one alone."""
    # most files are UTF-8
    from gudokeyi.ingest.findings.files import LettersOfMac
    from gudokeyi.ingest.letters_of_words import MAC, WINDOWS, letters_found

    note = letters_found(data)
    if isinstance(note, LettersOfMac):
        return Decoded(data.decode(MAC), "Mac Roman", note=note)
    try:
        return Decoded(data.decode(WINDOWS), "Windows-1252", note=note)
    except UnicodeDecodeError:
        raise no_text(path) from None


def no_text(path: pathlib.Path) -> Mistake:
    return Mistake(SheetFault.NO_TEXT.said(path=path))


def is_mostly_utf8(data: bytes) -> bool:
    """Are there at least as many letters of UTF-8 as bytes that are none?"""
    letters = len(SEVERAL_BYTES.findall(data))
    return letters > 0 and letters >= len(stray(data))


def stray(data: bytes) -> list[int]:
    """The bytes outside of ASCII that aren't part of a letter of UTF-8."""
    return list(re.sub(rb"[\x00-\x7f]+", b"", SEVERAL_BYTES.sub(b"", data)))


def stray_bytes(path: pathlib.Path, data: bytes, error: UnicodeDecodeError) -> StrayBytes:
    """Where the first byte stands that isn't UTF-8, and how many more there are."""
    from gudokeyi.ingest.findings.files import StrayBytes

    # a byte-order mark isn't counted in the place of the error
    bare = data.removeprefix(b"\xef\xbb\xbf")
    lines = re.split(rb"\r\n|\n|\r", bare[: error.start])
    behind = lines[-1].decode("utf-8", errors="replace")[-30:]
    return StrayBytes(str(path), len(lines), len(lines[-1]) + 1, behind, bare[error.start], len(stray(data)) - 1)


@functools.lru_cache(maxsize=50_000)
def decoded_twice(text: str) -> str:
    """The text as it was before its letters were decoded twice, as `Müller` of `MÃ¼ller`; empty where they weren't."""
    if text.isascii() or not TWO_FOREIGN.search(text):
        return ""
    mended = FOREIGN.sub(lambda found: mended_letters(found.group()), text)
    return mended if mended != text else ""


# the same letters stand in many cells
@functools.lru_cache(maxsize=4096)
def mended_letters(letters: str) -> str:
    for encoding in "cp1252", "latin-1":
        try:
            found = letters.encode(encoding).decode("utf-8")
        except (UnicodeEncodeError, UnicodeDecodeError):
            continue
        if all("\u00a0" <= one <= "\u017f" or "\u2010" <= one <= "\u20ac" for one in found):
            return found
    return letters


class Letters:
    """The cells whose letters were decoded twice or are lost, each text with its first line."""

    def __init__(self) -> None:
        self.twice: dict[str, tuple[int, str]] = {}
        self.lost: dict[str, int] = {}

    def look(self, line: int, text: str) -> None:
        if LOST in text:
            self.lost.setdefault(text, line)
        elif mended := decoded_twice(text):
            self.twice.setdefault(text, (line, mended))

    def told(self) -> list[SheetFinding]:
        from gudokeyi.ingest.findings.files import DecodedTwice, LettersLost, TextInLine

        found: list[SheetFinding] = []
        if self.twice:
            found.append(
                DecodedTwice(tuple(TextInLine(text, line, mended) for text, (line, mended) in self.twice.items()))
            )
        if self.lost:
            found.append(LettersLost(tuple(TextInLine(text, line) for text, line in self.lost.items())))
        return found
