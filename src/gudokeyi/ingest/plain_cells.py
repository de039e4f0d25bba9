"""The cells of a plain pedigree file all at once, as arrays: one in ASCII, without quotation marks and comments, each
of whose lines has as many cells. Others are parted line by line."""
from __future__ import annotations

import functools
import itertools
from collections.abc import Iterator, Sequence
from dataclasses import dataclass
from typing import overload

import numpy as np
import numpy.typing as npt

Numbers = npt.NDArray[np.int64]
# where a cell begins or ends, in bytes
Offsets = npt.NDArray[np.int32]
Words = npt.NDArray[np.uint64]

# what no byte of a plain file is, beside those of control: quotation marks, apostrophes, and what begins comments
PLAIN = bytes(byte for byte in range(0x20, 0x7F) if byte not in b"\"'#") + b"\t\n"
LINE_END, BLANK = 10, 32
# offsets have so many bits, and longer cells aren't compared as words of eight bytes
MOST_BYTES, LONGEST, BYTES_OF_WORD = 1 << 31, 128, 8
# so many bytes are made texts at a time
AT_ONCE = 1 << 24
# an odd number that spreads the bits of a word (the golden ratio in 64 bits)
SPREADING = np.uint64(0x9E3779B97F4A7C15)


class Column(Sequence[str]):
    """The texts of a column, made where they are asked for."""

    def __init__(self, data: bytes, starts: Offsets, ends: Offsets) -> None:
        self.data, self.starts, self.ends = data, starts, ends

    def __len__(self) -> int:
        return len(self.starts)

    @overload
    def __getitem__(self, row: int) -> str: ...

    @overload
    def __getitem__(self, row: slice) -> list[str]: ...

    def __getitem__(self, row: int | slice) -> str | list[str]:
        if isinstance(row, slice):
            return [*Column(self.data, self.starts[row], self.ends[row])]
        return self.data[self.starts[row] : self.ends[row]].decode()

    def __iter__(self) -> Iterator[str]:
        for start, end in zip(self.starts.tolist(), self.ends.tolist()):
            yield self.data[start:end].decode()


@dataclass(frozen=True)
class PlainCells:
    """The cells of the lines of a plain text, a row for each line."""

    data: bytes
    # of each line
    numbers: Sequence[int]
    starts: Offsets
    ends: Offsets
    separator: str | None

    def column(self, at: int) -> Column:
        return Column(self.data, self.starts[:, at], self.ends[:, at])

    def texts(self, at: int) -> list[str]:
        """The texts of a column all at once."""
        count, found = self.starts.shape[1], list[str]()
        for text in self.pieces():
            found += (text.split() if self.separator is None else text.split(self.separator))[at::count]
        return found

    def pieces(self) -> Iterator[str]:
        """The text in pieces of whole lines, each with the separator for a line's end; the last end is left out."""
        first, last = 0, len(self.data)
        while first < last:
            end = self.data.find(b"\n", min(first + AT_ONCE, last - 1)) + 1
            piece = self.data[first : end - 1].decode()
            yield piece if self.separator is None else piece.replace("\n", self.separator)
            first = end


def plain_cells(data: bytes, separator: str | None, first_number: int) -> PlainCells | None:
    """The cells of a text whose first line has a number; nothing where it isn't plain."""
    data = data.rstrip(b"\n") + b"\n"
    if len(data) >= MOST_BYTES or data.translate(None, PLAIN) or data[:1] == b"\n":
        return None
    edges = edges_of_words(data) if separator is None else edges_of_cells(data, separator.encode())
    if edges is None:
        return None
    starts, ends = edges
    line_ends = np.flatnonzero(np.frombuffer(data, np.uint8) == LINE_END)
    counts = np.diff(np.searchsorted(starts, line_ends, side="right"), prepend=0)
    is_line = counts > 0
    lines = int(np.count_nonzero(is_line))
    if not lines or (counts[is_line] != counts[0]).any():
        return None
    numbers = range(first_number, first_number + lines)
    if lines < len(counts):
        return PlainCells(
            data, (np.flatnonzero(is_line) + first_number).tolist(), *by_line(starts, ends, lines), separator
        )
    return PlainCells(data, numbers, *by_line(starts, ends, lines), separator)


def by_line(starts: Offsets, ends: Offsets, lines: int) -> tuple[Offsets, Offsets]:
    return starts.reshape(lines, -1), ends.reshape(lines, -1)


def edges_of_words(data: bytes) -> tuple[Offsets, Offsets] | None:
    """Where cells begin and end between which blanks stand."""
    if b"," in data or b";" in data:
        return None
    is_blank = np.frombuffer(b"\n" + data, np.uint8) <= BLANK
    edges = np.flatnonzero(is_blank[1:] != is_blank[:-1]).astype(np.int32)
    return edges[::2], edges[1::2]


def edges_of_cells(data: bytes, separator: bytes) -> tuple[Offsets, Offsets] | None:
    """The same between which a sign stands, where no cell has a blank at its ends."""
    signs = (separator, b"\n")
    if any(
        blank + sign in data or sign + blank in data for blank in (b" ", b"\t") if blank != separator for sign in signs
    ):
        return None
    if data[:1] == b" " or b"\n\n" in data:
        return None
    values = np.frombuffer(data, np.uint8)
    ends = np.flatnonzero((values == ord(separator)) | (values == LINE_END)).astype(np.int32)
    return np.concatenate([np.zeros(1, np.int32), ends[:-1] + 1]), ends


@dataclass(frozen=True)
class NumberedCells:
    """Cells by the numbers of their texts, from 0 on: the same number for the same text alone. For each number there is
    a cell with its text."""

    numbers: Numbers
    cells: Numbers

    def __len__(self) -> int:
        return len(self.cells)


def numbered_texts(texts: Sequence[str]) -> NumberedCells:
    numbers_of = dict(zip(dict.fromkeys(texts), itertools.count()))
    numbers = np.fromiter(map(numbers_of.__getitem__, texts), np.int64, len(texts))
    cells = np.empty(len(numbers_of), np.int64)
    # of the first of them
    cells[numbers[::-1]] = np.arange(len(texts))[::-1]
    return NumberedCells(numbers, cells)


def numbered_cells(data: bytes, starts: Offsets, ends: Offsets) -> NumberedCells | None:
    """Nothing where a cell is very long."""
    lengths = ends - starts
    longest = int(lengths.max(initial=0))
    if longest > LONGEST:
        return None
    words = functools.partial(word_of, np.frombuffer(data + bytes(longest + BYTES_OF_WORD), np.uint8), starts, lengths)
    count = -(-longest // BYTES_OF_WORD) or 1
    keys = words(0)
    for at in range(1, count):
        keys = (keys ^ (keys >> np.uint64(29))) * SPREADING + words(at)
    found = of_same_keys(keys)
    # texts of more than one word may have one key and differ
    is_sure = count == 1 or all((words(at)[found.cells][found.numbers] == words(at)).all() for at in range(count))
    return found if is_sure else None


def word_of(data: npt.NDArray[np.uint8], starts: Offsets, lengths: Offsets, at: int) -> Words:
    """The bytes of each cell from 8 at to 8 at + 7, with zeros behind the cell's end."""
    windows: Words = np.ndarray((len(data) - BYTES_OF_WORD + 1,), "<u8", data, strides=(1,))
    there = np.clip(lengths - BYTES_OF_WORD * at, 0, BYTES_OF_WORD)
    kept = np.array([(1 << 8 * size) - 1 for size in range(BYTES_OF_WORD + 1)], np.uint64)
    where = np.minimum(starts + BYTES_OF_WORD * at, len(windows) - 1)
    found: Words = windows[where] & kept[there]
    return found


def of_same_keys(keys: Words) -> NumberedCells:
    order = np.argsort(keys)
    in_order = keys[order]
    is_first = np.ones(len(keys), bool)
    np.not_equal(in_order[1:], in_order[:-1], out=is_first[1:])
    numbers = np.empty(len(keys), np.int64)
    numbers[order] = np.cumsum(is_first) - 1
    return NumberedCells(numbers, order[is_first])
