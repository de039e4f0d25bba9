"""The cells of plain files, which are found at once, beside those of the same lines that are parted one by one."""
from __future__ import annotations

import pathlib
import random

import numpy as np
import pytest

from gudokeyi.domain.messages import Mistake
from gudokeyi.ingest.files import GivenFile
from gudokeyi.ingest.pedigree_table import PedigreeTable, plain_table, read_table
from gudokeyi.ingest.plain_cells import Column, numbered_cells, numbered_texts
from gudokeyi.ingest.unknown_parents import UnknownParents

UNKNOWN = UnknownParents()


def told(text: str, name: str) -> tuple[object, ...]:
    """All that is read of a file."""
    try:
        table = read_table(GivenFile(pathlib.Path(name), text.encode()), {}, UNKNOWN)
    except Mistake as mistake:
        return mistake.sentences
    others = table.others() if table.others else {}
    return (
        [*table.ids],
        [*table.sires],
        [*table.dams],
        [*table.lines],
        [*table.families],
        table.told,
        table.titles,
        others,
    )


def plain(text: str, name: str = "p.txt") -> PedigreeTable | None:
    return plain_table(GivenFile(pathlib.Path(name), text.encode()), text, {})


PLAIN = {
    "blanks": "a 0 0\nb  a\t0\n c b a \n\n   \nd c b\n",
    "titles": "id sire dam\na 0 0\nb a 0\n",
    "more columns": "sire,weight,id,dam\n0,1.5,a,0\n,,b,a\na,2,c,b\n",
    "cells with blanks": "id;sire;dam\nGB 1;;\nGB 2;GB 1;\n",
    "ends of lines": "a 0 0\r\nb a 0\r\n",
    "no end": "a\t0\t0\nb\ta\t0",
    "family": "F a 0 0 1 -9\nG b a 0 2 -9\n",
    "families": "fid iid pat mat\nF a 0 0\nG b a 0\n",
    "long": "".join(f"{'x' * 40}{at} {'x' * 40}{at - 1} 0\n" for at in range(1, 9)),
}
PARTED = {
    "comment": "a 0 0 # x\nb a 0\n", "quotes": '"a" 0 0\nb a 0\n', "letters": "ä 0 0\n", "blank at an end": "id,sire,dam\na, 0,0\n",
    "other cells": "id sire dam x\na 0 0\nb a 0 y\n", "titles again": "id sire dam\na 0 0\nid sire dam\n",
    "begins below": "\na 0 0\n", "old ends": "a 0 0\rb a 0\r", "very long": f"{'x' * 200} 0 0\n", "other sign": "a 0 0\nb;a 0 0\n",
    "too few": "a 0\n", "control": "a\x0b0 0\n",
}  # fmt: skip


@pytest.mark.parametrize("name", PLAIN)
def test_plain_files(name: str) -> None:
    text, file = PLAIN[name], "p.fam" if name == "family" else "p.txt"
    assert plain(text, file)
    assert told(text, file) == told(text.rstrip("\r\n") + "\n# a comment\n", file)


@pytest.mark.parametrize("name", PARTED)
def test_others_are_parted(name: str) -> None:
    assert plain(PARTED[name]) is None
    assert isinstance(told(PARTED[name], "p.txt"), tuple)


@pytest.mark.parametrize("longest", (1, 7, 8, 9, 16, 17, 40))
def test_numbers(longest: int) -> None:
    """The same number for the same text alone, also where texts differ in one byte behind eight others."""
    draw = random.Random(longest)
    texts = ["".join(draw.choices("ab", k=draw.randint(0, longest))) for _ in range(3000)]
    texts += [text[:-1] + "c" for text in texts if text]
    data = "\n".join([*texts, ""]).encode()
    ends = np.flatnonzero(np.frombuffer(data, np.uint8) == 10).astype(np.int32)
    starts = np.append(0, ends[:-1] + 1).astype(np.int32)
    column = Column(data, starts, ends)
    assert [*column] == texts and column[1:3] == texts[1:3]
    found, wanted = numbered_cells(data, starts, ends), numbered_texts(texts)
    assert found and len(found) == len(wanted) == len({*texts})
    for one in found, wanted:
        assert [texts[one.cells[number]] for number in one.numbers.tolist()] == texts
