"""Columns that say the breed of each animal: a book has one, and rows with another than most are told."""
from __future__ import annotations

import collections
from collections.abc import Iterator, Mapping
from typing import Container

from gudokeyi.ingest.findings.columns import OtherBreeds
from gudokeyi.ingest.sheets import Sheet
from gudokeyi.ingest.texts import listed, plain
from gudokeyi.ingest.words import LETTER

TITLES = {plain(title) for title in listed("Rasse, Rassename, Rasse des Tieres, breed, breed name, race, race de l'animal")}


def other_breeds(sheet: Sheet, columns: Mapping[str, int], unknown: Container[str]) -> Iterator[OtherBreeds]:
    """What is told of such columns that no field is read from, in which most rows say one breed."""
    for at, title in enumerate(sheet.titles):
        if at not in columns.values() and plain(title) in TITLES:
            yield from of_column(sheet, at, unknown)


def of_column(sheet: Sheet, at: int, unknown: Container[str]) -> Iterator[OtherBreeds]:
    texts = sheet.column(at)
    names = {text: plain(text) for text in {*texts} if LETTER.search(text) and text not in unknown}
    counts = collections.Counter(filter(None, map(names.get, texts)))
    if len(counts) < 2:
        return
    [(usual, _)] = counts.most_common(1)
    # with more words it may be the same breed
    others = {text for text, name in names.items() if not name.startswith(usual)}
    places = [place for place, text in enumerate(texts) if text in others]
    if places and 2 * len(places) < counts.total():
        most = next(text for text in texts if names.get(text) == usual)
        first = places[0]
        yield OtherBreeds(sheet.titles[at], len(places), sheet.rows[first].line, texts[first], most)
