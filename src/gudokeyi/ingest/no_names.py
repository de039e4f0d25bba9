"""Texts in a column of names that say that an animal has none, as `-`, `NN` and `ohne Namen`."""
from __future__ import annotations

import collections
import re
from collections.abc import Collection, Iterable
from typing import Container

from gudokeyi.domain.kinds import Field
from gudokeyi.ingest.animals import SheetAnimal
from gudokeyi.ingest.findings.odd_texts import NoNames
from gudokeyi.ingest.findings.sheets import TextCount
from gudokeyi.ingest.texts import listed
from gudokeyi.ingest.unknown_parents import compared

# the words, in small letters and without points
WORDS = {
    compared(word) for word in listed(
        "nn, n/a, na, nan, <na>, none, null, no name, noname, without name, without a name, not named, not yet named, "
        "no name yet, unnamed, nameless, unknown, unk, not known, name unknown, unknown name, "
        "ohne Namen, ohne Name, ohne, o. N., oN, kein Name, keinen Namen, kein, keiner, noch kein Name, noch ohne Namen, "
        "namenlos, unbenannt, nicht benannt, noch nicht benannt, unbekannt, unbek, nicht bekannt, Name unbekannt, k. A., "
        "keine Angabe, keine Angaben, "
        "sans nom, sans, pas de nom, pas encore de nom, aucun nom, aucun, non nommé, non nommée, pas nommé, pas nommée, "
        "inconnu, inconnue, nom inconnu, non connu, non renseigné"
    )
}  # fmt: skip
# those that may be names where they are written as these are, as `Nan` and `Sans`
LIKE_NAMES = {compared(word) for word in listed("na, nan, unk, ka, on, sans, ohne, kein, keiner, aucun")}
# a text of signs or zeros alone, in a line of its own; a cross or a plus says something
SIGNS = re.compile(r"\n([-–—?.*/_~×]+|0[0.,]*)(?=\n)")
# so many different texts are told
MOST_TEXTS = 4


def no_names(texts: Collection[str], known: Container[str] = ()) -> set[str]:
    """Those of very many different names that are none, but for words that are `known` to mean animals."""
    together = "\n".join(["", *texts, ""])
    found = {*SIGNS.findall(together)}
    words = WORDS.intersection(together.casefold().replace(". ", "").replace(".", "").split("\n"))
    found |= {text for text in texts if compared(text) in words and not is_like_name(text)} if words else set()
    return {text for text in found if text.casefold() not in known}


def is_like_name(text: str) -> bool:
    return text.istitle() and "." not in text and compared(text) in LIKE_NAMES


def names_told(title: str, animals: Iterable[SheetAnimal], without: Collection[str]) -> list[NoNames]:
    """What is told of animals whose names are such texts."""
    cells = [(one.cells.get(Field.NAME, ""), one.line) for one in animals] if without else []
    found = [(text, line) for text, line in cells if text in without]
    counts = collections.Counter(text for text, _ in found)
    said = tuple(TextCount(*one) for one in counts.most_common(MOST_TEXTS))
    return [NoNames(title, len(found), found[0][1], said)] if found else []
