"""Ids with a sign or a word by which animals leave, as `†DE 103`, `+DE 103` and `DE 111 (tot)`: they are read without
it."""
from __future__ import annotations

import re
from collections.abc import Collection, Mapping, Sequence
from dataclasses import replace
from typing import Container

from gudokeyi.domain.kinds import Field
from gudokeyi.ingest.odd_texts import SHORT, SMALL, SURE, having
from gudokeyi.ingest.sheets import Sheet, SheetRow, cell_of, with_cell
from gudokeyi.ingest.texts import shape

PARENTS = Field.SIRE, Field.DAM
CROSSES = "†✝✞✟"
# signs before an id; a plus is read as a part of it in a sheet
SIGNS = CROSSES + "+"
BEHIND_SIGN = re.compile(rf"[{re.escape(SIGNS)}] ?(\w.*)", re.DOTALL)
MARKS = (*CROSSES, " +", "(+", "( +", *SURE, *SHORT, *SMALL)
WORDS = rf"(?i:(?:{'|'.join((*SURE, *SMALL))})\b|(?:{'|'.join(SHORT)})\b\.?)"
# a cross before an id, or behind it, where a plus in brackets or alone, or a word, may stand too, with a day behind it
MARKED = re.compile(
    rf"[{CROSSES}] ?(?P<behind>\w[^{CROSSES}]*)|"
    rf"(?P<before>[^{CROSSES}(]*\w) ?(?:[{CROSSES}]|(?<= )\+|\( ?(?:[{CROSSES}+]|{WORDS})[^)]*\)|(?<= ){WORDS})"
    r"(?: ?(?:\d\d?[./-]){0,2}(?:\d\d)?\d\d)?"
)


def without_sign(text: str) -> str:
    """What stands behind such a sign; empty where a text begins with none."""
    found = BEHIND_SIGN.fullmatch(text) if text[:1] in SIGNS else None
    return found[1] if found else ""


def marked_among(texts: Collection[str]) -> dict[str, str]:
    """Those of many texts that have such a sign, each with the id that it has; a word stands beside a digit alone."""
    likely = having(MARKS, texts)
    found = {text: one["behind"] or one["before"] for text in likely if (one := MARKED.fullmatch(text))}
    return {text: id for text, id in found.items() if any(map(str.isdigit, id)) or any(one in text for one in CROSSES)}


# a plus before an id, in lines of one text; ids have one by themselves where so many of ten begin with it, and not few
PLUS, BEGINS_WITH_PLUS, MOST_OF_TEN, FEW = "+", "\n+", 9, 3


def with_plus_before(sheet: Sheet, columns: Mapping[str, int], animals: Container[str]) -> dict[str, str]:
    """The ids with a plus before one that the list or the book has, each with that; where there is one the plus is such
    a sign before all that are written so."""
    ids = sheet.column(columns[Field.ID])
    if not has_plus_before(ids):
        return {}
    found = {text: id for text in ids if text.startswith(PLUS) and (id := text.removeprefix(PLUS).lstrip())}
    if len(found) > FEW and 10 * len(found) >= MOST_OF_TEN * len(ids):
        return {}
    named = {cell for role in PARENTS if role in columns for cell in sheet.column(columns[role])}.union(ids)
    known = {shape(id) for id in found.values() if id in named or id in animals}
    return {text: id for text, id in found.items() if shape(id) in known}


def has_plus_before(texts: Sequence[str]) -> bool:
    """Does any of many texts begin with one? Few sheets have such ids."""
    return BEGINS_WITH_PLUS in "\n".join(["", *texts])


def without_signs_of_exits(sheet: Sheet, columns: Mapping[str, int], animals: Container[str]) -> Sheet:
    """The sheet with such ids as they are meant, also where they are parents. An animal that is there by such an id
    keeps it."""
    at = columns[Field.ID]
    plus = with_plus_before(sheet, columns, animals)
    meant = {text: id for text, id in (marked_among(sheet.column(at)) | plus).items() if text not in animals}
    if not meant:
        return sheet
    marked = {row.line: text for row, text in zip(sheet.rows, sheet.column(at)) if text in meant}
    rows = [with_cell(row, at, meant[marked[row.line]]) if row.line in marked else row for row in sheet.rows]
    ids = {*sheet.column(at), *meant.values()}
    for place in [columns[role] for role in PARENTS if role in columns]:
        parents = marked_among(sheet.column(place)) | plus
        known = {text: id for text, id in parents.items() if id in ids and text not in animals}
        rows = with_parents(rows, place, known)
    return replace(sheet, rows=rows, kept={}, marked=marked)


def with_parents(rows: list[SheetRow], at: int, meant: Mapping[str, str]) -> list[SheetRow]:
    return [with_cell(row, at, meant[text]) if (text := cell_of(row, at)) in meant else row for row in rows]
