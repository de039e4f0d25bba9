"""Which animals are asked for: what holds for their rows, as SQLite reads it, with the values for its question
marks."""
from __future__ import annotations

import datetime
import functools
import json
from collections.abc import Iterable, Sequence
from typing import NamedTuple

from gudokeyi.domain.folding import SIGNS, always_same, folded, pattern_of, tag_of
from gudokeyi.domain.kinds import Role, Standing
from gudokeyi.domain.provenance import BirthSource, ExitSource
from gudokeyi.store.state import NOW

# animals of the book, in place of those that were dropped from it
IN_BOOK = f"standing <> '{Standing.DROPPED.value}'"
# those that the society has a row for, or that were filed by hand
LISTED = f"standing IN ('{Standing.ROW.value}', '{Standing.FILED.value}')"
HAS_LEFT = f"(departed IS NOT NULL OR exit_source = '{ExitSource.UNKNOWN_DAY.value}')"
IS_LIVING = f"{LISTED} AND NOT {HAS_LEFT}"
# the sources of a birth day of which at least the year is known
WITH_YEAR = f"birth_source IN ('{BirthSource.GIVEN.value}', '{BirthSource.PERIOD.value}')"
# by its name in small letters; only names that aren't empty have an index
NAMED = "folded_name = ? AND folded_name <> ''"
# by birth day, and on the same day by number, as the program orders them
AGE_ORDER = "ORDER BY born, number"
# the ids that may be alike, since they are so without any zero: their index has all that is asked for
LIKELY = f"SELECT folded_id FROM animal WHERE {NOW} AND replace(replace(folded_id, ' ', ''), '0', '') = ?"
# no id, name or owner has so many letters, and SQLite reads no longer patterns
MOST_LETTERS = 1_000


class Condition(NamedTuple):
    """What holds for the row of an animal."""

    text: str
    values: tuple[object, ...] = ()

    def __and__(self, other: Condition) -> Condition:
        if ANY in (self, other):
            return other if self == ANY else self
        return Condition(f"{self.text} AND {other.text}", self.values + other.values)


ANY, NOBODY = Condition("true"), Condition("false")
# the living animals of the society
LIVING = Condition(IS_LIVING)
WITHOUT_ROW = Condition(f"standing IN ('{Standing.GONE.value}', '{Standing.PARENT.value}')")


def all_of(conditions: Iterable[Condition]) -> Condition:
    found = ANY
    for one in conditions:
        found = found & one
    return found


def with_id(id: str) -> Condition:
    return Condition("id = ?", (id,))


def with_number(number: str) -> Condition:
    return Condition("number = ?", (number,))


def with_digits(digits: str) -> Condition:
    """With a number that has these behind breed, country and sex."""
    return Condition("substr(number, 8) = ?", (digits,))


def among(numbers: Sequence[str]) -> Condition:
    """The animals that have one of these numbers."""
    return Condition("number IN (SELECT value FROM json_each(?))", (json.dumps([*numbers]),))


def descends_to(number: str, generations: int) -> Condition:
    """An animal, and its ancestors so many parents away at most."""
    parents = " ".join(
        f"UNION SELECT animal.{parent}, away + 1 FROM line CROSS JOIN animal USING (number) "
        f"WHERE {NOW} AND animal.{parent} IS NOT NULL AND away < ?" for parent in ("sire", "dam")
    )
    line = f"WITH RECURSIVE line (number, away) AS (VALUES (?, 0) {parents}) SELECT number FROM line"
    return Condition(f"number IN ({line})", (number, generations, generations))


def but_for(id: str) -> Condition:
    return Condition("id <> ?", (id,))


def with_name(name: str) -> Condition:
    return Condition(f"{NAMED} AND name = ?", (name.casefold(), name))


def named(word: str) -> Condition:
    """With this name, in capitals or not."""
    return Condition(NAMED, (word.casefold(),))


def with_id_or_name(word: str) -> Condition:
    """With this id or name, in capitals or not."""
    return Condition(f"(folded_id = ? OR {NAMED})", (word.casefold(),) * 2)


def with_id_like(id: str) -> Condition:
    """With an id that may differ in case, blanks and zeros alone."""
    return Condition(f"folded_id IN ({LIKELY})", (likeness(id),))


def likeness(id: str) -> str:
    """What an id has but for these."""
    return "".join(id.casefold().split()).replace("0", "")


def without_signs(column: str) -> str:
    """A column of ids without the signs by which tags are parted."""
    return functools.reduce(lambda text, sign: f"replace({text}, '{sign}', '')", SIGNS, column)


TAG, FORMER_TAG = without_signs("folded_id"), without_signs("lower(id)")


def with_text(text: str, owner_codes: Sequence[int]) -> Condition:
    """With a text in id, name or number, in capitals or not, with accents or without, or in an id that it had,
    in a note or a value of the society's own; or one of these owners. Ids may be parted by other signs."""
    if len(text) > MOST_LETTERS:
        return NOBODY
    tag, plain = tag_of(text), folded(text)
    # a text of signs alone is looked for as it is
    parts = [in_tag(tag) if tag else Condition("instr(folded_id, ?)", (text,)), in_name(plain)]
    parts += [in_number(text.upper()), Condition(f"herd IN ({', '.join(map(str, owner_codes))})"), in_kept(plain, tag)]
    text = " OR ".join(one.text for one in parts)
    return Condition(f"({text})", tuple(value for one in parts for value in one.values))


def in_tag(tag: str) -> Condition:
    """With a text without signs in the id. Of most ids it is seen at once that they don't have its letters in their
    order, also where signs stand between these."""
    same, pattern = always_same(tag), f"*{pattern_of(tag)}*"
    if same:
        likely = f"folded_id GLOB ? AND (folded_id GLOB ? OR {has_accents('folded_id')})"
        return Condition(f"({likely} AND {TAG} GLOB ?)", (in_order(same), in_order(tag), pattern))
    now = f"(folded_id GLOB ? AND instr({TAG}, ?))"
    return Condition(f"{now} OR ({has_accents('folded_id')} AND {TAG} GLOB ?)", (in_order(tag), tag, pattern))


def in_order(letters: str) -> str:
    """What a text has to be that has these letters in their order."""
    return f"*{'*'.join(f'[{one}]' if one in '*?[' else one for one in letters)}*"


def in_name(plain: str) -> Condition:
    """With a text in the name."""
    same, pattern = max(always_same(plain, "\0").split("\0"), key=len), f"*{pattern_of(plain)}*"
    if same:
        return Condition("(instr(folded_name, ?) AND folded_name GLOB ?)", (same, pattern))
    with_accents = f"({has_accents('folded_name')} AND folded_name GLOB ?)"
    return Condition(f"instr(folded_name, ?) OR {with_accents}", (plain, pattern))


def in_number(text: str) -> Condition:
    """With a text in the number, which has capitals and digits alone."""
    return Condition("instr(number, ?)", (text,)) if text.isascii() and text.isalnum() else NOBODY


def in_kept(plain: str, tag: str) -> Condition:
    """With a text in a note or in a value of the society's own, or with one without signs in an id that it had. Mostly
    there are none, which is seen once."""
    had = f"SELECT digits FROM former_id WHERE {NOW} AND {FORMER_TAG} GLOB ?"
    kept = (
        f"SELECT digits FROM note WHERE {NOW} AND instr(folded, ?) "
        f"UNION ALL SELECT digits FROM own_value WHERE {NOW} AND instr(folded, ?)"
    )
    digits, values = f"{kept} UNION ALL {had}" if tag else kept, (plain, plain, f"*{pattern_of(tag)}*")[: 2 + bool(tag)]
    return Condition(f"(EXISTS ({digits}) AND substr(number, 8) IN ({digits}))", 2 * values)


def has_accents(column: str) -> str:
    """Whether a text has letters that take more than a byte: only these may have accents."""
    return f"length({column}) <> length(CAST({column} AS BLOB))"


def with_own_value(place: int, text: str, is_whole: bool) -> Condition:
    """With a text in one of the society's own columns, as the whole of it or a part; an empty one is any."""
    that = "value = ?" if is_whole else "value <> '' AND instr(folded, ?)"
    of_column = f"SELECT digits FROM own_value WHERE {NOW} AND place = ? AND {that}"
    return Condition(f"substr(number, 8) IN ({of_column})", (place, text if is_whole else folded(text)))


def named_like(name: str) -> Condition:
    """With another name that is this one but for accents and capitals."""
    return Condition("folded_name GLOB ? AND name <> ?", (pattern_of(folded(name[:MOST_LETTERS])), name))


def nearly_named(word: str) -> Condition:
    """With this id or name but for accents, and for the signs by which ids are parted."""
    if len(word) > MOST_LETTERS:
        return NOBODY
    tag = tag_of(word)
    with_tag = Condition(f"{TAG} GLOB ?", (pattern_of(tag),)) if tag else NOBODY
    return Condition(f"({with_tag.text} OR folded_name GLOB ?)", (*with_tag.values, pattern_of(folded(word))))


def of_sex(sex: str) -> Condition:
    return Condition("substr(number, 7, 1) = ?", (sex,))


def of_owner(owner_code: int) -> Condition:
    return Condition("herd = ?", (owner_code,))


def born_between(first: datetime.date, last: datetime.date) -> Condition:
    """Born in these days; of an inferred birth day at least the year has to be known."""
    return Condition(f"born BETWEEN ? AND ? AND {WITH_YEAR}", (first.isoformat(), last.isoformat()))


def left_between(first: datetime.date, last: datetime.date) -> Condition:
    """Left in these days."""
    return Condition("departed BETWEEN ? AND ?", (first.isoformat(), last.isoformat()))


def own() -> Condition:
    """The society's own: they have a row or had one, or were filed by hand."""
    return Condition("standing <> ?", (Standing.PARENT.value,))


def offspring_of(number: str, role: Role) -> Condition:
    """Those of which an animal is the sire, or the dam."""
    return Condition(f"{role.value} = ?", (number,))
