"""The rows of the state: an animal of the book as it is kept in the table `animal`."""
from __future__ import annotations

import datetime
import functools
import sqlite3
from typing import NamedTuple

from gudokeyi.domain.animals import LETTERS, NO_FIELDS, SocietyRecord
from gudokeyi.domain.collections import made
from gudokeyi.domain.commands import RegisterRecord, day_text
from gudokeyi.domain.kinds import Field, Standing
from gudokeyi.domain.provenance import (
    GIVEN_BIRTH, GIVEN_EXIT, BirthBasis, BirthSource, ExitBasis, ExitSource, OwnerDay, Period, SexSource,
)  # fmt: skip

COLUMNS = (
    "id, number, name, folded_id, folded_name, standing, birth_source, birth_period, birth_no_such_day, exit_source, "
    "exit_period, exit_no_such_day, exit_text, sex_source, castrated, written_sire, written_dam, by_hand, "
    "owner_day, born, sire, dam, embryo, herd, owned_since, giver, departed, exit_reason"
)


class AnimalRow(NamedTuple):
    """A row of the table, without the changes between which it holds."""

    id: str
    registration_number: str
    name: str
    folded_id: str
    folded_name: str
    standing: str
    birth_source: str
    birth_period: str | None
    birth_no_such_day: str | None
    exit_source: str
    exit_period: str | None
    exit_no_such_day: str | None
    exit_text: str | None
    sex_source: str
    castrated: int
    written_sire: str
    written_dam: str
    by_hand: str
    owner_day: str
    born: str | None
    sire: str | None
    dam: str | None
    embryo: int | None
    owner_code: int | None
    owned_since: str | None
    from_owner: int | None
    departed: str | None
    exit_reason: str | None


def changed_by(connection: sqlite3.Connection, number: str) -> int:
    """The last change that changed an animal of the book."""
    found = connection.execute("SELECT since FROM animal WHERE number = ? AND until IS NULL", (number,)).fetchone()
    return int(found[0])


def digits_of(row: AnimalRow) -> str:
    """What stays of its number, by which an animal is known whatever it is called."""
    return row.registration_number[LETTERS:]


STANDINGS = {standing.value: standing for standing in Standing}
OWNER_DAYS = {day.value: day for day in OwnerDay}
SEX_SOURCES = {source.value: source for source in SexSource}


# that of most animals is one object for all of them: what is the same object is the same without a closer look
@functools.lru_cache(maxsize=4096)
def birth_basis(source: str, period: str | None, no_such_day: str | None) -> BirthBasis:
    basis = BirthBasis(BirthSource(source), Period(period, no_such_day or "") if period else None)
    return GIVEN_BIRTH if basis == GIVEN_BIRTH else basis


@functools.lru_cache(maxsize=4096)
def exit_basis(source: str, period: str | None, no_such_day: str | None, text: str | None) -> ExitBasis:
    basis = ExitBasis(ExitSource(source), Period(period, no_such_day or "") if period else None, text or "")
    return GIVEN_EXIT if basis == GIVEN_EXIT else basis


def exit_of(departed: str | None, source: str, period: str | None, no_such_day: str | None, text: str | None) -> str:
    """The day of the exit with its mark, or what is told of one without a day."""
    basis = exit_basis(source, period, no_such_day, text)
    return f"{departed}{basis.mark()}" if departed else basis.words()


@functools.lru_cache(maxsize=1024)
def fields_of(words: str) -> frozenset[Field]:
    return frozenset(Field(word) for word in words.split()) if words else NO_FIELDS


def words_of(fields: frozenset[Field]) -> str:
    return " ".join(sorted(field.value for field in fields))


def society_record_of(row: AnimalRow) -> SocietyRecord:
    """What the society knows of it."""
    return SocietyRecord(
        row.registration_number,
        row.id,
        row.name,
        STANDINGS[row.standing],
        birth_basis(row.birth_source, row.birth_period, row.birth_no_such_day),
        exit_basis(row.exit_source, row.exit_period, row.exit_no_such_day, row.exit_text),
        SEX_SOURCES[row.sex_source],
        row.castrated == 1,
        row.written_sire,
        row.written_dam,
        fields_of(row.by_hand),
        OWNER_DAYS[row.owner_day],
        row.exit_reason or "",
    )


def record_of(row: AnimalRow) -> RegisterRecord:
    """What the register has of it."""
    day = datetime.date.fromisoformat
    return RegisterRecord(
        row.registration_number,
        day(row.born or ""),
        row.sire or "",
        row.dam or "",
        row.embryo == 1,
        row.owner_code or 0,
        day(row.owned_since or ""),
        day(row.departed) if row.departed else None,
        row.from_owner or 0,
    )


def row_of(animal: SocietyRecord, record: RegisterRecord | None) -> AnimalRow:
    """The row for both; an animal that was dropped has no record."""
    register = NOT_IN_REGISTER if record is None else register_values(record)
    return made(AnimalRow, (*society_values(animal), *register, animal.exit_reason or None))


def society_values(animal: SocietyRecord) -> tuple[str | int | None, ...]:
    """What the society knows of it, up to what the register has."""
    number, id, name, standing, birth, exit, sex, castrated, sire, dam, by_hand, owner_day, _ = animal
    birth_source, birth_period, no_such_birth = GIVEN_BIRTH_TEXTS if birth is GIVEN_BIRTH else birth_texts(birth)
    exit_source, exit_period, no_such_exit, text = GIVEN_EXIT_TEXTS if exit is GIVEN_EXIT else exit_texts(exit)
    # `_value_` is what `value` looks for, in a fraction of the time
    return (
        id,
        number,
        name,
        id.casefold(),
        name.casefold(),
        standing._value_,
        birth_source,
        birth_period,
        no_such_birth,
        exit_source,
        exit_period,
        no_such_exit,
        text,
        sex._value_,
        int(castrated),
        sire,
        dam,
        words_of(by_hand) if by_hand else "",
        owner_day._value_,
    )


def birth_texts(basis: BirthBasis) -> tuple[str, str | None, str | None]:
    return basis.source.value, *period_texts(basis.period)


def exit_texts(basis: ExitBasis) -> tuple[str, str | None, str | None, str | None]:
    text = basis.text if basis.day_is_unknown else basis.text or None
    return basis.source.value, *period_texts(basis.period), text


def period_texts(period: Period | None) -> tuple[str | None, str | None]:
    return (period.text, period.no_such_day or None) if period else (None, None)


# those of most animals
GIVEN_BIRTH_TEXTS, GIVEN_EXIT_TEXTS = birth_texts(GIVEN_BIRTH), exit_texts(GIVEN_EXIT)
Register = tuple[str | None, str | None, str | None, int | None, int | None, str | None, int | None, str | None]
NOT_IN_REGISTER: Register = (None, None, None, None, None, None, None, None)


def register_values(record: RegisterRecord) -> Register:
    _, born, sire, dam, embryo, owner_code, since, left, from_owner = record
    day = day_text(born)
    return (
        day,
        sire or None,
        dam or None,
        int(embryo),
        owner_code,
        # most have their owner from their birth on
        day if since is born else day_text(since),
        from_owner or None,
        day_text(left) if left else None,
    )
