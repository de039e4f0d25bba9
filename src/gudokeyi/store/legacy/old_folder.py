"""The folder of a book of version 0.11, whose files were the book: what they say, and how they are kept."""
from __future__ import annotations

import collections
import contextlib
import csv
import fcntl
import os
import pathlib
from collections.abc import Callable, Iterator
from dataclasses import dataclass

from gudokeyi.domain.animals import NO_OWNER, SocietyRecord
from gudokeyi.domain.commands import Command, RegisterRecord, first_owner_codes, read_commands
from gudokeyi.domain.kinds import CELL_FIELDS, Field, Remembered, Standing
from gudokeyi.domain.messages import Mistake
from gudokeyi.domain.provenance import OwnerDay
from gudokeyi.domain.refusals import Refusal
from gudokeyi.store.database import path_of
from gudokeyi.store.files import put
from gudokeyi.store.legacy.files import (
    ALL_NAMES, COMMANDS, IDS, ID_TITLES, OLD, OLD_NAMES, OPTIONS, OWNERS, PARENTS, STANDING_OF, read_birth, read_exit,
    read_sex,
)  # fmt: skip
from gudokeyi.store.state import Meaning, Values

# files commands, and answers the refusals by their places
FileAll = Callable[[list[Command]], dict[int, Refusal]]
# of those that are written from a database
EXPORTED = [*ID_TITLES, "change"]


@dataclass(frozen=True)
class OldBook:
    """What the files say."""

    commands: list[Command]
    society_records: dict[str, SocietyRecord]
    owners: dict[str, int]
    remembered: list[Meaning]


@contextlib.contextmanager
def alone(folder: pathlib.Path) -> Iterator[None]:
    """While this lasts nobody else takes the folder over."""
    descriptor = os.open(folder, os.O_RDONLY | os.O_DIRECTORY)
    try:
        fcntl.flock(descriptor, fcntl.LOCK_EX)
        yield
    finally:
        os.close(descriptor)


def are_exports(folder: pathlib.Path) -> bool:
    """Were the files that are there only written from a database, as those beside one that is lost?"""
    try:
        with open(folder / IDS, newline="", encoding="utf-8-sig") as file:
            return next(csv.reader(file), []) == EXPORTED
    except (OSError, ValueError, csv.Error):
        return False


def keep_files(folder: pathlib.Path) -> None:
    """Copies the files to the folder `old`."""
    old = folder / OLD
    try:
        old.mkdir(exist_ok=True)
        for name in ALL_NAMES:
            if not (folder / name).exists():
                continue
            text = (folder / name).read_bytes()
            if (old / name).exists() and (old / name).read_bytes() != text:
                raise Mistake(f"{old / name} isn't what {folder / name} is: move the folder {old} away, and call again")
            put(old / name, text)
    except OSError as error:
        raise Mistake(
            f"the folder {folder} is of version 0.11, and can't be taken over ({error.strerror or error}): nothing is "
            "changed. Allow it to be written, or call this once as somebody who may"
        ) from None


def clear(folder: pathlib.Path) -> None:
    """Removes files of version 0.11 that stand in `old` as they are; later ones of the same names are exports."""
    for name in OLD_NAMES:
        with contextlib.suppress(OSError):
            if (folder / OLD / name).read_bytes() == (folder / name).read_bytes():
                (folder / name).unlink()


def last_cells(
    in_book: dict[str, SocietyRecord], records: dict[str, RegisterRecord], owners: dict[int, str]
) -> dict[Values, Values]:
    """What the last sheet said of the animals that had a row, as far as the book shows it: such a folder has no cells,
    and what is filed by hand is compared with them."""
    ids = {animal.registration_number: id for id, animal in in_book.items()} | {"": ""}
    cells: dict[Values, Values] = {}
    for id, animal in in_book.items():
        _, born, sire, dam, embryo, owner_code, _, left, _ = records[animal.registration_number]
        exit = animal.exit.text or (animal.exit.period.text if animal.exit.period else str(left or ""))
        said = {
            Field.NAME: animal.name, Field.SEX: animal.registration_number[6] * (not animal.sex.is_inferred),
            Field.BIRTH: str(born) * (not animal.birth.is_inferred), Field.SIRE: animal.written_sire or ids[sire],
            Field.DAM: animal.written_dam or ids[dam], Field.OWNER: "" if owner_code == NO_OWNER else owners.get(
                owner_code, str(owner_code)
            ),
            Field.EXIT: exit, Field.EMBRYO: "1" * embryo,
        }  # fmt: skip
        if animal.standing.had_row():
            cells[id,] = (id, *map(said.get, CELL_FIELDS))
    return cells


def read(folder: pathlib.Path, file: FileAll) -> OldBook:
    """What the files say, once the program, by which commands are filed, refuses none of them."""
    path = folder / COMMANDS
    if are_exports(folder):
        raise Mistake(
            f"{path_of(folder)}, the book, is missing or empty: {folder / IDS} was only written from it. Restore a "
            "backup, by the word restore, or take the sheet into another folder"
        )
    if not path.exists():
        raise Mistake(f"the folder {folder} has files of version 0.11, and no {COMMANDS}: restore it")
    listed = [society_record_of(folder, row) for row in read_table(folder, IDS, ID_TITLES)]
    commands = read_commands(path)
    refused = file(commands)
    if refused:
        place, refusal = next(iter(refused.items()))
        raise Mistake(
            f"{path}: command {place + 1} is refused: {refusal.words()} (refusal {refusal}). "
            "Somebody has changed this file: restore it, or take the sheet into another folder"
        )
    society_records = read_society_records(folder, listed, set(first_owner_codes(commands)))
    owners = read_table(folder, OWNERS, ["herd", "owner"])
    if not all(owner_code.isdecimal() for owner_code, _ in owners):
        raise changed(folder / OWNERS)
    each_once(folder / OWNERS, [str(int(owner_code)) for owner_code, _ in owners])
    each_once(folder / OWNERS, [owner for _, owner in owners])
    options = read_table(folder, OPTIONS, ["option", "word"], needed=False)
    if not all(option in (one.value for one in Remembered) for option, _ in options):
        raise changed(folder / OPTIONS)
    remembered = [Meaning(Remembered(option), word) for option, word in options]
    return OldBook(commands, society_records, {owner: int(owner_code) for owner_code, owner in owners}, remembered)


def read_society_records(
    folder: pathlib.Path, listed: list[SocietyRecord], numbers: set[str]
) -> dict[str, SocietyRecord]:
    """The animals that are in the book, and those that were dropped."""
    there = (one for one in listed if one.standing is not Standing.DROPPED)
    lost = next((one for one in there if one.registration_number not in numbers), None)
    if lost:
        raise Mistake(
            f"{folder / IDS} has {lost.id} ({lost.registration_number}), whose birth isn't in {folder / COMMANDS}: "
            "restore both files, or take the sheet into another folder"
        )
    named_in_both = (animal for animal in listed if animal.registration_number in numbers)
    in_book = [animal._replace(standing=in_book_as(animal.standing)) for animal in named_in_both]
    each_once(folder / IDS, [animal.registration_number for animal in in_book])
    each_once(folder / IDS, [animal.id for animal in in_book])
    found = {animal.id: animal for animal in listed if animal.standing is Standing.DROPPED}
    found |= {animal.id: animal for animal in in_book}
    named = {animal.registration_number for animal in in_book}
    found |= {number: SocietyRecord(number, number) for number in numbers - named}
    for id, role, text in read_table(folder, PARENTS, ["id", "role", "written"], needed=False):
        if id in found:
            animal = found[id]
            found[id] = animal._replace(written_sire=text) if role == "sire" else animal._replace(written_dam=text)
    return found


def each_once(path: pathlib.Path, words: list[str]) -> None:
    """A mistake where a column has a word twice, which would be lost in one of its lines."""
    twice = next((word for word, count in collections.Counter(words).items() if count > 1), None)
    if twice is not None:
        raise Mistake(f"{path} has '{twice}' in two lines: restore it, or take the sheet into another folder")


def in_book_as(standing: Standing) -> Standing:
    return Standing.GONE if standing is Standing.DROPPED else standing


def society_record_of(folder: pathlib.Path, row: list[str]) -> SocietyRecord:
    number, id, name, standing, *words = row
    birth, exit, sex = read_birth(words[0]), read_exit(words[1]), read_sex(words[2])
    if standing not in STANDING_OF or birth is None or exit is None or sex is None:
        raise changed(folder / IDS)
    # such a folder has the days of imports as those on which owners changed
    return SocietyRecord(number, id, name, STANDING_OF[standing], birth, exit, sex, owner_day=OwnerDay.INFERRED)


def read_table(folder: pathlib.Path, name: str, titles: list[str], needed: bool = True) -> list[list[str]]:
    path = folder / name
    if not needed and not path.exists():
        return []
    try:
        with open(path, newline="", encoding="utf-8-sig") as file:
            found, *rows = csv.reader(file)
    except (OSError, ValueError):
        found = []
    if found != titles or any(len(row) != len(titles) for row in rows):
        raise changed(path)
    return rows


def changed(path: pathlib.Path) -> Mistake:
    return Mistake(f"{path} is missing or was changed: restore it, or take the sheet into another folder")
