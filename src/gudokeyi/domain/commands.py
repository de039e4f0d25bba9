"""The command file: its records, and what the register has of an animal."""
from __future__ import annotations

import csv
import datetime
import functools
import pathlib
from collections.abc import Iterable, Sequence
from typing import NamedTuple

from gudokeyi.domain.collections import made
from gudokeyi.domain.kinds import Role
from gudokeyi.domain.messages import Mistake, counted

# the same days stand in many commands and rows, and books have days of 300 years alone
day_text = functools.cache(datetime.date.isoformat)
COLUMNS = ["kind", "animal", "day", "sire", "dam", "from", "to", "embryo"]
HEADER = f"{','.join(COLUMNS)}\n".encode()


class Command(NamedTuple):
    """A record. Its parents are numbers, and empty where they are unknown."""

    kind: str
    animal: str
    day: str = ""
    sire: str = ""
    dam: str = ""
    from_owner: str = ""
    to_owner: str = ""
    embryo: str = ""


def birth(number: str, day: datetime.date, sire: str, dam: str, owner_code: int, embryo: bool) -> Command:
    embryo_text = "1" if embryo else ""
    return made(Command, ("birth", number, day_text(day), sire or "0", dam or "0", "", str(owner_code), embryo_text))


def parents(number: str, sire: str, dam: str) -> Command:
    return Command("parents", number, "", sire or "0", dam or "0")


def transfer(number: str, day: datetime.date, from_owner: int, to_owner: int) -> Command:
    return Command("transfer", number, day.isoformat(), from_owner=str(from_owner), to_owner=str(to_owner))


def leave(number: str, day: datetime.date) -> Command:
    return Command("exit", number, day.isoformat())


class RegisterRecord(NamedTuple):
    """What the register has of an animal. `from_owner` is the herd from which its owner has it, 0 where that is the
    first one."""

    registration_number: str
    born: datetime.date
    sire: str
    dam: str
    embryo: bool
    owner_code: int
    since: datetime.date
    left: datetime.date | None = None
    from_owner: int = 0

    def parent(self, role: Role) -> str:
        return self.sire if role is Role.SIRE else self.dam


def givers_of(commands: Iterable[Command]) -> dict[str, int]:
    """The herd that gave each animal last, of those that were given on, by commands that are accepted."""
    return {command.animal: int(command.from_owner) for command in commands if command.kind == "transfer"}


def transfers_of(commands: Iterable[Command]) -> dict[str, list[Command]]:
    """The transfers of each animal that had one."""
    found: dict[str, list[Command]] = {}
    for command in commands:
        if command.kind == "transfer":
            found.setdefault(command.animal, []).append(command)
    return found


def first_owner_codes(commands: Iterable[Command]) -> dict[str, int]:
    """The herd in which each animal was born."""
    return {command.animal: int(command.to_owner) for command in commands if command.kind == "birth"}


def lines_of(commands: Iterable[Sequence[str]]) -> bytes:
    """The records of a command file, of commands or of their values alone."""
    return "\n".join([*map(",".join, commands), ""]).encode()


def text_of(commands: Iterable[Command]) -> bytes:
    """The command file."""
    return HEADER + lines_of(commands)


def read_commands(path: pathlib.Path) -> list[Command]:
    with open(path, newline="", encoding="utf-8-sig", errors="replace") as file:
        reader = csv.reader(file)
        titles: list[str] = next(reader, [])
        if titles not in (COLUMNS, COLUMNS[:-1]):
            raise Mistake(f"{path}: line 1 isn't the header of a command file: take the sheet into another folder")
        commands = []
        for fields in reader:
            if not fields:
                continue
            if len(fields) != len(titles):
                cells = f"{path}: line {reader.line_num} has {counted(len(fields), 'cell')}, not {len(titles)}"
                raise Mistake(f"{cells}: mend it, or restore the file")
            commands.append(Command(*fields))
    return commands
