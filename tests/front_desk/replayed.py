"""A second opinion on what the register has of animals: each command that is accepted changes one record."""
from __future__ import annotations

import datetime
from collections.abc import Iterable

from gudokeyi.domain.commands import Command, RegisterRecord


def known(parent: str) -> str:
    return "" if parent == "0" else parent


def record_after(record: RegisterRecord | None, command: Command) -> RegisterRecord:
    """The record after a command that is accepted; a birth is the first."""
    match command.kind:
        case "birth":
            day = datetime.date.fromisoformat(command.day)
            parents = known(command.sire), known(command.dam)
            return RegisterRecord(command.animal, day, *parents, command.embryo == "1", int(command.to_owner), day)
        case "parents" if record:
            return record._replace(sire=known(command.sire), dam=known(command.dam))
        case "transfer" if record:
            day = datetime.date.fromisoformat(command.day)
            return record._replace(owner_code=int(command.to_owner), since=day, from_owner=int(command.from_owner))
        case "exit" if record:
            return record._replace(left=datetime.date.fromisoformat(command.day))
    raise ValueError(f"{command.kind} of {command.animal}")


def replay(commands: Iterable[Command]) -> dict[str, RegisterRecord]:
    """The records after commands of which none is refused."""
    records: dict[str, RegisterRecord] = {}
    for command in commands:
        records[command.animal] = record_after(records.get(command.animal), command)
    return records
