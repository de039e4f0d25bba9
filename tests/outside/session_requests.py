"""Requests for `herdbook session`, drawn at random: of all kinds, and wrong ones among them."""
from __future__ import annotations

import dataclasses
import random

from outside.books import animal

DAYS = [f"{year}-{month:02}-01" for year in range(2000, 2012) for month in (1, 5, 9)]
# few animals, so that many commands are refused, and the reference needs little time for a book
NUMBERS = [animal("MF"[one % 2], one) for one in range(1, 41)]
# a number that is never registered
NOBODY = animal("F", 999)
COLUMNS = ("kind", "animal", "day", "sire", "dam", "from", "to", "embryo")


@dataclasses.dataclass(frozen=True)
class Request:
    """What is asked, and of whom: `desk` and `inspector` count from 1; a wrong request has the fault that it meets."""

    tag: str
    fields: tuple[str, ...]
    desk: int | None = None
    inspector: int | None = None
    fault: str | None = None

    def line(self) -> str:
        return ",".join((self.tag, *self.fields)) + "\n"

    def command(self) -> dict[str, str]:
        """A desk's command by its columns."""
        return dict(zip(COLUMNS, self.fields[2:]))

    def question(self) -> tuple[str, ...]:
        """An inspector's question and its numbers."""
        return self.fields[2:]


class Requests:
    """Draws requests to so many desks and inspectors."""

    def __init__(self, seed: int, desks: int, inspectors: int) -> None:
        self.draw = random.Random(seed)
        self.desks, self.inspectors = desks, inspectors
        self.count = 0

    def __call__(self) -> Request:
        self.count += 1
        tag = f"t{self.count}"
        chance = self.draw.random()
        if chance < 0.06:
            return self.wrong(tag)
        return self.command(tag) if chance < 0.56 else self.question(tag)

    def command(self, tag: str) -> Request:
        desk = self.draw.randint(1, self.desks)
        kinds = [self.birth, self.parents, self.transfer, self.exit]
        fields = self.draw.choices(kinds, [6, 2, 2, 1])[0]()
        return Request(tag, ("desk", str(desk), *fields), desk=desk)

    def number(self) -> str:
        return NOBODY if self.draw.random() < 0.02 else self.draw.choice(NUMBERS)

    def parent(self) -> str:
        return self.draw.choice(["", "0"]) if self.draw.random() < 0.4 else self.number()

    def herd(self) -> str:
        return self.draw.choice("123")

    def birth(self) -> tuple[str, ...]:
        # an animal's day hangs on its number, and so does most parents' age
        number = self.number()
        day = DAYS[NUMBERS.index(number) * len(DAYS) // len(NUMBERS)] if number != NOBODY else DAYS[0]
        embryo = "1" if self.draw.random() < 0.2 else ""
        number = self.draw.choice(NUMBERS) if number == NOBODY else number
        return "birth", number, day, self.parent(), self.parent(), "", self.herd(), embryo

    def parents(self) -> tuple[str, ...]:
        return "parents", self.number(), "", self.parent(), self.parent(), "", "", ""

    def transfer(self) -> tuple[str, ...]:
        return "transfer", self.number(), self.draw.choice(DAYS), "", "", self.herd(), self.herd(), ""

    def exit(self) -> tuple[str, ...]:
        return "exit", self.number(), self.draw.choice(DAYS[-12:]), "", "", "", "", ""

    def question(self, tag: str) -> Request:
        inspector = self.draw.randint(1, self.inspectors)
        asked = [
            ("seen",),
            ("coefficient", self.number()),
            ("record", self.number()),
            ("certificate", *(self.number() for _ in range(self.draw.randint(1, 2)))),
            ("mating", self.number(), *(self.number() for _ in range(self.draw.randint(1, 4)))),
            ("relationships", *(self.number() for _ in range(self.draw.randint(1, 4)))),
            ("inbreeding",),
            ("inverse",),
            ("records",),
            ("seal",),
            ("sealed", self.number()),
        ]
        fields = self.draw.choices(asked, [8, 8, 4, 4, 4, 4, 1, 1, 1, 2, 2])[0]
        return Request(tag, ("inspector", str(inspector), *fields), inspector=inspector)

    def wrong(self, tag: str) -> Request:
        """A request that meets a fault, whatever the book has."""
        desk, inspector = self.draw.randint(1, self.desks), self.draw.randint(1, self.inspectors)
        birth = self.birth()
        to_desk: list[tuple[str, tuple[str, ...]]] = [
            ("Fields", birth[:-1]),
            ("Fields", (*birth, "")),
            ("Kind", ("sale", *birth[1:])),
            ("Animal", ("birth", "M1", *birth[2:])),
            ("Day", (*birth[:2], "2001-02-29", *birth[3:])),
            ("Sire", (*birth[:3], "x", *birth[4:])),
            ("Dam", (*birth[:4], "x", *birth[5:])),
            ("FieldNotUsed", (*birth[:5], "1", *birth[6:])),
            ("ToHerd", (*birth[:6], "x", birth[7])),
            ("Embryo", (*birth[:7], "x")),
            ("FromHerd", ("transfer", NOBODY, DAYS[0], "", "", "x", "1", "")),
        ]
        to_inspector: list[tuple[str, tuple[str, ...]]] = [
            ("Question", ("sell",)),
            ("Question", ()),
            ("Fields", ("inbreeding", "")),
            ("Fields", ("certificate",)),
            ("Fields", ("coefficient", NOBODY, NOBODY)),
            ("Fields", ("mating", NOBODY)),
            ("Fields", ("mating", "x")),
            ("Fields", ("records", "")),
            ("Fields", ("record",)),
            ("Fields", ("record", "x", NOBODY)),
            ("Fields", ("relationships",)),
            ("Fields", ("seal", "")),
            ("Fields", ("sealed",)),
            ("Fields", ("sealed", NOBODY, NOBODY)),
            ("Animal", ("sealed", "x")),
            ("Animal", ("record", "x")),
            ("Animal", ("certificate", "x")),
            ("Animal", ("certificate", NOBODY, "x")),
            ("Animal", ("relationships", NOBODY, "x")),
            ("Dam", ("mating", "x", "y")),
            ("Sire", ("mating", NOBODY, NOBODY, "y")),
        ]
        to_nobody: list[tuple[str, tuple[str, ...]]] = [
            ("Addressee", ()),
            ("Addressee", ("clerk", "1", "seen")),
            ("NoDesk", ("desk", str(self.desks + 1), *birth)),
            ("NoDesk", ("desk", "01", *birth)),
            ("NoInspector", ("inspector", "0", "seen")),
            ("NoInspector", ("inspector", str(self.inspectors + 1), "seen")),
            ("NoInspector", ("inspector",)),
        ]
        chance = self.draw.random()
        if chance < 0.4:
            fault, fields = self.draw.choice(to_desk)
            return Request(tag, ("desk", str(desk), *fields), desk=desk, fault=fault)
        if chance < 0.8:
            fault, fields = self.draw.choice(to_inspector)
            return Request(tag, ("inspector", str(inspector), *fields), inspector=inspector, fault=fault)
        fault, fields = self.draw.choice(to_nobody)
        return Request(tag, fields, fault=fault)


def drawn_commands(seed: int, count: int) -> str:
    """A command file of so many of a desk's commands."""
    requests = Requests(seed, 1, 1)
    lines = [",".join(COLUMNS), *(",".join(requests.command("").question()) for _ in range(count))]
    return "\n".join(lines) + "\n"
