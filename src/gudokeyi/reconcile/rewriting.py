"""The journal of a book in which some animals have other lives: their births, parents, owners and exits are others, or
they aren't there. All others stay as they are, and the program says whether it can be so."""
from __future__ import annotations

import functools
from collections.abc import Iterable, Mapping
from typing import NamedTuple

from gudokeyi.domain.commands import Command
from gudokeyi.domain.pedigree_order import in_order
from gudokeyi.domain.refusals import Refusal
from gudokeyi.engine.program import Herdbook
from gudokeyi.store.book import Book
from gudokeyi.store.journal import Filed, Step, accepted_commands, alike


class Life(NamedTuple):
    """What the register is told of an animal: its birth with the parents of today, its owners, and its exit."""

    birth: Command
    transfers: tuple[Command, ...] = ()
    exit: Command | None = None

    @property
    def behind(self) -> list[Command]:
        """What follows its birth."""
        return [*self.transfers, *([self.exit] if self.exit else [])]


def life_of(commands: Iterable[Command]) -> Life:
    """That of one animal, by its accepted commands."""
    return next(iter(lives_of(commands).values()))


def lives_of(commands: Iterable[Command]) -> dict[str, Life]:
    """What accepted commands tell of each animal, by its number."""
    found: dict[str, Life] = {}
    for command in commands:
        number, kind = command.animal, command.kind
        if kind == "birth":
            found[number] = Life(command)
            continue
        life = found[number]
        if kind == "parents":
            found[number] = life._replace(birth=life.birth._replace(sire=command.sire, dam=command.dam))
        elif kind == "transfer":
            found[number] = life._replace(transfers=(*life.transfers, command))
        else:
            found[number] = life._replace(exit=command)
    return found


class RefusedCommand(NamedTuple):
    """A command of a journal that isn't taken, and why."""

    command: Command
    refusal: Refusal


class RewritingRefused(Exception):
    """The program refuses these commands, each for itself and not for another of them."""

    def __init__(self, commands: list[RefusedCommand]) -> None:
        super().__init__(commands)
        self.commands = commands


class Rewriting:
    """The journal with other lives. `lives` has them by the numbers that the animals have in the book: none for one
    that isn't to be there, and one for an animal that isn't there yet."""

    def __init__(self, book: Book, lives: Mapping[str, Life | None]) -> None:
        self.book, self.lives = book, lives
        self.renumbered = {
            number: life.birth.animal for number, life in lives.items() if life and number != life.birth.animal
        }

    def filed(self, program: Herdbook) -> Filed:
        """The commands of the change; raises `RewritingRefused`. What can be filed behind the journal is; else its
        commands are written anew where they stand, and where that can't be so all births stand before all else, by
        their days."""
        more = self.more()
        refused_behind = [] if more is None else self.refused_behind(program, more)
        if more is not None and not refused_behind:
            return Filed([Step(command) for command in more])
        for steps in (self.in_place(), self.by_birth()):
            if not refused_of(program, steps):
                keeps = alike(self.book.steps, steps)
                return Filed(steps[keeps:], keeps)
        raise RewritingRefused(refused_behind or not_for_others(refused_of(program, self.by_descent())))

    @functools.cached_property
    def before(self) -> dict[str, Life]:
        return lives_of(accepted_commands(self.book.each_step()))

    def refused_behind(self, program: Herdbook, more: list[Command]) -> list[RefusedCommand]:
        """What is refused of commands behind the journal."""
        return refused_of(program, [*self.book.steps, *map(Step, more)]) if more else []

    def more(self) -> list[Command] | None:
        """What the journal lacks; none where what stands in it has to be another."""
        found: list[Command] = []
        for number, life in self.lives.items():
            before = self.before.get(number)
            lacks = lacking(before, life) if before and life else [life.birth, *life.behind] if life else None
            if lacks is None:
                return None
            found += lacks
        return found

    def in_place(self) -> list[Step]:
        """Each birth where it stands, and what follows of these animals behind all else. What was refused before is
        kept up to there: behind it the reply may be another."""
        steps = self.book.steps
        first = next((at for at, step in enumerate(steps) if self.is_touched(step.command)), len(steps))
        found = steps[:first]
        for step in steps[first:]:
            command = step.command
            if step.refusal:
                continue
            if command.animal not in self.lives:
                found.append(Step(self.renamed(command)))
            elif command.kind == "birth" and (life := self.lives[command.animal]):
                found.append(Step(life.birth))
        return found + [Step(command) for command in [*self.births_added(), *self.behind()]]

    def is_touched(self, command: Command) -> bool:
        return command.animal in self.lives or command.sire in self.renumbered or command.dam in self.renumbered

    def renamed(self, command: Command) -> Command:
        """With the numbers that parents have from now on."""
        sire, dam = (self.renumbered.get(parent, parent) for parent in (command.sire, command.dam))
        return command._replace(sire=sire, dam=dam)

    def births_added(self) -> list[Command]:
        """Those of animals that the journal doesn't have."""
        added = (life.birth for number, life in self.lives.items() if life and number not in self.before)
        return sorted(added, key=day_and_number)

    def behind(self) -> list[Command]:
        lives = [life for life in self.lives.values() if life]
        transfers = [command for life in lives for command in life.transfers]
        return transfers + [life.exit for life in lives if life.exit]

    def by_birth(self) -> list[Step]:
        """All births by their days with the parents of today, then all transfers, and then all exits."""
        return in_this_order(sorted(self.after.values(), key=lambda life: day_and_number(life.birth)))

    def by_descent(self) -> list[Step]:
        """The same with the births of parents before those of their offspring, whatever their days are: so the program
        says of each what is wrong with it."""
        parents = {number: parents_in(life) for number, life in self.after.items()}
        order = in_order(parents)
        in_a_cycle = parents.keys() - {*order}
        return in_this_order([self.after[number] for number in [*order, *sorted(in_a_cycle)]])

    @functools.cached_property
    def after(self) -> dict[str, Life]:
        """The lives of all animals, by the numbers that they have then."""
        others = {number: life for number, life in self.before.items() if number not in self.lives}
        lives = [*others.values(), *(life for life in self.lives.values() if life)]
        return {life.birth.animal: life._replace(birth=self.renamed(life.birth)) for life in lives}


def refused_of(program: Herdbook, steps: list[Step]) -> list[RefusedCommand]:
    """What the program refuses of steps, but for what it refused before."""
    commands = [step.command for step in steps]
    refused = program.file(commands)
    return [RefusedCommand(commands[at], refused[at]) for at in sorted(refused) if refused[at] != steps[at].refusal]


def in_this_order(lives: list[Life]) -> list[Step]:
    """All births, then all transfers, and then all exits."""
    commands = [life.birth for life in lives] + [command for life in lives for command in life.transfers]
    return [Step(command) for command in [*commands, *(life.exit for life in lives if life.exit)]]


def parents_in(life: Life) -> list[str]:
    return [parent for parent in (life.birth.sire, life.birth.dam) if parent != "0"]


def day_and_number(birth: Command) -> tuple[str, str]:
    return birth.day, birth.animal


def lacking(before: Life, after: Life) -> list[Command] | None:
    """The commands that make another life of one; none where there are no such."""
    both = [life.birth._replace(sire="", dam="") for life in (before, after)]
    known = len(before.transfers)
    if both[0] != both[1] or after.transfers[:known] != before.transfers:
        return None
    if before.exit and (after.exit != before.exit or len(after.transfers) > known):
        return None
    found: list[Command] = []
    if (before.birth.sire, before.birth.dam) != (after.birth.sire, after.birth.dam):
        found.append(Command("parents", after.birth.animal, sire=after.birth.sire, dam=after.birth.dam))
    found += after.transfers[known:]
    if after.exit and not before.exit:
        found.append(after.exit)
    return found


# what is refused since another animal isn't there
LACKS = (Refusal.SIRE_NOT_IN_BOOK, Refusal.DAM_NOT_IN_BOOK, Refusal.NOT_IN_BOOK)


def not_for_others(refused: list[RefusedCommand]) -> list[RefusedCommand]:
    """Those that aren't refused since the birth of another animal is, or their own."""
    unborn = {one.command.animal for one in refused if one.command.kind == "birth"}

    def follows(one: RefusedCommand) -> bool:
        lacked = {
            Refusal.SIRE_NOT_IN_BOOK: one.command.sire, Refusal.DAM_NOT_IN_BOOK: one.command.dam,
            Refusal.NOT_IN_BOOK: one.command.animal,
        }.get(one.refusal)  # fmt: skip
        return lacked in unborn

    return [one for one in refused if not follows(one)]
