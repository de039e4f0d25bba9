"""An animal as a sheet has it, and as it is to stand in the book."""
from __future__ import annotations

import datetime
import itertools
import operator
from collections.abc import Collection, Iterable, Mapping, Sequence
from dataclasses import dataclass, field
from typing import NamedTuple

from gudokeyi.domain.animals import SocietyRecord
from gudokeyi.domain.commands import RegisterRecord
from gudokeyi.domain.kinds import Role
from gudokeyi.domain.messages import MessageText
from gudokeyi.domain.provenance import GIVEN_BIRTH, GIVEN_EXIT, BirthBasis, ExitBasis, OwnerDay, SexSource
from gudokeyi.ingest.days import ANY_DAY, Precision, Span, span_of_period
from gudokeyi.ingest.messages import Where

SIRE, DAM, DAY = Role.SIRE, Role.DAM, Precision.DAY
ROLES = {role: role.sex for role in Role}


class Castration(NamedTuple):
    """What a column beside that of the sexes says of it: the column's title, the text, and the last day on which it may
    have been, where the text has any."""

    title: str
    text: str
    last: datetime.date | None


@dataclass(slots=True)
class SheetAnimal:
    """An animal as it is to stand in the book. Parents are ids, and empty where they are unknown."""

    id: str
    line: int = 0
    name: str = ""
    sex: str = ""
    birth: Span = ANY_DAY
    sire: str = ""
    dam: str = ""
    owner: str = ""
    # its cells as they are written, by their fields
    cells: dict[str, str] = field(default_factory=dict)
    # since when it has this owner, where the sheet says it
    since: Span | None = None
    left: datetime.date | None = None
    embryo: bool = False
    owner_day: OwnerDay = OwnerDay.GIVEN
    # a male that is castrated, as the sheet's word for its sex says, or another column
    castrated: bool = False
    # what is found for it later: its birth day, its number, and what was inferred and from what
    born: datetime.date = ANY_DAY.first
    registration_number: str = ""
    birth_basis: BirthBasis = GIVEN_BIRTH
    exit_basis: ExitBasis = GIVEN_EXIT
    sex_source: SexSource = SexSource.GIVEN
    # for a parent without a row the line that names it
    named_in: int = 0
    # the fields whose cells can't be read
    unread: list[str] = field(default_factory=list)
    # the owner of its row, where a word for its exit names one of the list to whom it was sold
    owner_before: str = ""
    # does another cell than that of such days say since when, which tells of a sale?
    is_since_sale: bool = False
    # the sex of a cell that isn't sure, where nothing else says one
    likely_sex: str = ""
    # by which a male is castrated
    castration: Castration | None = None

    def parents(self) -> list[tuple[Role, str]]:
        """The known parents, each with its role."""
        found = []
        if self.sire:
            found.append((SIRE, self.sire))
        if self.dam:
            found.append((DAM, self.dam))
        return found

    def parent_ids(self) -> list[str]:
        return [parent for parent in (self.sire, self.dam) if parent]

    def parent(self, role: Role) -> str:
        return self.sire if role is Role.SIRE else self.dam

    def set_parent(self, role: Role, id: str) -> None:
        if role is Role.SIRE:
            self.sire = id
        else:
            self.dam = id

    def has_day(self) -> bool:
        return self.birth.precision is DAY

    def copy(self) -> SheetAnimal:
        """The same, of which something may be found; its cells stay as they are. All animals of a sheet are copied at
        each look, and to make them anew takes twice as long."""
        new = SheetAnimal.__new__(SheetAnimal)
        new.id, new.line, new.name = self.id, self.line, self.name
        new.sex, new.birth, new.sire = self.sex, self.birth, self.sire
        new.dam, new.owner, new.cells = self.dam, self.owner, self.cells
        new.since, new.left, new.embryo = self.since, self.left, self.embryo
        new.owner_day, new.castrated, new.born = self.owner_day, self.castrated, self.born
        new.registration_number, new.birth_basis = self.registration_number, self.birth_basis
        new.exit_basis, new.sex_source, new.named_in = self.exit_basis, self.sex_source, self.named_in
        new.unread, new.owner_before = self.unread, self.owner_before
        new.is_since_sale, new.likely_sex, new.castration = self.is_since_sale, self.likely_sex, self.castration
        return new

    def where(self) -> MessageText:
        """How a sentence about it begins."""
        return Where.LINE.said(line=self.line, id=self.id) if self.line else Where.ANIMAL.said(id=self.id)


# what many animals say is asked of all of them at once
ID_OF, LINE_OF, NAME_OF = operator.attrgetter("id"), operator.attrgetter("line"), operator.attrgetter("name")
SEX_OF, SIRE_OF, DAM_OF = operator.attrgetter("sex"), operator.attrgetter("sire"), operator.attrgetter("dam")
OWNER_OF, UNREAD_OF, CASTRATED_OF = (operator.attrgetter(name) for name in ("owner", "unread", "castrated"))
BORN_OF, NUMBER_OF = operator.attrgetter("born"), operator.attrgetter("registration_number")
EMBRYO_OF, LEFT_OF, BIRTH_OF = operator.attrgetter("embryo"), operator.attrgetter("left"), operator.attrgetter("birth")
FIRST_OF, CELLS_OF = operator.attrgetter("birth.first"), operator.attrgetter("cells")


def by_age(animals: Iterable[SheetAnimal]) -> list[SheetAnimal]:
    """The oldest first; those of a day in the order in which they come."""
    those = [*animals]
    days = [*map(datetime.date.toordinal, map(BORN_OF, those))]
    return [those[at] for at in sorted(range(len(those)), key=days.__getitem__)]


# an offspring, the role of a parent of its, and that parent
Link = tuple[SheetAnimal, Role, str]


@dataclass(frozen=True)
class ParentsOutside:
    """The parents of some animals that aren't among some ids, whether each animal has one, and how many parents are
    known at all."""

    parents: set[str]
    have_one: Sequence[bool]
    known: int

    @classmethod
    def of(cls, sires: list[str], dams: list[str], ids: Collection[str]) -> ParentsOutside:
        """The sires and the dams of animals in their order; few are outside of most sheets."""
        outside = {*itertools.filterfalse(ids.__contains__, {*sires, *dams} - {""})}
        have_one = map(operator.or_, map(outside.__contains__, sires), map(outside.__contains__, dams))
        known = len(sires) + len(dams) - sires.count("") - dams.count("")
        return cls(outside, [*have_one] if outside else (), known)

    def links(self, progeny: Iterable[SheetAnimal]) -> list[Link]:
        """Those of the animals, which are in the same order."""
        found: list[Link] = []
        for offspring in itertools.compress(progeny, self.have_one):
            if offspring.sire in self.parents:
                found.append((offspring, SIRE, offspring.sire))
            if offspring.dam in self.parents:
                found.append((offspring, DAM, offspring.dam))
        return found


def links_outside(progeny: Collection[SheetAnimal], ids: Collection[str]) -> list[Link]:
    """The known parents that aren't among some ids."""
    return ParentsOutside.of([*map(SIRE_OF, progeny)], [*map(DAM_OF, progeny)], ids).links(progeny)


def ancestors_among(progeny: Iterable[SheetAnimal], animals: Mapping[str, SheetAnimal]) -> set[str]:
    """The ancestors of some animals that are reached through these, from parent to parent."""
    found, new = set[str](), [*progeny]
    while new:
        parents = ({*map(SIRE_OF, new), *map(DAM_OF, new)} - found) & animals.keys()
        found |= parents
        new = [animals[id] for id in parents]
    return found


def parents_of_all(animals: dict[str, SheetAnimal]) -> dict[str, list[str]]:
    """The known parents of each animal."""
    # most have both, and to ask each for its parents takes as long as all else
    both = zip(animals, map(SIRE_OF, animals.values()), map(DAM_OF, animals.values()))
    return {id: [sire, dam] if sire and dam else [parent for parent in (sire, dam) if parent] for id, sire, dam in both}


def birth_in_book(known: SocietyRecord, record: RegisterRecord) -> Span:
    """The days that the book leaves open for a birth: one, those of a month or a year that somebody said, or all."""
    if known.birth.period:
        return span_of_period(known.birth.period)
    return ANY_DAY if known.birth.is_inferred else Span(record.born, record.born)


# an animal that is born so many days later may be another one; with another name it may already be one weeks later
YEARS_LATER, WEEKS_LATER = 700, 42


def lines_that_name(animals: dict[str, SheetAnimal], another: SheetAnimal) -> tuple[int, ...]:
    """The lines of animals that have an id as a parent, and are born after the other animal that has it."""
    progeny = [one for one in animals.values() if another.id in (one.sire, one.dam)]
    return tuple(one.line for one in progeny if one.birth.last > another.birth.first)
