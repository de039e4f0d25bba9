"""What is found of parents' cells that have more than an id or a name: each kind as data, and in words."""
from __future__ import annotations

from collections.abc import Mapping
from dataclasses import dataclass

from gudokeyi.domain.findings import Finding, Severity, What
from gudokeyi.domain.kinds import Role
from gudokeyi.domain.messages import AnyOf
from gudokeyi.domain.wording import Text
from gudokeyi.reconcile.findings.parents import ParentLeftOut


@dataclass(frozen=True, slots=True)
class EitherParent(ParentLeftOut):
    """A cell that names two animals, of which one is the parent."""

    role: Role
    written: str

    code = "either parent"
    message = Text("its {role} '{written}' is left out: it may be one or the other, and counts as unknown")


@dataclass(frozen=True, slots=True)
class BothParents(ParentLeftOut):
    """A cell that names a sire and a dam."""

    role: Role
    written: str

    code = "both parents"
    message = Text(
        "its {role} '{written}' is left out: it names two animals, and counts as unknown; write sire and dam each in "
        "their own column"
    )


@dataclass(frozen=True, slots=True)
class ParentsExchanged(ParentLeftOut):
    """A row that names a female of the list as its sire, and a male as its dam."""

    female: str
    male: str

    code = "parents exchanged"
    message = Text(
        "its sire and dam may be swapped: {female}, which stands as its sire, is female, and {male}, which stands as its "
        "dam, is male: both are left out, and count as unknown; write each in its own column"
    )

    def times(self) -> int:
        return 2


@dataclass(frozen=True, slots=True)
class NamedByRelation(ParentLeftOut):
    """A cell that names another animal, and says how the parent is related to it."""

    role: Role
    written: str

    code = "named by relation"
    message = Text(
        "its {role} '{written}' is left out: it says how another animal is related, and counts as unknown; write the "
        "{role}'s own id"
    )


@dataclass(frozen=True, slots=True)
class NotSaidToBeParent(ParentLeftOut):
    """A cell with words beside an animal by which it isn't the parent, may not be it, or has the same one."""

    role: Role
    written: str
    named: str

    code = "not said to be parent"
    message = Text(
        "its {role} '{written}' is left out: it doesn't say that {named} is the {role}, and counts as unknown; write the "
        "{role}'s id alone"
    )


@dataclass(frozen=True, slots=True)
class ParentNotSure(ParentLeftOut):
    """A cell with a word or a sign by which the animal that it names may be the parent, and may not."""

    role: Role
    written: str
    named: str

    code = "parent not sure"
    message = Text(
        "its {role} '{written}' is left out: it doesn't say for sure that {named} is the {role}, which counts as unknown; "
        "where that is sure, write the {role}'s id alone"
    )


@dataclass(frozen=True, slots=True)
class CarrierNoDam(ParentLeftOut):
    """A cell of a dam that names who carried an embryo or brought up the young one, and no dam."""

    role: Role
    written: str

    code = "carrier no dam"
    message = Text(
        "its {role} '{written}' is left out: it names who carried it or brought it up, and the {role} counts as unknown; "
        "write the {role}'s id"
    )


@dataclass(frozen=True, slots=True)
class NamedOtherwiseBeside(Finding):
    """A parent whose id is taken, beside which the cell has the name of one or several others."""

    role: Role
    written: str
    parent: str
    name: str
    others: tuple[str, ...]

    what = What.WARNING
    severity = Severity.PARENTS
    code = "named otherwise beside"
    message = Text(
        "its {role} '{written}' is {parent} by its id, and by its name {which}: {parent} is taken; if another is meant, "
        "write the id of that one"
    )

    def values(self) -> Mapping[str, object]:
        return {"which": AnyOf(self.others)}
