"""A pedigree by itself: inbreeding, relationships and measures of animals that have nothing but their parents, from a
file or from arrays, without a book."""
from __future__ import annotations

import dataclasses
import functools
import itertools
import pathlib
from collections.abc import Callable, Collection, Iterable, Mapping, Sequence
from dataclasses import dataclass
from fractions import Fraction
from typing import TYPE_CHECKING, Any, Literal, overload

import numpy as np
import numpy.typing as npt

from gudokeyi.domain.kinds import Field
from gudokeyi.domain.messages import Mistake, some_of
from gudokeyi.domain.mistakes import AnimalNotFound, InvalidValue
from gudokeyi.engine.pedigree_program import MOST_NUMBERS, PedigreeProgram, PedigreeRefused
from gudokeyi.genetics.kinship import VARIANCE_BITS, Kinship, sampling_variances
from gudokeyi.genetics.lineage import Lineage, Places
from gudokeyi.genetics.pedigree import COEFFICIENT_BITS, MOST_STEPS, UNKNOWN
from gudokeyi.genetics.pedigree import Pedigree as RankedPedigree
from gudokeyi.ingest.array_ids import texts_of
from gudokeyi.ingest.pedigree_files import NEEDED, given_file, read_ids
from gudokeyi.ingest.pedigree_table import PedigreeTable, read_table
from gudokeyi.ingest.titles import read_given
from gudokeyi.ingest.unknown_parents import UnknownParents
from gudokeyi.reconcile.bare_pedigrees import BarePedigree, Founders, bare_pedigree

if TYPE_CHECKING:
    from gudokeyi.genetics.measures import Measure
    from gudokeyi.services.sparse_matrices import SparseMatrix

Floats = npt.NDArray[np.float64]
# a relationship in units of 2^-120
UNIT = 1 << COEFFICIENT_BITS
# so many pairs are asked for in one run of the program
PAIRS_AT_ONCE = 2_000_000


@dataclass(frozen=True)
class Pairs:
    """The entries of the numerator relationship matrix of some animals with others, row by row, in units of 2^-120."""

    ids: list[str]
    others: list[str]
    units: list[list[int]]

    def values(self, halved: bool) -> Floats:
        unit = 2 * UNIT if halved else UNIT
        return np.array([[entry / unit for entry in row] for row in self.units]).reshape(
            len(self.ids), len(self.others)
        )

    def exact(self, halved: bool) -> list[list[Fraction]]:
        unit = 2 * UNIT if halved else UNIT
        return [[Fraction(entry, unit) for entry in row] for row in self.units]


class Pedigree:
    """Animals with their sires and dams, by ids: lists, arrays, or columns of a data frame, in any order of animals.

    `ids` has the animals in the order given, and then the parents that have no place of their own, which are founders.
    All arrays have this order, unless a call names animals. Ids are compared as texts: 5, 5.0 and "5" are one. 0, an
    empty text, None, NaN, and the usual words are unknown parents; `unknown` adds words, `known` takes some back. An
    animal may be sire and dam, of others and of one.

    What can't be read as it is meant is refused with the animals: a cycle, an animal twice, a path of more than 60
    steps. `leave_out` takes parents as founders that differ from an id in how they are written alone, `anyway` other
    parents that are doubtful."""

    def __init__(
        self, ids: Iterable[object], sires: Iterable[object], dams: Iterable[object], *, unknown: Collection[str] = (),
        known: Collection[str] = (), leave_out: bool = False, anyway: bool = False,
    ) -> None:  # fmt: skip
        columns = [texts_of(name, column) for name, column in (("ids", ids), ("sires", sires), ("dams", dams))]
        lengths = {*map(len, columns)}
        if len(lengths) > 1:
            raise InvalidValue("ids, sires and dams differ in length: give as many of each")
        table = PedigreeTable(columns[0], columns[1], columns[2], range(1, len(columns[0]) + 1))
        self._take(bare_pedigree(table, UnknownParents(unknown, known), Founders(leave_out, anyway)))

    def _take(self, bare: BarePedigree) -> None:
        self._bare, self._lineage = bare, bare.lineage
        self.ids = bare.ids
        self._program = PedigreeProgram()

    @classmethod
    def _of(cls, bare: BarePedigree) -> Pedigree:
        made = cls.__new__(cls)
        made._take(bare)
        return made

    def __len__(self) -> int:
        return len(self.ids)

    @property
    def told(self) -> tuple[str, ...]:
        """How a file was read, and which parents are founders without a place of their own."""
        return self._bare.told

    @property
    def given(self) -> int:
        """How many of the animals have a place of their own: the first of `ids`."""
        return len(self._bare.lines)

    def has(self, id: str) -> bool:
        return id in self._bare.places

    def places(self, ids: Iterable[object]) -> Places:
        """Where some animals stand in `ids`."""
        is_one = isinstance(ids, str) or not hasattr(ids, "__iter__")
        texts = texts_of("ids", [ids] if is_one else ids)
        missing = [id for id in texts if id not in self._bare.places]
        if missing:
            raise AnimalNotFound(f"no animal of the pedigree has the id {some_of(missing)}")
        return np.array([self._bare.places[id] for id in texts], np.int64)

    def sires(self) -> list[str | None]:
        return self._named(self._lineage.sires)

    def dams(self) -> list[str | None]:
        return self._named(self._lineage.dams)

    def _named(self, parents: Places) -> list[str | None]:
        return [None if parent == UNKNOWN else self.ids[parent] for parent in parents.tolist()]

    # Inbreeding, of which everything else is made.

    @functools.cached_property
    def _order(self) -> Places:
        """The places of the animals by their numbers in the program."""
        if not self._lineage.is_in_order and (self._lineage.depths == UNKNOWN).any():
            raise self._too_deep()
        return self._lineage.order

    @functools.cached_property
    def numbers(self) -> Places:
        """The number of each place in the program, from 0 on."""
        numbers = np.empty(len(self), np.int64)
        numbers[self._order] = np.arange(len(self))
        return numbers

    def _too_deep(self) -> Mistake:
        places = self._lineage.first_too_deep()
        first = self._lineage.longest_path(places[0])
        path = " - ".join(self.ids[place] for place in (*first[:3], first[-1]))
        names = some_of([self._bare.where(place) for place in places])
        return InvalidValue(
            f"a path of known parents has more than {MOST_STEPS} steps, as {path}, and F can't be had exactly then. Set "
            f"parents of these to unknown, or of ancestors of theirs: {names}"
        )

    def asked(self, words: Sequence[str]) -> bytes:
        """What `herdbook pedigree` writes of the animals by their numbers: places in the order of `order`, from 1
        on."""
        lineage = self._lineage if self._lineage.is_in_order else self._lineage.cut(self._order)
        try:
            return self._program.ask(words, np.column_stack([lineage.sires, lineage.dams]) + 1)
        except PedigreeRefused as refused:
            if refused.fault != "TooDeep":
                raise
            raise self._too_deep() from None

    @property
    def lineage(self) -> Lineage:
        """The places of the animals' parents."""
        return self._lineage

    @property
    def is_in_order(self) -> bool:
        """Do parents stand before their offspring?"""
        return self._lineage.is_in_order

    @property
    def order(self) -> Places:
        """The places of the animals, parents before their offspring."""
        return self._order

    @functools.cached_property
    def _units(self) -> list[int]:
        """F of each number, in units of 2^-120."""
        return [*map(int, cells_of(self.asked(["inbreeding", "--units"]), 2)[1::2])]

    @overload
    def inbreeding(self, ids: Iterable[object] | None = None) -> Floats: ...

    @overload
    def inbreeding(self, ids: Iterable[object] | None = None, *, exact: Literal[True]) -> list[Fraction]: ...

    def inbreeding(self, ids: Iterable[object] | None = None, *, exact: bool = False) -> Floats | list[Fraction]:
        """The coefficient of each animal, or of some: rounded once to a double, or exact."""
        if exact:
            return [Fraction(units, UNIT) for units in self._ordered(self._units, ids)]
        return self._floats(self._units, UNIT, ids)

    def _floats(self, values: Sequence[int], unit: int, ids: Iterable[object] | None) -> Floats:
        """Values by number, as doubles by place: whole numbers of a unit that is a power of two."""
        found = np.empty(len(self))
        found[self._order] = np.fromiter(map(float, values), np.float64, len(values)) / unit
        return found if ids is None else found[self.places(ids)]

    def _ordered(self, values: Sequence[int], ids: Iterable[object] | None) -> list[int]:
        """Values by number, those of all places or of some animals."""
        numbers = self.numbers if ids is None else self.numbers[self.places(ids)]
        return [values[number] for number in numbers.tolist()]

    @functools.cached_property
    def _ranked(self) -> RankedPedigree:
        """The animals by number, as measures are computed of them."""
        lineage = self._lineage.cut(self._order)
        names = [self.ids[place] for place in self._order.tolist()]
        count = len(names)
        sires, dams = lineage.sires.tolist(), lineage.dams.tolist()
        return RankedPedigree(names, sires, dams, self._units, [None] * count, [False] * count)

    @functools.cached_property
    def _variances(self) -> list[int]:
        return sampling_variances(self._ranked)

    @overload
    def mendelian_sampling_variances(self, ids: Iterable[object] | None = None) -> Floats: ...

    @overload
    def mendelian_sampling_variances(
        self, ids: Iterable[object] | None = None, *, exact: Literal[True]
    ) -> list[Fraction]: ...

    def mendelian_sampling_variances(
        self, ids: Iterable[object] | None = None, *, exact: bool = False
    ) -> Floats | list[Fraction]:
        """Of each animal, or of some, as a part of the additive variance."""
        if exact:
            return [Fraction(units, 1 << VARIANCE_BITS) for units in self._ordered(self._variances, ids)]
        return self._floats(self._variances, 1 << VARIANCE_BITS, ids)

    # Relationships.

    def pairs(self, ids: Iterable[object] | None = None, with_ids: Iterable[object] | None = None) -> Pairs:
        """Each of some animals with each of others, or of the same; where none are named, of all."""
        rows = np.arange(len(self)) if ids is None else self.places(ids)
        columns = rows if with_ids is None else self.places(with_ids)
        kept, where = np.unique(np.concatenate([rows, columns]), return_inverse=True)
        names = [self.ids[place] for place in kept.tolist()]
        table = self._kept(kept)._entries(names, where[: len(rows)], where[len(rows) :])
        return Pairs([self.ids[at] for at in rows.tolist()], [self.ids[at] for at in columns.tolist()], table)

    def _entries(self, names: list[str], rows: Places, columns: Places) -> list[list[int]]:
        """Of animals by their places among some names. The program goes through the pedigree once for each of those
        that stand first: so these are the fewer ones."""
        of_names = self.numbers[self.places(names)] + 1
        if len(columns) < len(rows):
            return [list(row) for row in zip(*self._entries_of(of_names[columns], of_names[rows]))]
        return self._entries_of(of_names[rows], of_names[columns])

    def _entries_of(self, rows: Places, columns: Places) -> list[list[int]]:
        found: list[list[int]] = [[] for _ in rows]
        for first in range(0, len(columns), MOST_NUMBERS):
            some = [*map(str, columns[first : first + MOST_NUMBERS].tolist())]
            at_once = min(MOST_NUMBERS, max(1, PAIRS_AT_ONCE // len(some)))
            for begin in range(0, len(rows), at_once):
                those = [*map(str, rows[begin : begin + at_once].tolist())]
                text = self.asked(["relationships", *those, "--units", "--with", *some])
                units = map(int, cells_of(text, 3)[2::3])
                for row in range(begin, begin + len(those)):
                    found[row] += itertools.islice(units, len(some))
        return found

    @overload
    def relationships(
        self, ids: Iterable[object] | None = None, with_ids: Iterable[object] | None = None
    ) -> Floats: ...

    @overload
    def relationships(
        self, ids: Iterable[object] | None = None, with_ids: Iterable[object] | None = None, *, exact: Literal[True]
    ) -> list[list[Fraction]]: ...

    def relationships(
        self, ids: Iterable[object] | None = None, with_ids: Iterable[object] | None = None, *, exact: bool = False
    ) -> Floats | list[list[Fraction]]:
        """The entries of the numerator relationship matrix: a row for each of some animals, a column for each of
        others, or of the same."""
        pairs = self.pairs(ids, with_ids)
        return pairs.exact(halved=False) if exact else pairs.values(halved=False)

    @overload
    def kinship(self, ids: Iterable[object] | None = None, with_ids: Iterable[object] | None = None) -> Floats: ...

    @overload
    def kinship(
        self, ids: Iterable[object] | None = None, with_ids: Iterable[object] | None = None, *, exact: Literal[True]
    ) -> list[list[Fraction]]: ...

    def kinship(
        self, ids: Iterable[object] | None = None, with_ids: Iterable[object] | None = None, *, exact: bool = False
    ) -> Floats | list[list[Fraction]]:
        """The same halved: F of the offspring of both."""
        pairs = self.pairs(ids, with_ids)
        return pairs.exact(halved=True) if exact else pairs.values(halved=True)

    @overload
    def mean_kinship(self, among: Iterable[object] | None = None) -> Floats: ...

    @overload
    def mean_kinship(self, among: Iterable[object] | None = None, *, exact: Literal[True]) -> list[Fraction]: ...

    def mean_kinship(self, among: Iterable[object] | None = None, *, exact: bool = False) -> Floats | list[Fraction]:
        """The mean kinship of each animal with all, or with some."""
        population = self.numbers if among is None else np.unique(self.numbers[self.places(among)])
        of_each = Kinship(self._ranked, self._variances).mean_of_each(population.tolist())
        found = [of_each[number] for number in self.numbers.tolist()]
        return found if exact else np.array([float(one) for one in found])

    def inverse(self) -> SparseMatrix:
        """The inverse of the numerator relationship matrix: summed of the program's coefficients by Henderson's
        rules."""
        return self._sparse(is_half=False)

    def half_inverse(self) -> SparseMatrix:
        """The matrix H, lower triangular where parents stand before their offspring, for which the inverse is H'H."""
        return self._sparse(is_half=True)

    def _sparse(self, is_half: bool) -> SparseMatrix:
        from gudokeyi.services.sparse_matrices import half_inverse_of, inverse_of

        return (half_inverse_of if is_half else inverse_of)(
            self.ids, self._lineage, self.mendelian_sampling_variances()
        )

    # Parts of it, measures, and the table.

    def ancestors(self, ids: Iterable[object]) -> list[str]:
        """All ancestors of some animals, without these unless one is an ancestor of another."""
        places = self.places(ids)
        parents = np.concatenate([self._lineage.sires[places], self._lineage.dams[places]])
        found = self._lineage.ancestry(parents[parents != UNKNOWN])
        return [self.ids[place] for place in found.tolist()]

    def keep(self, ids: Iterable[object]) -> Pedigree:
        """The pedigree of some animals with all their ancestors: their coefficients are the same."""
        return self._kept(self.places(ids))

    def _kept(self, places: Places) -> Pedigree:
        kept = self._lineage.ancestry(places)
        ids = [self.ids[place] for place in kept.tolist()]
        lines = [self._bare.lines[place] for place in kept.tolist() if place < self.given]
        return Pedigree._of(BarePedigree(ids, self._lineage.cut(kept), lines, ()))

    def with_parents(self, lineage: Lineage) -> Pedigree:
        """The same animals with other parents."""
        return Pedigree._of(dataclasses.replace(self._bare, lineage=lineage))

    def measures(
        self, among: Iterable[object] | None = None, tell: Callable[[str], None] = lambda what: None
    ) -> list[Measure]:
        """The measures of a reference population, or of all animals. What needs birth days has none."""
        from gudokeyi.genetics.breed_state import state_of

        kept = self if among is None else self.keep(among)
        population = kept.numbers if among is None else kept.numbers[kept.places(among)]
        if not len(population):
            raise InvalidValue("measures need animals: name one at least")
        state = state_of(kept._ranked, np.unique(population).tolist(), tell)
        return [*state.measures.values()]

    def to_frame(self) -> Any:
        """A data frame of pandas with each animal's id, sire and dam, and its coefficient."""
        import pandas

        return pandas.DataFrame(
            {"id": self.ids, "sire": self.sires(), "dam": self.dams(), "inbreeding": self.inbreeding()}
        )


def named_columns(words: list[str]) -> dict[str, str]:
    """The titles of `--columns id=X,sire=Y`."""
    found = read_given(words)
    others = [field for field in found if field not in NEEDED]
    if others:
        raise Mistake(f"--columns {others[0]}=: of a pedigree by itself the columns id, sire and dam are read")
    return found


def named_in(path: pathlib.Path, pedigree: Pedigree) -> list[str]:
    """The animals that a file names, one id a line."""
    ids = read_ids(path, pedigree.has)
    missing = [id for id in ids if not pedigree.has(id)]
    if missing:
        raise AnimalNotFound(f"{path} names animals that aren't in the pedigree: {some_of(missing)}")
    return ids


def cells_of(text: bytes, columns: int) -> list[bytes]:
    """The cells of lines that have as many each, one line after the other."""
    return text.replace(b"\n", b",").split(b",")[:-1]


def read_pedigree(
    file: str | pathlib.Path, *, columns: Mapping[str, str] | None = None, unknown: Collection[str] = (),
    known: Collection[str] = (), leave_out: bool = False, anyway: bool = False,
) -> Pedigree:  # fmt: skip
    """A pedigree of a text file, which may be packed by gzip; `-` is standard input. `columns` names the titles of
    `id`, `sire` and `dam` where they aren't usual ones."""
    others = [one for one in columns or {} if one not in NEEDED]
    if others:
        raise InvalidValue(f"columns has {others[0]!r}: of a pedigree by itself the columns id, sire and dam are read")
    titles = {Field(one): title for one, title in (columns or {}).items()}
    words = UnknownParents(unknown, known)
    table = read_table(given_file(pathlib.Path(file), is_pedigree=True, any_size=True), titles, words)
    return Pedigree._of(bare_pedigree(table, words, Founders(leave_out, anyway)))
