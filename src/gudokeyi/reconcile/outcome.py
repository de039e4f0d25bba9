"""What an import makes of a book, or would make of it, and how the sheet was understood: data, which a page can show as
well as a terminal."""
from __future__ import annotations

import collections
import pathlib
import shlex
from collections.abc import Mapping, Sequence
from dataclasses import dataclass, field

from gudokeyi.domain.changes import Option
from gudokeyi.domain.findings import Call, Entry, Finding, Report, What
from gudokeyi.domain.kinds import Field
from gudokeyi.domain.messages import counted, some_of
from gudokeyi.reconcile.findings.animals import RowIsGone
from gudokeyi.reconcile.findings.by_hand import ValueChanged
from gudokeyi.reconcile.findings.own_columns import OwnCells
from gudokeyi.store.exports import REPORT

# How a sheet was understood: its rows, and which column has what, as data.

# so many titles that aren't read are shown
MOST_TITLES = 12


@dataclass(frozen=True, slots=True)
class ColumnRead:
    """A field with the title of its column, and with that of one that is read with it."""

    field: Field
    title: str
    beside: str = ""

    def words(self) -> str:
        return f"{self.field} from '{self.title}'" + (f" and '{self.beside}'" if self.beside else "")


@dataclass(frozen=True, slots=True)
class Understood:
    """The file, how many rows it has below the titles in a line, its encoding or worksheet in words, the columns that
    are read and the titles that aren't, and the options that the book remembers and that hold here."""

    file: str
    rows: int
    titles_line: int
    how: str
    columns: tuple[ColumnRead, ...]
    not_read: tuple[str, ...]
    remembered: tuple[Option, ...]
    # the columns are those of the last sheet
    as_before: bool = False
    # the titles of the society's own columns
    kept: tuple[str, ...] = ()
    # the letters of columns without a title that have texts
    untitled: tuple[str, ...] = ()

    def lines(self) -> list[str]:
        read = ", ".join(one.words() for one in self.columns)
        columns = "columns as last time" if self.as_before else f"columns: {read}"
        kept = some_of([f"'{title}'" for title in self.kept], MOST_TITLES)
        untitled = [f"column {letters} (without a title)" for letters in self.untitled]
        titles = some_of([f"'{title}'" for title in self.not_read] + untitled, MOST_TITLES)
        lines = [
            f"{self.file}: {counted(self.rows, 'row')} below the titles in line {self.titles_line}, {self.how}",
            columns + (f"; kept: {kept}" if kept else "") + (f"; not read: {titles}" if titles else ""),
        ]
        if self.remembered:
            options = ", ".join(
                f"{one.option} {shlex.quote(one.word)}" if one.word else one.option for one in self.remembered
            )
            lines.append(f"as last time: {options} (the book remembers these)")
        return lines


# What an import makes of a book, or would make of it: data, which a page can show as well as a terminal.


@dataclass(frozen=True, slots=True)
class BookAfter:
    """The book after an import: how many animals it has, how many of them are new, and of how many sexes or days are
    invented; whether its journal begins a new edition; with what numbers begin, where that wasn't wished and it is the
    first taking; and whether those that are gone are dropped. `with_row` have a row, the new ones among them; `added`
    have none and are parents that the book didn't have; the others were in the book."""

    animals: int
    new: int
    invented: int
    is_anew: bool
    numbers_begin: str
    drops_gone: bool
    with_row: int = 0
    added: int = 0

    @property
    def known(self) -> int:
        """The animals with a row that the book had."""
        return self.with_row - self.new

    @property
    def without_row(self) -> int:
        """The animals of the book that have no row."""
        return self.animals - self.with_row - self.added


@dataclass(frozen=True)
class Outcome:
    """What a preview tells, and what an import did. A terminal shows it by `screen`, a page as it likes:

    - `call`: how `import` was called; `call.command(suggestion)` is a whole command to be typed;
    - `understood`: the rows of a sheet, and which columns have what; none of a pedigree, or where a sheet can't be
      read;
    - `about`: how the file was read, in sentences;
    - `obstacles`: why nothing is taken, each a finding with `words()` and `suggestions()`; where there is one, an
      import wrote nothing, and a preview tells what would be taken all the same, if the sheet can be read;
    - `report.entries`: what was found, each with the sheet's line, the animal's id and a finding; `by_kind()` sorts
      them by what they are about, and `finding.does()` tells how grave each is;
    - `after`: the book after it, none where the sheet can't be read;
    - `own_values`: by an animal's id the values of the society's own columns that it gets, each with its column's place
      and the value before."""

    folder: pathlib.Path
    call: Call
    understood: Understood | None = None
    about: tuple[str, ...] = ()
    obstacles: tuple[Finding, ...] = ()
    report: Report = field(default_factory=Report)
    after: BookAfter | None = None
    own_values: Mapping[str, Sequence[tuple[int, str, str]]] = field(default_factory=dict)

    def by_kind(self) -> dict[What, list[Entry]]:
        """What was found, by kind; what may be wrong comes first."""
        entries = self.report.in_order()
        return {what: [entry for entry in entries if entry.what is what] for what in What}

    def counts(self) -> collections.Counter[What]:
        return self.report.counts()

    def changed(self) -> collections.Counter[str]:
        """How many values of each field are changed."""
        findings = (entry.finding for entry in self.report.entries)
        return collections.Counter(one.name for one in findings if isinstance(one, ValueChanged))

    def own_columns(self) -> dict[str, list[OwnCells]]:
        """How many cells of the society's own columns say something else, or aren't read, by their titles; the columns
        of which something goes come first."""
        found = collections.defaultdict[str, list[OwnCells]](list)
        for entry in self.report.entries:
            if isinstance(entry.finding, OwnCells):
                found[entry.finding.title].append(entry.finding)
        return dict(sorted(found.items(), key=lambda one: not any(cells.what_goes for cells in one[1])))

    def summary(self) -> str:
        assert self.after
        counts, after = self.counts(), self.after
        inferred = [f"{after.invented} invented"] * bool(after.invented)
        inferred += [f"{counts[What.INFERRED]} inferred"] * bool(counts[What.INFERRED] or not after.invented)
        dropped = sum(isinstance(one.finding, RowIsGone) and one.finding.is_dropped for one in self.report.entries)
        gone = f"{counts[What.GONE]} gone" + f" ({dropped} dropped)" * bool(dropped)
        return (
            f"{self.folder}: {counted(after.animals, 'animal')}, {after.new} new, {counts[What.CHANGED]} changed, "
            f"{', '.join(inferred)}, {self.report.left_out()}, {counts[What.ADDED]} added, {gone}"
        )

    def report_file(self) -> pathlib.Path:
        return self.folder / REPORT
