"""What is found of a sheet: an entry for each row that was changed, left out or added, as data; how grave it is, and
the options that it suggests."""
from __future__ import annotations

import collections
import enum
import pathlib
import shlex
from collections.abc import Hashable, Mapping, Sequence
from dataclasses import dataclass, replace
from typing import ClassVar

from gudokeyi.domain.changes import Option
from gudokeyi.domain.messages import CALLED, Mistake, counted
from gudokeyi.domain.wording import Told

# How much harm comes of a finding that nobody looks at: the report begins with what does most.


class Severity(enum.IntEnum):
    """The greatest harm first."""

    # animals are mixed up, doubled or lost
    ANIMALS = 1
    # a parent is a wrong one or lacks, and so are coefficients
    PARENTS = 2
    # a day, a sex, an owner or an exit is wrong or lacks
    FACTS = 3
    # it is as the sheet says it, or as it was
    NONE = 4


# What to call `import` with in a case: options as data, and the whole command that they make.

# options that may be given several times, and those that take one another back
REPEATED = (
    "--columns", "--unknown", "--known", "--sexes", "--owner", "--no-animal", "--animal", "--new-tag", "--own",
)  # fmt: skip
OPPOSITE = {
    "--known": "--unknown", "--unknown": "--known", "--no-animal": "--animal", "--animal": "--no-animal",
}  # fmt: skip
# the folder of a book where none is named
USUAL_BOOK = pathlib.Path("book")

COLUMNS, OWN = "--columns", "--own"
ANYWAY, LEAVE_OUT, DROP_GONE, PREVIEW, APPEND = map(
    Option, ("--anyway", "--leave-out", "--drop-gone", "--preview", "--append")
)


def columns(titles: Mapping[str, str]) -> Option:
    """The option that names the columns of fields; a title with a comma stands in quotation marks."""
    return Option(COLUMNS, ",".join(quoted(f"{field}={title}") for field, title in titles.items()))


def quoted(text: str) -> str:
    """A text between commas."""
    return '"' + text.replace('"', '""') + '"' if "," in text or text[:1] == '"' else text


def kept_as(title: str, kind: str) -> Option:
    """The option by which another column is kept."""
    return Option(OWN, f"{title}={kind}")


def title_kept(option: Option) -> str:
    """The title of the column that such an option names."""
    return option.word.rpartition("=")[0]


def is_no_animal(word: str) -> Option:
    """The option by which rows with a word are left out."""
    return Option("--no-animal", quoted(word))


def is_animal(word: str) -> Option:
    """The one that takes it back."""
    return Option("--animal", quoted(word))


@dataclass(frozen=True, slots=True)
class Suggestion:
    """In this case the options are added to those of the call, and others left out; `undoes` where what was taken is
    undone before, and `of_exits` where a word for what isn't known stands for no exit."""

    case: str
    options: tuple[Option, ...] = ()
    without: tuple[str, ...] = ()
    undoes: bool = False
    of_exits: bool = False

    def words(self) -> str:
        """The case and the options alone, for where the call isn't known."""
        said = [f"say {text_of(self.options)}"] * bool(self.options)
        left_out = [f"leave out {', '.join(self.without)}"] * bool(self.without)
        undone = ["undo this"] * self.undoes
        return f"{self.case}, {' and '.join(undone + left_out + said)}"


def tells_of_no_exit(word: str) -> Suggestion:
    """How a cell that counts as an exit is said to be none."""
    return Suggestion(f"if '{word}' tells of no exit", (Option("--unknown", quoted(word)),), of_exits=True)


@dataclass(frozen=True, slots=True)
class Call:
    """How `import` was called: the words for the file, the book's folder and the options; and the change that it made,
    0 for none."""

    file: tuple[str, ...]
    book: pathlib.Path
    options: tuple[Option, ...] = ()
    change: int = 0

    @property
    def is_preview(self) -> bool:
        return PREVIEW in self.options

    def after(self) -> Call:
        """The call once it is taken: owners are renamed then."""
        return replace(self, options=tuple(one for one in self.options if one.option != "--owner" or self.is_preview))

    def command(self, suggestion: Suggestion) -> str:
        """The whole command, quoted for a shell."""
        options = [one for one in self.options if not is_replaced(one, suggestion)]
        options += [one for one in suggestion.options if one not in options]
        book = ["--book", str(self.book)] * (self.book != USUAL_BOOK)
        take = f"{CALLED} import {shlex.join([*self.file, *book])} {text_of(options)}".rstrip()
        # what somebody else changed since isn't taken back
        only = ["--change", str(self.change)] * bool(self.change)
        undo = f"{CALLED} {shlex.join(['undo', *only, *book])} && "
        return undo + take if suggestion.undoes and not self.is_preview else take


def is_replaced(option: Option, suggestion: Suggestion) -> bool:
    """Is an option of the call left out for what is suggested? Of most options the last one holds, a word is either
    known or unknown, and a column is kept as one kind."""
    if option.option in suggestion.without:
        return True
    if option.option == OWN:
        return title_kept(option) in [title_kept(one) for one in suggestion.options if one.option == OWN]
    names = [one.option for one in suggestion.options]
    words = [one.word for one in suggestion.options if one.option == OPPOSITE.get(option.option)]
    return option.word in words or (option.option in names and option.option not in REPEATED)


def text_of(options: tuple[Option, ...] | list[Option]) -> str:
    """Options as they are written in a shell; a word that would be taken for an option stands behind `=`."""
    return " ".join(text for one in options for text in texts_of(one))


def texts_of(option: Option) -> list[str]:
    if option.word.startswith("-"):
        return [shlex.quote(f"{option.option}={option.word}")]
    # `--columns exit=` has a word, and `--anyway` none
    return [option.option, shlex.quote(option.word)] if option.word else [option.option]


# What is told of a sheet: an entry for each row that was changed, left out or added, as data.


class What(enum.StrEnum):
    """What an entry is about, in the order in which the report has them."""

    # it is taken as it stands, and may be wrong
    WARNING = "to look at"
    LEFT_OUT = "left out"
    INFERRED = "inferred"
    CHANGED = "changed"
    GONE = "gone"
    ADDED = "added"
    NEW = "new"


class Part(enum.StrEnum):
    """What of a sheet is left out: a row of it (of a pedigree a line), a cell, or the link to one parent."""

    ROW = "row"
    LINE = "line"
    CELL = "cell"
    PARENT = "parent"


INFERRED = What.INFERRED
ROW, LINE, CELL = Part.ROW, Part.LINE, Part.CELL


class Finding(Told):
    """What an entry tells: each kind is a frozen dataclass of its own, whose fields are the data. A book stores it by
    its code, which stays whatever the class is called, and its fields by their names or those of `stored_fields`."""

    code: ClassVar[str]
    stored_fields: ClassVar[Mapping[str, str]] = {}
    what: ClassVar[What]
    part: ClassVar[Part | None] = None
    severity: ClassVar[Severity] = Severity.NONE
    # much of what else is told hangs on it, as on which column has what
    decides_much: ClassVar[bool] = False

    def __init_subclass__(cls) -> None:
        if "code" in cls.__dict__:
            KINDS[cls.code] = cls

    def suggestions(self) -> tuple[Suggestion, ...]:
        """What to call `import` with, case by case."""
        return ()

    def does(self) -> Severity:
        """The harm that it can do."""
        return self.severity

    def comes_first(self) -> bool:
        """Is it told before all else?"""
        return self.decides_much

    def theme(self) -> Hashable:
        """Findings of one kind and theme are told together."""
        return None

    def times(self) -> int:
        """Of how many rows, cells or parents it tells."""
        return 1


# the kinds of findings by their codes
KINDS: dict[str, type[Finding]] = {}


class LeftOut(Finding):
    """A row, a cell or a parent is left out."""

    what = What.LEFT_OUT
    severity = Severity.FACTS


class PlausibilityWarning(Finding):
    """It is taken as it stands, and told for somebody to look at."""

    what = What.WARNING
    severity = Severity.FACTS


@dataclass(frozen=True, slots=True)
class Entry:
    """A line of the report. `line` is the sheet's, 0 where the animal has no row; `id` is the society's own."""

    line: int
    id: str
    finding: Finding

    @property
    def what(self) -> What:
        return self.finding.what

    @property
    def part(self) -> Part | None:
        return self.finding.part

    @property
    def why(self) -> str:
        """What is told of it, with the options that are suggested."""
        suggested = [suggestion.words() for suggestion in self.finding.suggestions()]
        return "; ".join([self.finding.words(), *suggested])

    def words(self) -> str:
        """What was found, in a sentence, without what is suggested."""
        return self.sentence_of(self.finding.words())

    def sentence(self) -> str:
        """The same with the options that are suggested."""
        return self.sentence_of(self.why)

    def sentence_of(self, told: str) -> str:
        where = f"line {self.line}: " if self.line else ""
        name = f"{self.id}: " if self.id else ""
        return f"{where}{name}{told if self.part else f'{self.what}: {told}'}"


class ImportRefused(Mistake):
    """What keeps a sheet or a pedigree from being taken, as data; `told` are sentences of what it is about, and those
    of `entries`."""

    def __init__(self, *obstacles: Finding, told: Sequence[str] = (), entries: Sequence[Entry] = ()) -> None:
        self.obstacles, self.entries = obstacles, tuple(entries)
        self.told = (*told, *(one.sentence() for one in entries))
        super().__init__(*self.told, *(one.words() for one in obstacles))


class StrictlyRefused(ImportRefused):
    """The same where nothing is to be left out, with all entries that would be."""

    def __init__(self, left_out: Sequence[Entry], *obstacles: Finding) -> None:
        super().__init__(*obstacles)
        self.left_out = tuple(left_out)


class Report:
    """The entries of an import, in the order in which they came."""

    def __init__(self) -> None:
        self.entries: list[Entry] = []
        # the animals whose owner is written otherwise from now on
        self.renamed: set[str] = set()
        # those of the book of which values of the society's own columns are otherwise, of which the first have entries
        self.with_own_values: set[str] = set()

    def add(self, line: int, id: str, finding: Finding) -> None:
        self.entries.append(Entry(line, id, finding))

    def cut_off(self, at: int) -> list[Entry]:
        """Takes away what was told from a place on, and answers it."""
        told = self.entries[at:]
        del self.entries[at:]
        return told

    def left_out(self) -> str:
        """How many rows, cells and parents are left out, in words."""
        counts = collections.Counter[Part | None]()
        for entry in self.entries:
            if entry.what is What.LEFT_OUT:
                counts[entry.part] += entry.finding.times()
        parts = [counted(counts[part], part) for part in Part if counts[part]]
        return f"{counts.total()} left out" + (f" ({', '.join(parts)})" if parts else "")

    def counts(self) -> collections.Counter[What]:
        """How many entries there are of each kind; of what is changed, how many animals are, and of what is left out,
        how many rows, cells and parents."""
        counts = collections.Counter(entry.what for entry in self.entries)
        changed = {entry.id for entry in self.entries if entry.what is What.CHANGED} - {""}
        counts[What.CHANGED] = len(changed | self.renamed | self.with_own_values)
        counts[What.LEFT_OUT] = sum(one.finding.times() for one in self.entries if one.what is What.LEFT_OUT)
        return counts

    def in_order(self) -> list[Entry]:
        """By what they are about, and by line."""
        places = {what: at for at, what in enumerate(What)}
        return sorted(self.entries, key=lambda entry: (places[entry.what], entry.line))


class Obstacle(Finding):
    what = What.WARNING
