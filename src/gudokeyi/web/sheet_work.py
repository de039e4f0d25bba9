"""A dropped sheet: how it is read, what it would change, and its import; both in a process beside the server."""
from __future__ import annotations

import contextlib
import csv
import functools
import gc
import hashlib
import io
import pathlib
from collections.abc import Callable, Collection, Mapping
from dataclasses import dataclass, field, replace
from typing import TypeVar

from gudokeyi.bounds import bound_look, bounded_reading
from gudokeyi.domain.changes import NO_MARK, Change, Mark, Option
from gudokeyi.domain.findings import ROW, Entry, Finding, ImportRefused, What
from gudokeyi.domain.kinds import Doing
from gudokeyi.domain.messages import Mistake
from gudokeyi.domain.options import Kind
from gudokeyi.domain.settings import Setting
from gudokeyi.process import take_as_others, take_what_is_left
from gudokeyi.services.behind_others import save_in_turn
from gudokeyi.services.book_program import BookProgram
from gudokeyi.services.cache import Stamp, StateKept, mark_of, stamp_of
from gudokeyi.services.imports import BookAfter, ImportOptions, LettersUnsaid, Outcome, read_file
from gudokeyi.services.opening import Book, Overtaken, book_in, to_change, to_look_at, to_prepare
from gudokeyi.services.option_values import day, days, three_letters
from gudokeyi.services.settings import settings_of
from gudokeyi.services.sheet_imports import import_sheet_into
from gudokeyi.services.recent import may_be_wrong
from gudokeyi.services.prepared_changes import Prepared, save
from gudokeyi.services.sheet_reading import LastReading
from gudokeyi.services.sheet_previews import (
    ColumnsView, KindFound, Sheet, animals_otherwise, cells_of, changes_by_animal, columns_shown, harm_of, kinds_found,
)  # fmt: skip
from gudokeyi.web.forms import SHEET_FIELDS, made_by, owners_of
from gudokeyi.web.views.findings import Days, days_of, first_of_each, totals_of
from gudokeyi.web.work_places import BOUNDS, LOOKING as LOOKING, TAKING
from gudokeyi.web.workers import Tell


# A dropped sheet: how it is read and what it would change, and its import; both in a process beside the server.

Value = TypeVar("Value")
# the field that drops what has no row
DROPS = "drop_gone"
# so often a sheet is prepared beside others who file something of its animals each time: for a large one these are some
# minutes
MOST_TRIES = 20
# the book and the sheet that this process looked at last
STATE, READING = StateKept(), LastReading()
# the settings by which sheets are read
OF_SHEETS = (Setting.BREED, Setting.COUNTRY, Setting.UNKNOWN)


@dataclass(frozen=True)
class Chosen:
    """What somebody chose for the reading of a sheet: titles for fields, and the fields of the form by their names."""

    columns: tuple[tuple[str, str], ...] = ()
    options: tuple[tuple[str, str], ...] = ()
    # what other columns are kept as, by their titles
    others: tuple[tuple[str, str], ...] = ()

    @classmethod
    def of(
        cls, columns: Mapping[str, str], options: Mapping[str, str], wrong: Collection[str] = (),
        others: Mapping[str, str] | None = None,
    ) -> Chosen:  # fmt: skip
        """Without the fields that can't be read."""
        read = {name: text for name, text in options.items() if name not in wrong}
        return cls(tuple(sorted(columns.items())), tuple(sorted(read.items())), tuple((others or {}).items()))


@dataclass(frozen=True)
class Seen:
    """What the look at a sheet is of: the book, and how the sheet is read, as a digest."""

    mark: Mark
    reading: str


def seen_of(book: Book, chosen: Chosen) -> Seen:
    """A sheet is read by what was chosen for it, and by settings, which are no part of the book's history."""
    settings = settings_of(book)
    read_by = repr((chosen, [settings[one] for one in OF_SHEETS]))
    return Seen(mark_of(book), hashlib.sha256(read_by.encode()).hexdigest())


@dataclass(frozen=True)
class Look:
    """What a sheet would change. `told` are sentences and entries on why it can't be read; obstacles keep it from being
    taken; `entries` are the first of each kind, of which there are `totals`; `days` are those of all entries that are
    told for a bound; `rows` are the sheet's, of which `left_out` are; `remembered` are the options that hold since an
    earlier sheet; `after` is the book then, none where it can't be read."""

    seen: Seen
    columns: ColumnsView | None
    told: tuple[str | Entry, ...] = ()
    obstacles: tuple[Finding, ...] = ()
    entries: tuple[Entry, ...] = ()
    totals: Mapping[What, int] = field(default_factory=dict)
    days: Days = field(default_factory=dict)
    rows: int = 0
    left_out: int = 0
    remembered: tuple[Option, ...] = ()
    after: BookAfter | None = None
    # what it would change of each animal, and the entries of those that are asked about anew
    by_animal: Mapping[str, bytes] = field(default_factory=dict)
    again: tuple[Entry, ...] = ()
    # of each line of which something is told that may be wrong, its cells with their titles
    cells: Mapping[int, tuple[tuple[str, str], ...]] = field(default_factory=dict)
    # all of it summed up, the greatest harm first
    kinds: tuple[KindFound, ...] = ()

    @property
    def asks_letters(self) -> bool:
        """Is it to be said with what the numbers begin?"""
        return any(isinstance(one, LettersUnsaid) for one in self.obstacles)


@dataclass(frozen=True)
class Imported:
    """The change that an import made, or that the book isn't any more the one that was looked at, or the sheet would be
    read otherwise. `mark` is that of the book behind it; `whole` is the book and its file then, if they are seen to be
    whole, or would be if the book of the mark `behind` is, which others filed meanwhile; `meanwhile` counts the changes
    since the look that gave way to a backup; `otherwise` are the animals that others changed since the look, so that
    the sheet would change them otherwise."""

    change: int
    book_changed: bool = False
    read_otherwise: bool = False
    mark: Mark = NO_MARK
    whole: Stamp = ()
    behind: Mark = NO_MARK
    meanwhile: int = 0
    otherwise: tuple[str, ...] = ()


def looked_at(folder: pathlib.Path, path: pathlib.Path, chosen: Chosen, again: Collection[str], tell: Tell) -> Look:
    """What a sheet would change in the book as it is when this begins, whoever changes it meanwhile; `again` are the
    animals that are asked about anew."""
    bound_look()
    program = BookProgram()
    tell(Doing.COLUMNS)
    with to_look_at(folder, program) as book:
        STATE.give(book)
        columns, sheet, failed = columns_of(book, path, chosen, folder)
        seen = seen_of(book, chosen)
    if failed:
        return look_of(seen, columns, failed)
    tell(Doing.CHANGES)
    with to_look_at(folder, program) as book:
        STATE.give(book)
        seen = seen_of(book, chosen)
        try:
            outcome, _ = import_sheet_into(
                book, read_file(path), replace(import_options_of(folder, chosen), preview=True), program, last=READING
            )
        except Mistake as mistake:
            return look_of(seen, columns, mistake)
        STATE.keep_journal(book)
    entries, understood = sorted(outcome.report.in_order(), key=harm_of), outcome.understood
    asked = tuple(entry for entry in entries if entry.id in again)
    shown = tuple(first_of_each(entries))
    lines = {entry.line for entry in shown if may_be_wrong(entry)}
    return Look(
        seen, columns, (), outcome.obstacles, shown, totals_of(entries),
        days_of(entry.finding for entry in entries), understood.rows if understood else 0,
        sum(entry.part is ROW for entry in entries), understood.remembered if understood else (), outcome.after,
        changes_of(outcome, chosen), asked,
        cells_of(sheet, lines) if sheet else {}, tuple(kinds_found(entries)),
    )  # fmt: skip


def changes_of(outcome: Outcome, chosen: Chosen) -> Mapping[str, bytes]:
    return changes_by_animal(outcome, DROPS in dict(chosen.options))


def look_of(seen: Seen, columns: ColumnsView | None, mistake: Mistake) -> Look:
    """That of a sheet that can't be read."""
    if isinstance(mistake, ImportRefused):
        return Look(seen, columns, mistake.entries or mistake.told, mistake.obstacles)
    return Look(seen, columns, mistake.sentences)


def columns_of(
    book: Book, path: pathlib.Path, chosen: Chosen, folder: pathlib.Path
) -> tuple[ColumnsView | None, Sheet | None, Mistake | None]:
    """The columns as they are understood, with the sheet, or why the file can't be read at all."""
    try:
        return *columns_shown(book, path, import_options_of(folder, chosen), READING), None
    except Mistake as mistake:
        return None, None, mistake


@dataclass(frozen=True)
class Asked:
    """What somebody looked at and wants taken: the look's state, what it showed of each animal, none where that isn't
    known any more, and the token of the form."""

    seen: Seen
    by_animal: Mapping[str, bytes] | None
    form: str


def imported(folder: pathlib.Path, path: pathlib.Path, chosen: Chosen, asked: Asked, tell: Tell) -> Imported:
    """Takes a sheet, if it is read as at its look, if what others changed since then changes nothing of what it does to
    any animal, and if its form didn't take it. Others file while that is prepared, and it is put behind what they
    filed; where they filed something of its animals it is prepared anew. At the last try they wait, so that nobody who
    files keeps a sheet from being taken."""
    program = BookProgram()
    tell(Doing.TAKING)
    for _ in range(MOST_TRIES):
        with contextlib.suppress(Overtaken):
            return taken(folder, path, chosen, asked, program)
        # what was prepared in vain isn't kept beside what is prepared anew: by itself it would be looked for later
        gc.collect()
    return taken_alone(folder, path, chosen, asked, program)


def taken(folder: pathlib.Path, path: pathlib.Path, chosen: Chosen, asked: Asked, program: BookProgram) -> Imported:
    """What comes of one try beside others, who wait for the writing alone; raises `Overtaken`."""
    take_what_is_left(BOUNDS[TAKING].niceness)
    with to_prepare(folder, program) as book:
        stamp = stamp_of(book)
        found = prepared_for(book, path, chosen, asked, program)
        if isinstance(found, Imported):
            return found
        # from here on others wait for it
        take_as_others()
        saved = save_in_turn(folder, program, found)
        change, behind = saved.change, saved.behind.mark if saved.behind else NO_MARK
        is_seen = saved.behind is not None or saved.stamp == stamp
        whole = stamp_behind(folder, change) if is_seen else ()
        return Imported(change.number, mark=change.mark, whole=whole, behind=behind)


def taken_alone(
    folder: pathlib.Path, path: pathlib.Path, chosen: Chosen, asked: Asked, program: BookProgram
) -> Imported:
    """The same while others wait for all of it."""
    take_as_others()
    with to_change(folder, program) as book:
        stamp = stamp_of(book)
        found = prepared_for(book, path, chosen, asked, program)
        if isinstance(found, Imported):
            return found
        is_seen = stamp_of(book) == stamp
        change = save(book, program, found)
        return Imported(change.number, mark=change.mark, whole=stamp_behind(folder, change) if is_seen else ())


def prepared_for(
    book: Book, path: pathlib.Path, chosen: Chosen, asked: Asked, program: BookProgram
) -> Prepared | Imported:
    """The change that is to be made, or why none is."""
    before = made_by(book, asked.form)
    if before:
        return Imported(before.number)
    seen = seen_of(book, chosen)
    if seen.reading != asked.seen.reading:
        return Imported(0, read_otherwise=True)
    options = replace(import_options_of(book.folder, chosen), form=asked.form)
    outcome, prepared = import_sheet_into(book, read_file(path), options, program, bounded_reading)
    if seen.mark != asked.seen.mark:
        if asked.by_animal is None:
            return Imported(0, True)
        others = animals_otherwise(asked.by_animal, changes_of(outcome, chosen))
        if others:
            return Imported(0, otherwise=others)
    assert prepared is not None
    return prepared


def stamp_behind(folder: pathlib.Path, change: Change) -> Stamp:
    """The book and its file behind a change; nothing where it isn't the last one any more."""
    with book_in(folder) as book:
        return stamp_of(book) if mark_of(book) == change.mark else ()


def import_options_of(folder: pathlib.Path, chosen: Chosen) -> ImportOptions:
    """The options of the word `import` that stand for what was chosen."""
    texts = {name: text.strip() for name, text in chosen.options if text.strip() and name in SHEET_FIELDS}
    given = {SHEET_FIELDS[name].name: value_of(SHEET_FIELDS[name].kind, text) for name, text in texts.items()}
    columns = [one_cell(f"{name}={title}") for name, title in chosen.columns]
    others = [f"{title}={kind}" for title, kind in chosen.others]
    return ImportOptions.of(folder, {"columns": columns, "own": others, **given})


def read(reader: Callable[[str], Value], text: str) -> Value | None:
    """What a field says, none where it is empty."""
    return reader(text) if text else None


# what reads a field of each kind that is no text
READERS: dict[Kind, Callable[[str], object]] = {
    Kind.FLAG: bool,
    Kind.OWNERS: owners_of,
    Kind.LETTERS: functools.partial(read, three_letters),
    Kind.DAY: functools.partial(read, day),
    Kind.DAYS: functools.partial(read, days),
}


def value_of(kind: Kind, text: str) -> object:
    """What was written into a field, as the option has it."""
    if kind in (Kind.TEXTS, Kind.SEXES):
        return [text]
    return READERS[kind](text) if kind in READERS else text


def one_cell(text: str) -> str:
    """A text as a cell between commas."""
    written = io.StringIO()
    csv.writer(written, lineterminator="").writerow([text])
    return written.getvalue()
