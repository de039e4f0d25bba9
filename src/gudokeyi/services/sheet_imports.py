"""From a sheet to a book in its folder; and the end of each import: the book is filed, prepared to be saved where
nothing is refused, and told."""
from __future__ import annotations

import contextlib
import functools
import pathlib
from collections.abc import Callable
from dataclasses import dataclass

from gudokeyi.domain.changes import Option
from gudokeyi.domain.findings import Call, Entry, ImportRefused, Part, Report, StrictlyRefused, What
from gudokeyi.domain.kinds import Field, Remembered
from gudokeyi.ingest.births_beside import year_column
from gudokeyi.ingest.castrations import castration_columns
from gudokeyi.ingest.exits_beside import columns_beside, exit_day_columns, reasons_beside
from gudokeyi.ingest.files import GivenFile
from gudokeyi.ingest.findings.columns import ColumnUntitled, SheetFinding, TitleBelow
from gudokeyi.ingest.findings.columns_unread import EntryDaysUnread, MayBeExits
from gudokeyi.ingest.genetic_dams import genetic_columns
from gudokeyi.ingest.inferred_values import columns_of_inferred_values
from gudokeyi.ingest.names_for_ids import names_read
from gudokeyi.ingest.owners_beside import first_names_column
from gudokeyi.ingest.parents_beside import tell_parents_named_otherwise
from gudokeyi.ingest.texts import plain
from gudokeyi.process import keep
from gudokeyi.reconcile.all_animals import complete
from gudokeyi.reconcile.cells_as_notes import keep_as_notes
from gudokeyi.reconcile.commands import Filing
from gudokeyi.reconcile.earlier_sales import leave_earlier_sales
from gudokeyi.reconcile.exits import leave_out_early_exits, tell_most_changed, tell_withdrawn_exits
from gudokeyi.reconcile.findings.obstacles import StrictlyNothing
from gudokeyi.reconcile.findings.own_columns import BreedersNotKept
from gudokeyi.reconcile.findings.same_animals import IdsExchanged
from gudokeyi.reconcile.ids_as_in_book import call_as_in_book
from gudokeyi.reconcile.ids import call_as_now, give_numbers, letters_unsaid, numbers_begin
from gudokeyi.reconcile.import_options import (
    ImportOptions, again, limits_of, remember, remember_columns, remember_no_animals, remember_refused,
    remember_worksheet, rename_owners, with_settings,
)  # fmt: skip
from gudokeyi.reconcile.impossible_parents import leave_out_faulty_parents
from gudokeyi.reconcile.limits import Limits
from gudokeyi.reconcile.new_tags import call_anew
from gudokeyi.reconcile.next_book import NextBook
from gudokeyi.reconcile.lost_own_columns import tell_lost_own_columns
from gudokeyi.reconcile.own_sheet_columns import OwnSheetColumns, find_own_columns, take_own_values
from gudokeyi.reconcile.outcome import BookAfter, ColumnRead, Outcome, Understood
from gudokeyi.reconcile.owner_days import OwnerDays
from gudokeyi.reconcile.owner_words import tell_owners_of_like_words
from gudokeyi.reconcile.owners import (
    owners_of_rows, tell_born_dead, tell_doubtful_owners, tell_mistyped_owners, tell_owners_alike,
    tell_owners_for_sale, tell_owners_of_book_alike, tell_owners_with_more, tell_renamed_owners, tell_respelt_owners,
)  # fmt: skip
from gudokeyi.reconcile.owners_counted import tell_owners_counted
from gudokeyi.reconcile.parents import may_be_unknown
from gudokeyi.reconcile.pedigree_links import refuse_lost_links
from gudokeyi.reconcile.plausibility import PlausibilityChecks, tell_swapped_columns
from gudokeyi.reconcile.sexes import tell_sexes_of_others
from gudokeyi.reconcile.values_from_book import keep_unsaid
from gudokeyi.services.animals import is_of_breeders
from gudokeyi.services.book_program import BookProgram
from gudokeyi.services.output_files import check_place
from gudokeyi.services.prepared_changes import Prepared
from gudokeyi.services.saving import outcome_of, prepared_of
from gudokeyi.services.sheet_reading import LastReading, ReadSheet, read_animals, titles_before
from gudokeyi.store.book import Book
from gudokeyi.store.files import source_of
from gudokeyi.store.journal import Filed

# The end of an import: the book is filed, prepared to be saved where nothing is refused, and told.


@dataclass(frozen=True)
class About:
    """How `import` was called, how the file was read, in sentences, and of a sheet as data; what parents' ages are
    looked at for, and how many sexes and days of a pedigree are invented."""

    call: Call
    read: list[str]
    understood: Understood | None = None
    limits: Limits = Limits()
    invented: int = 0
    # reads the society's own columns and keeps some cells as notes, once animals have their numbers
    take_own: Callable[[], None] = lambda: None


def finish(
    next_book: NextBook, program: BookProgram, import_options: ImportOptions, given: GivenFile, about: About
) -> tuple[Outcome, Prepared | None]:
    """Files the book, and prepares what is written where nothing keeps it from being taken, and no preview is
    wished."""
    keep(next_book)
    filed, outcome = file(next_book, program, import_options, about)
    if import_options.preview:
        return outcome, None
    assert outcome.after
    source = source_of(given.path, given.data)
    return outcome, prepared_of(next_book, filed, program, import_options, source, outcome.after.new)


def file(
    next_book: NextBook, program: BookProgram, import_options: ImportOptions, about: About
) -> tuple[Filed, Outcome]:
    """The commands by which the book becomes what is wished, and what that makes of it. Nothing is written."""
    book, report = next_book.book, next_book.report
    refuse_unsaid_letters(next_book, import_options)
    give_numbers(next_book, import_options.breed, import_options.country)
    about.take_own()
    leave_out_early_exits(next_book)
    filing = Filing(next_book, OwnerDays(book, report, import_options.day))
    owners_before = set(book.owners)
    filed, told = filed_or_without_parents(filing, program, import_options.preview)
    if next_book.is_pedigree and not import_options.leave_out:
        refuse_lost_links(report)
    if about.understood:
        tell_swapped_columns(next_book, about.understood)
    if not next_book.is_pedigree:
        tell_plausibility(next_book, about.limits)
    report.entries += told
    filed = filed or filing.filed(program, import_options.preview)
    tell_owners(next_book, owners_before)
    tell_born_dead(next_book)
    tell_withdrawn_exits(next_book)
    if import_options.strict and any(entry.what is What.LEFT_OUT for entry in report.entries):
        refuse_left_out(next_book, import_options)
    tell_renamed_owners(next_book)
    filing.tell_changes()
    tell_sexes_of_others(next_book)
    tell_most_changed(next_book)
    drop_besides_left_out(report)
    after = book_after(next_book, filed, import_options, about)
    return filed, Outcome(
        book.folder, about.call.after(), about.understood, tuple(about.read), tuple(next_book.obstacles), report, after,
        next_book.own_values,
    )  # fmt: skip


def filed_or_without_parents(
    filing: Filing, program: BookProgram, is_preview: bool
) -> tuple[Filed | None, list[Entry]]:
    """What is filed where nothing is refused; else the parents that can't be are left out, and what stays is to be
    filed. Answers besides what was told of owners' days, which comes behind what may be wrong."""
    next_book, report, last = filing.next_book, filing.next_book.report, filing.next_book.last_found
    has_journal, told_before = bool(next_book.book.journal.length), len(report.entries)
    # parents that a look before left out are most likely refused again
    are_refused = has_journal and last.are_parents_refused
    filed = None if are_refused else filing.filed_at_once(program, is_preview)
    told = report.cut_off(told_before) if has_journal else []
    if filed is None:
        are_refused = leave_out_faulty_parents(next_book, program, are_refused or filing.refuses_births)
    last.are_parents_refused = are_refused
    return filed, told


def drop_besides_left_out(report: Report) -> None:
    """Of a row that is left out nothing else is told, as that a cell of it is read, or is to be written otherwise."""
    rows = {(one.line, one.id) for one in report.entries if one.line and one.part is Part.ROW}
    if rows:
        report.entries = [one for one in report.entries if (one.line, one.id) not in rows or not is_of_row(one)]


def is_of_row(entry: Entry) -> bool:
    """Does it tell of what the row says, as it is read, and not of other rows?"""
    of_others = isinstance(entry.finding, SheetFinding | IdsExchanged)
    return entry.what in (What.WARNING, What.INFERRED) and not of_others


def tell_plausibility(next_book: NextBook, limits: Limits) -> None:
    """What may be wrong of animals that are taken as they stand."""
    checks = PlausibilityChecks(next_book.animals, limits, next_book.report, last=next_book.last_found)
    checks.tell_births(next_book.book, next_book.rows_otherwise())
    checks.tell(next_book.book, "exit" in next_book.given)


def tell_owners(next_book: NextBook, owners_before: set[str]) -> None:
    """What may be wrong of owners' names, beside those that the book had."""
    rows = owners_of_rows(next_book)
    tell_respelt_owners(next_book, owners_before, rows)
    tell_owners_alike(next_book, rows)
    tell_mistyped_owners(next_book, owners_before, rows)
    tell_owners_of_book_alike(next_book, owners_before, rows)
    tell_owners_with_more(next_book, owners_before, rows)
    tell_owners_of_like_words(next_book, owners_before, rows)
    tell_doubtful_owners(next_book, owners_before, rows)
    tell_owners_counted(next_book, owners_before, rows)
    tell_owners_for_sale(next_book)


def refuse_unsaid_letters(next_book: NextBook, import_options: ImportOptions) -> None:
    """No book begins with letters that nobody said."""
    unsaid = letters_unsaid(next_book, import_options.breed, import_options.country)
    if unsaid is None:
        return
    next_book.obstacles.append(unsaid)
    if not import_options.preview:
        raise ImportRefused(unsaid)


def book_after(next_book: NextBook, filed: Filed, import_options: ImportOptions, about: About) -> BookAfter:
    new = next_book.new_rows
    return BookAfter(
        len(next_book.animals), new, about.invented, bool(next_book.book.records) and filed.keeps is not None,
        numbers_begin(next_book, import_options.breed, import_options.country), import_options.drop_gone,
        next_book.rows, len(next_book.new) - new,
    )  # fmt: skip


def refuse_left_out(next_book: NextBook, import_options: ImportOptions) -> None:
    report = next_book.report
    obstacle = StrictlyNothing(report.left_out())
    if import_options.preview:
        next_book.obstacles.append(obstacle)
        return
    left_out = [entry for entry in report.in_order() if entry.what is What.LEFT_OUT]
    raise StrictlyRefused(left_out, obstacle, *may_be_unknown(report))


# From a sheet to a book in its folder.


# the option by which rows are no animals
NO_ANIMAL = "--no-animal"
# within which a sheet is read
Bounds = Callable[[], contextlib.AbstractContextManager[None]]


def import_sheet(
    file: GivenFile, import_options: ImportOptions, program: BookProgram, bounds: Bounds = contextlib.nullcontext
) -> tuple[Outcome, list[str]]:
    """Takes a sheet, or sees what would be taken for a preview: answers that, and what is to be told besides. An
    `ImportRefused` says why nothing is taken."""

    def prepare(book: Book) -> tuple[Outcome, Prepared | None]:
        return import_sheet_into(book, file, import_options, program, bounds)

    return outcome_of(import_options, program, prepare)


def import_sheet_into(
    book: Book, file: GivenFile, import_options: ImportOptions, program: BookProgram,
    bounds: Bounds = contextlib.nullcontext, last: LastReading | None = None,
) -> tuple[Outcome, Prepared | None]:  # fmt: skip
    """What a sheet makes of a book, and the change that is to be made, none for a preview. `last` is what this process
    read of a sheet before, where it looks again and again."""
    check_place(book, file.path)
    book.read_all()
    import_options = with_settings(book, import_options)
    words = remember(book, import_options)
    rename_owners(book, import_options)
    renamed = call_anew(book, import_options.new_tags)
    with bounds():
        read = read_animals(file, import_options, book, words, last)
    keep(book, read)
    read.report.entries += [Entry(0, "", found) for found in renamed]
    next_book = next_book_of(book, read, last)
    complete(next_book, read.columns, import_options)
    tell_parents_named_otherwise(read.columns, next_book.animals, next_book.report)
    own = find_own_columns(book, read.columns, import_options.own)
    leave_known_days(read, own, next_book.report)
    taken = read.rows.no_animals.taken
    used = [one for one in again(words, import_options) if one.option != NO_ANIMAL or plain(one.word) not in taken]
    used += [Option("--worksheet", read.sheet.as_before)] * bool(read.sheet.as_before)
    tell_columns_not_kept(read, own, next_book)
    lacks_own = tell_lost_own_columns(book, own, read.columns, next_book.report)
    understood = understood_of(file.path, read, used, {} if lacks_own else titles_before(book), own)
    remember_places(book, read, import_options, next_book.lost_exits if next_book.kept_exits else ())

    def take_own() -> None:
        take_own_values(next_book, own, read.sheet, bool(words[Remembered.MONTH_FIRST]))
        keep_as_notes(next_book, dict(read.columns.titles_found()), read.rows.remarks())

    call = import_options.call(str(file.path))
    about = About(call, understood.lines(), understood, limits_of(words), take_own=take_own)
    return finish(next_book, program, import_options, file, about)


def next_book_of(book: Book, read: ReadSheet, last: LastReading | None) -> NextBook:
    """The animals of the rows, with what these don't say and the book has."""
    call_as_now(read.animals, book, read.report)
    call_as_in_book(read.animals, book, read.report)
    next_book = NextBook(
        book, read.animals, set(read.columns.found), read.report, read.rows.cells.days, in_book=read.in_book,
        last_found=last.found if last else None,
    )  # fmt: skip
    leave_earlier_sales(next_book)
    are_other_rows = keep_unsaid(next_book)
    if last and book.society_records:
        # a row that says what the book has doesn't name an animal by an id of before
        next_book.compare(last.rows_of(book), frozenset() if are_other_rows else last.same_rows(book))
    return next_book


def remember_places(book: Book, read: ReadSheet, import_options: ImportOptions, lost_exits: tuple[str, ...]) -> None:
    """From which worksheet and columns the next sheet is read, and which columns aren't; `lost_exits` are the titles of
    columns that it may have again."""
    sheet, found = read.sheet, read.columns.found
    places = [found[Field.EXIT], *exit_day_columns(sheet, found)] if Field.EXIT in found else []
    exits, is_first = [sheet.titles[at] for at in places], titles_before(book).get(Field.EXIT) in lost_exits
    exits = [*lost_exits, *exits] if is_first else [*exits, *lost_exits]
    remember_columns(book, dict(read.columns.titles_found()), exits)
    remember_no_animals(book, read.rows.no_animals.left_out, read.rows.no_animals.taken)
    remember_refused(book, import_options, read.columns.refused)
    remember_worksheet(book, import_options.worksheet, read.sheet.worksheets)


def leave_known_days(read: ReadSheet, own: OwnSheetColumns, report: Report) -> None:
    """Days that the society keeps as a column of its own aren't told as what may be exits, or owners' first days."""
    kept = {read.sheet.titles[at] for at in own.places.values()}
    entries = [
        one for one in report.entries
        if isinstance(one.finding, MayBeExits | EntryDaysUnread) and one.finding.title in kept
    ]  # fmt: skip
    for one in entries:
        report.entries.remove(one)


def tell_columns_not_kept(read: ReadSheet, own: OwnSheetColumns, next_book: NextBook) -> None:
    tell_breeders(read, own, next_book)
    tell_titles_below(read, own, next_book.report)


def tell_breeders(read: ReadSheet, own: OwnSheetColumns, next_book: NextBook) -> None:
    """A column of breeders isn't kept, which has others than the owners by whom they are found, and nobody said that it
    shan't be."""
    if any(is_of_breeders(one.title) for one in own.after):
        return
    titles = enumerate(read.sheet.titles)
    for at in [at for at, title in titles if is_of_breeders(title) and read.columns.is_free(at)][:1]:
        rows = zip(read.sheet.rows, read.sheet.column(at))
        said = {row.line: text for row, text in rows if text and text not in read.rows.unknown}
        if others := other_breeders(said, next_book):
            line, text = others[0]
            next_book.report.add(0, "", BreedersNotKept(read.sheet.titles[at], len(others), line, text))


def tell_titles_below(read: ReadSheet, own: OwnSheetColumns, report: Report) -> None:
    """Titles that the first row of titles lacks, and whose columns aren't read."""
    sheet = read.sheet
    others = {*read.columns.found.values(), *own.places.values(), *places_beside(read)} if sheet.added else set[int]()
    for at, line in sheet.added.items():
        rows = zip(sheet.rows, sheet.column(at))
        said = [(row.line, text) for row, text in rows if text not in ("", sheet.titles[at])]
        if said and at not in others:
            report.add(line, "", TitleBelow(sheet.titles[at], sheet.line, len(said), *said[0]))


def other_breeders(said: dict[int, str], next_book: NextBook) -> list[tuple[int, str]]:
    """Those of some lines who aren't the owner of the dam, or of a founder its own one, as the sheet has these."""
    animals, respelt = next_book.animals, next_book.book.respelt
    compared = functools.cache(lambda owner: plain(respelt(owner)))
    rows = [animal for animal in animals.values() if animal.line in said]
    owners = ((one.line, animals.get(one.dam) if one.dam else one) for one in rows)
    of_lines = {line: compared(one.owner_before or one.owner) if one else "" for line, one in owners}
    return sorted((line, said[line]) for line, owner in of_lines.items() if compared(said[line]) != owner)


def places_beside(read: ReadSheet) -> list[int]:
    """The columns that are read beside those of fields."""
    sheet, found = read.sheet, read.columns.found
    beside = [*columns_beside(sheet, found), *year_column(sheet, found), *castration_columns(sheet, found)]
    beside += [*columns_of_inferred_values(sheet, found), *genetic_columns(sheet, found)]
    return [*beside, *names_read(sheet, found, read.rows.unknown)]


def understood_of(
    path: pathlib.Path, read: ReadSheet, remembered: list[Option], before: dict[str, str], own: OwnSheetColumns
) -> Understood:
    sheet, columns = read.sheet, read.columns
    of_reasons = reasons_beside(sheet.titles, read.columns.found)
    kept = tuple(sheet.titles[at] for at in sorted({*own.places.values(), *of_reasons}))
    first_names = first_names_column(sheet, columns.found)
    with_owners = "" if first_names is None else sheet.titles[first_names]
    beside = [*(sheet.titles[at] for at in places_beside(read)), with_owners]
    titles = tuple(
        ColumnRead(Field(name), title, with_owners if name == Field.OWNER else "")
        for name, title in columns.titles_found()
    )
    return Understood(
        str(path),
        len(sheet.rows),
        sheet.line,
        sheet.how,
        titles,
        tuple(title for title in columns.titles_not_read() if title not in {*kept, *beside}),
        tuple(remembered),
        dict(columns.titles_found()) == before,
        kept,
        tuple(one.letters for one in columns.notes if isinstance(one, ColumnUntitled)),
    )
