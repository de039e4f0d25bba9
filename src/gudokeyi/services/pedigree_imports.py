"""From a geneticist's pedigree, `id sire dam`, to a book in its folder."""
from __future__ import annotations

import contextlib

from gudokeyi.domain.findings import ImportRefused, Obstacle, Report
from gudokeyi.domain.kinds import Field
from gudokeyi.domain.messages import Mistake, counted
from gudokeyi.ingest.day_cells import DayCells
from gudokeyi.ingest.files import GivenFile
from gudokeyi.ingest.pedigree_files import READ, STANDARD_INPUT
from gudokeyi.ingest.pedigrees import Triples, read_triples
from gudokeyi.ingest.titles import read_given
from gudokeyi.reconcile.all_animals import add_others
from gudokeyi.reconcile.birth_days import find_days, invent_days
from gudokeyi.reconcile.doubtful_founders import Counts, founders_in_doubt
from gudokeyi.reconcile.guards import OtherAnimals
from gudokeyi.reconcile.import_options import ImportOptions, with_settings
from gudokeyi.reconcile.unknown_parents import unknown_parents
from gudokeyi.reconcile.impossible_parents import cut_cycles
from gudokeyi.reconcile.next_book import NextBook
from gudokeyi.reconcile.outcome import Outcome
from gudokeyi.reconcile.pedigree_links import (
    keep_with_ancestors, leave_out_same_parent, refuse_alike, refuse_both, refuse_lost_links, refuse_named,
    refuse_used_ids,
)  # fmt: skip
from gudokeyi.reconcile.sexes import find_sexes, invent_sexes
from gudokeyi.services.book_program import BookProgram
from gudokeyi.services.output_files import check_place
from gudokeyi.services.prepared_changes import Prepared
from gudokeyi.services.saving import outcome_of
from gudokeyi.services.sheet_imports import About, Bounds, finish
from gudokeyi.store.book import Book


def import_pedigree(
    file: GivenFile, import_options: ImportOptions, program: BookProgram, bounds: Bounds = contextlib.nullcontext
) -> tuple[Outcome, list[str]]:
    """The same of a pedigree as of a sheet."""

    def prepare(book: Book) -> tuple[Outcome, Prepared | None]:
        return import_pedigree_into(book, file, import_options, program, bounds)

    return outcome_of(import_options, program, prepare)


def import_pedigree_into(
    book: Book, file: GivenFile, import_options: ImportOptions, program: BookProgram, bounds: Bounds
) -> tuple[Outcome, Prepared | None]:
    """What a pedigree makes of a book, and the change that is to be made, none for a preview."""
    call = import_options.call("--pedigree", str(file.path))
    check_place(book, file.path)
    book.read_all()
    report = Report()
    unknown = unknown_parents(book, import_options.unknown, import_options.known)
    days = DayCells(unknown, month_first=False)
    import_options = with_settings(book, import_options)
    with bounds():
        triples = read_triples(file, given_columns(import_options.columns), unknown, book.society_records, report)
        animals, about = triples.animals, [*triples.told]
        ids = animals.keys() | book.society_records.keys()
        if import_options.keep:
            about.append(keep_with_ancestors(animals, import_options.keep))
            report.entries = [entry for entry in report.entries if entry.id in animals]
        if not import_options.leave_out:
            refuse_alike(animals, ids)
            refuse_named(animals, ids, book)
        given = {field.value for field in triples.columns if field is not Field.ID}
        next_book = NextBook(book, animals, given, report, days, is_pedigree=True)
        if not import_options.anyway:
            those = [] if import_options.leave_out else [*animals.values()]
            doubtful = founders_in_doubt(those, Counts.of(those), ids, unknown)
            refuse_others(next_book, import_options, doubtful)
    add_others(next_book, import_options.drop_gone)
    if not import_options.leave_out:
        refuse_both(animals, report)
    # what is told of both are the parents of the file
    leave_out_same_parent(animals, report)
    cut_cycles(animals, report)
    counts = find_sexes_and_days(next_book, triples)
    if not import_options.leave_out:
        refuse_lost_links(report)
    about += invented("standard input" if file.path == STANDARD_INPUT else str(file.path), counts)
    invented_for = max(counts.values(), default=0)
    return finish(next_book, program, import_options, file, About(call, about, invented=invented_for))


def refuse_others(next_book: NextBook, import_options: ImportOptions, doubtful: list[Obstacle]) -> None:
    """A mistake where the animals of the file look like others than those of the book that have their ids, or where
    some founders are doubtful."""
    refuse_used_ids(next_book.animals, next_book.book, doubtful)
    found = doubtful + [*OtherAnimals(next_book.book, next_book.animals, next_book.given).of_both()]
    next_book.obstacles += found
    if found and not import_options.preview:
        raise ImportRefused(*found)


def given_columns(words: list[str]) -> dict[Field, str]:
    """The titles that `--columns` names for fields of a pedigree."""
    given = {Field(field): title for field, title in read_given(words).items()}
    others = [field.value for field in given if field not in READ]
    if others:
        fields = ", ".join(field.value for field in READ)
        raise Mistake(f"--columns {others[0]}=: of a pedigree the columns {fields} are read")
    return given


def find_sexes_and_days(next_book: NextBook, triples: Triples) -> dict[Field, int]:
    """Sexes and days of the file, and those that it doesn't give inferred; without a column for them they are invented
    where the book wasn't given them either. Answers for how many animals they are invented."""
    animals, report, counts = next_book.animals, next_book.report, {}
    if Field.SEX in triples.columns:
        find_sexes(next_book)
    else:
        counts[Field.SEX] = sum(not animal.sex for animal in animals.values())
        invent_sexes(animals, report)
    # where a day is known the others fit it
    before = next_book.book.society_records.values()
    if Field.BIRTH in triples.columns or any(not animal.birth.is_invented for animal in before):
        find_days(next_book)
    else:
        counts[Field.BIRTH] = len(animals)
        invent_days(animals)
    return {field: count for field, count in counts.items() if count}


def invented(path: str, counts: dict[Field, int]) -> list[str]:
    """What is invented, in a sentence where it is for as many animals."""
    fields = {Field.SEX: "sexes", Field.BIRTH: "birth days"}
    words: dict[int, list[str]] = {}
    for field, count in counts.items():
        words.setdefault(count, []).append(fields[field])
    return [
        f"{path}: the {' and '.join(what)} of {counted(count, 'animal')} are invented so that parents are older than "
        "their offspring"
        for count, what in words.items()
    ]
