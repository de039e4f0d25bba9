"""An import of a sheet or of a geneticist's pedigree: the file, the options, and what it makes of a book."""
from __future__ import annotations

import contextlib
import pathlib

from gudokeyi.domain.findings import Call
from gudokeyi.ingest.files import (
    MOST_BACKUP_BYTES as MOST_BACKUP_BYTES, MOST_BYTES as MOST_BYTES, GivenFile, read_file as read_file,
)  # fmt: skip
from gudokeyi.ingest.findings.same_ids import IdUsedAgain as IdUsedAgain
from gudokeyi.ingest.pedigree_files import given_file
from gudokeyi.ingest.titles import parts_of as parts_of, read_given as read_given, read_sexes as read_sexes
from gudokeyi.ingest.unknown_parents import unknown_words
from gudokeyi.ingest.words import CASTRATED_MALE as CASTRATED_MALE
from gudokeyi.reconcile.findings.obstacles import LettersUnsaid as LettersUnsaid
from gudokeyi.reconcile.findings.by_hand import YoungParent as YoungParent
from gudokeyi.reconcile.findings.plausibility import BirthsNearerThanUsual as BirthsNearerThanUsual
from gudokeyi.reconcile.findings.plausibility import BirthsTooNear as BirthsTooNear
from gudokeyi.reconcile.import_options import ImportOptions as ImportOptions, rename_owners as rename_owners
from gudokeyi.reconcile.outcome import BookAfter as BookAfter, Outcome as Outcome
from gudokeyi.services.book_program import BookProgram
from gudokeyi.services.sheet_imports import Bounds as Bounds, import_sheet
from gudokeyi.store.transactions import anew_where_a_book_came


def is_unknown(text: str) -> bool:
    """Does a text stand for an unknown parent by itself?"""
    return text.casefold() in unknown_words([])


class Import:
    """An import of one file, which is read once."""

    def __init__(self, path: pathlib.Path, options: ImportOptions, is_pedigree: bool = False) -> None:
        self.options, self.is_pedigree = options, is_pedigree
        self.file: GivenFile = given_file(path, is_pedigree=is_pedigree)

    @property
    def is_workbook(self) -> bool:
        """Is the file an .xlsx file, to read which another package is needed?"""
        return not self.is_pedigree and self.file.is_workbook()

    def call(self) -> Call:
        """How it is called in a terminal."""
        return self.options.call(*["--pedigree"] * self.is_pedigree, str(self.file.path))

    def made(self, program: BookProgram, bounds: Bounds = contextlib.nullcontext) -> tuple[Outcome, list[str]]:
        """What it makes of the book, or for a preview would make; and what is to be told besides. The file is read
        within bounds. An `ImportRefused` says why nothing is taken."""
        importing = import_sheet
        if self.is_pedigree:
            # an import of a sheet would wait for it
            from gudokeyi.services.pedigree_imports import import_pedigree as importing
        return anew_where_a_book_came(lambda: importing(self.file, self.options, program, bounds))
