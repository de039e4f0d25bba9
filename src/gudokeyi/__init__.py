"""The herd book of a breed society in a folder: kept from its spreadsheet, and asked by programs.

A book is opened by its folder, and answers with values that don't change:

    >>> import datetime, gudokeyi
    >>> book = gudokeyi.Book.open("book")
    >>> book.import_sheet("sheet.csv").animals
    200
    >>> book.animal("HA-17/3").coefficient.value
    Fraction(1, 16)
    >>> [mating.sire for mating in book.mating("HA-17/3").matings[:3]]
    ['B-4', 'B-9', 'B-2']
    >>> book.file(gudokeyi.Exit("HA-17/3", datetime.date(2024, 3, 1))).is_accepted
    True

Every refusal and every coefficient comes from the proved program `herdbook`; docs/TRUST.md says what is proved of it.
What is done here is comfort around it and isn't proved: reading spreadsheets, giving numbers, inferring days. Where a
value comes from stands with it: a day with its basis, a change with the file that it was made of and its digest.

Coefficients of inbreeding and kinships are fractions from 0 to 1, relationships from 0 to 2: exact, as the program
writes them. Days are `datetime.date`, ages and bounds are days. Sexes are M and F. An animal's id is the society's; its
registration number has nineteen characters. A parent that isn't known is an empty text, and counts as unrelated.

What can't be done is a `Mistake`, whose `sentences` say why and what to do; its kinds tell one from another. Nothing is
changed then. Nothing is printed, and nothing is set of the process: no signal handler, no limit, no garbage collection.
The command line and the pages in a browser are two faces of the same use cases.
"""
from __future__ import annotations

import importlib
import pathlib
import re
from typing import TYPE_CHECKING

HERE = pathlib.Path(__file__).resolve().parent

if TYPE_CHECKING:
    __version__: str
    from gudokeyi.domain.changes import Change as Change
    from gudokeyi.domain.findings import Entry as Entry, Finding as Finding, ImportRefused as ImportRefused
    from gudokeyi.domain.messages import Mistake as Mistake
    from gudokeyi.domain.mistakes import (
        AnimalAmbiguous as AnimalAmbiguous, AnimalNotFound as AnimalNotFound, BookNotWhole as BookNotWhole,
        BookUnusable as BookUnusable, InvalidValue as InvalidValue, MatingImpossible as MatingImpossible,
        NoBook as NoBook, OwnerNotFound as OwnerNotFound, ProgramFailed as ProgramFailed,
    )  # fmt: skip
    from gudokeyi.domain.refusals import MatingFault as MatingFault, Refusal as Refusal
    from gudokeyi.domain.seals import (
        CertificateRefused as CertificateRefused, CheckFault as CheckFault, PublishedSeal as PublishedSeal,
        Seal as Seal,
    )  # fmt: skip
    from gudokeyi.domain.settings import Setting as Setting
    from gudokeyi.reconcile.import_options import ImportOptions as ImportOptions
    from gudokeyi.services.library_values import (
        Animal as Animal, BreedState as BreedState, Certificate as Certificate, Contribution as Contribution,
        Filed as Filed, Imported as Imported, Kinship as Kinship, Mating as Mating, MatingAdvice as MatingAdvice,
        MatingPlan as MatingPlan, PlannedMating as PlannedMating, Restored as Restored,
    )  # fmt: skip
    from gudokeyi.services.book import Book as Book
    from gudokeyi.services.library_commands import (
        Birth as Birth, Command as Command, Exit as Exit, Parents as Parents, Transfer as Transfer,
    )  # fmt: skip
    from gudokeyi.services.pedigrees import Pedigree as Pedigree, read_pedigree as read_pedigree
    from gudokeyi.services.plans import PlanRules as PlanRules, Unmated as Unmated
    from gudokeyi.services.seals import (
        CheckedCertificate as CheckedCertificate, CheckedRecord as CheckedRecord,
        SealedCertificate as SealedCertificate, check_certificate as check_certificate,
    )  # fmt: skip
    from gudokeyi.services.tables import Table as Table
    from gudokeyi.store.coefficients import Coefficient as Coefficient

# where each name is: it is imported where it is first asked for, since a call of the command line needs few of them
PLACES = {
    "Book": "services.book",
    "Birth": "services.library_commands",
    "Parents": "services.library_commands",
    "Transfer": "services.library_commands",
    "Exit": "services.library_commands",
    "Command": "services.library_commands",
    "Animal": "services.library_values",
    "BreedState": "services.library_values",
    "Certificate": "services.library_values",
    "Coefficient": "store.coefficients",
    "Contribution": "services.library_values",
    "Filed": "services.library_values",
    "Imported": "services.library_values",
    "ImportOptions": "reconcile.import_options",
    "Kinship": "services.library_values",
    "Mating": "services.library_values",
    "MatingAdvice": "services.library_values",
    "MatingPlan": "services.library_values",
    "PlannedMating": "services.library_values",
    "PlanRules": "services.plans",
    "Unmated": "services.plans",
    "Restored": "services.library_values",
    "Pedigree": "services.pedigrees",
    "read_pedigree": "services.pedigrees",
    "Seal": "domain.seals",
    "PublishedSeal": "domain.seals",
    "SealedCertificate": "services.seals",
    "CheckedCertificate": "services.seals",
    "CheckedRecord": "services.seals",
    "check_certificate": "services.seals",
    "CertificateRefused": "domain.seals",
    "CheckFault": "domain.seals",
    "Table": "services.tables",
    "Change": "domain.changes",
    "Entry": "domain.findings",
    "Finding": "domain.findings",
    "Setting": "domain.settings",
    "Refusal": "domain.refusals",
    "MatingFault": "domain.refusals",
    "Mistake": "domain.messages",
    "AnimalAmbiguous": "domain.mistakes",
    "AnimalNotFound": "domain.mistakes",
    "BookNotWhole": "domain.mistakes",
    "BookUnusable": "domain.mistakes",
    "ImportRefused": "domain.findings",
    "InvalidValue": "domain.mistakes",
    "MatingImpossible": "domain.mistakes",
    "NoBook": "domain.mistakes",
    "OwnerNotFound": "domain.mistakes",
    "ProgramFailed": "domain.mistakes",
}
__all__ = ["__version__", *PLACES]


def __getattr__(name: str) -> object:
    if name == "__version__":
        return version()
    if name not in PLACES:
        raise AttributeError(f"module {__name__!r} has no attribute {name!r}")
    found: object = getattr(importlib.import_module(f"{__name__}.{PLACES[name]}"), name)
    globals()[name] = found
    return found


def __dir__() -> list[str]:
    return sorted({*globals(), *__all__})


def version() -> str:
    """It stands in the sources of the program alone; an installed package has it in the name of its metadata."""
    source = HERE.parents[1] / "crates/herd_command_line/src/help.rt"
    if source.is_file():
        found = re.search(r'^pub const VERSION: &str = "(.*)";$', source.read_text(encoding="utf-8"), re.MULTILINE)
    else:
        metadata = (path.name for path in HERE.parent.glob(f"{__name__}-*.dist-info"))
        found = re.search(f"{__name__}-(.*).dist-info", next(metadata, ""))
    return found[1] if found else "unknown"
