"""What may be set of an import, of a plan of matings and of a list: each once, with how it is written and what it does.
The words of a terminal, the fields of forms, and what the history calls an option are made from it."""
from __future__ import annotations

import enum
from collections.abc import Iterable
from typing import NamedTuple


class Kind(enum.Enum):
    """How a value is written."""

    # what is chosen or isn't
    FLAG = "flag"
    TEXT = "text"
    # several, each time that the option is given
    TEXTS = "texts"
    # the same, of which each says what an owner is written as
    OWNERS = "owners"
    # the same, with words for the sexes
    SEXES = "sexes"
    # three capital letters
    LETTERS = "letters"
    FILE = "file"
    # a day that has come, and any days from one to another
    DAY = "day"
    SPAN = "span"
    # numbers of days, and of others; a bound may be none
    DAYS = "days"
    BOUND = "bound"
    COEFFICIENT = "coefficient"
    SEX = "sex"


class Described(NamedTuple):
    """`name` is that of the option without its dashes, `shape` what stands behind it, `help` what a terminal says of
    it; `label` is what pages call it, and `hint` what a form says below its field. `field` is its name in the code
    where it isn't that of the option."""

    name: str
    kind: Kind
    shape: str
    help: str
    label: str = ""
    hint: str = ""
    field: str = ""

    @property
    def option(self) -> str:
        return f"--{self.name}"

    @property
    def attribute(self) -> str:
        return self.field or self.name.replace("-", "_")

    @property
    def in_form(self) -> str:
        """The name of a form's field."""
        return self.name.replace("-", "_")


def by_name(described: Iterable[Described]) -> dict[str, Described]:
    return {one.name: one for one in described}


NUMBERS = (
    "the {} of all numbers, the book's too [as they are; new ones as set, as in the book, or as the variable "
    "GUDOKEYI_NUMBERS says, as SKUDEU; else it is asked]"
)
# in the order in which a terminal has them
IMPORT = by_name(
    (
        Described("keep", Kind.FILE, "FILE", (
            "of a pedigree only the animals that this file names, one id a line, and their ancestors"
        ), "Only the animals of a file, and their ancestors"),
        Described("leave-out", Kind.FLAG, "", (
            "take a pedigree without the links that can't stand in a book, and parents as founders that may have a "
            "line, which changes coefficients"
        ), "Without the links that can't stand in a book"),
        Described("columns", Kind.TEXTS, "FIELD=TITLE,..", (
            "titles for id, name, sex, birth, sire, dam, owner, since, exit, embryo"
        ), "Columns"),
        Described("unknown", Kind.TEXTS, "WORD,..", "more words for an unknown parent",
            "Words for an unknown parent", "besides the usual ones, as ?, NN, unknown; with commas between them"),
        Described("known", Kind.TEXTS, "WORD,..", (
            "words that are no words for an unknown parent: takes back one of --unknown"
        ), "Words that are animals' names", "though they are usual for an unknown parent"),
        Described("owner", Kind.OWNERS, "OLD=NEW", "an owner of the book is written otherwise, as 'Meier=Meyer'",
            "An owner is written otherwise now", "as Meier=Meyer; with semicolons between several", field="owners"),
        Described("sexes", Kind.SEXES, "WORD=m,..", (
            "more words for the sexes, as Aue=f,Bk=m,Ka=mc, which is castrated"
        ), "More words for the sexes", "as Aue=f,Bk=m,Ka=mc; mc is castrated"),
        Described("no-animal", Kind.TEXTS, "WORD,..", (
            "rows with such a word, as Summe, are no animals, and are left out, also later"
        ), "Rows that are no animals", "a word of each, as Total; with commas between them"),
        Described("animal", Kind.TEXTS, "WORD,..", "rows with such a word are animals: takes back one of --no-animal",
            "Rows that are animals after all", "words that were said of rows before"),
        Described("new-tag", Kind.TEXTS, "OLD=NEW,..", "an animal of the book has another id from now on",
            "Animals with a new tag", "the old one and the new one, as 012=345; with commas between several",
            field="new_tags"),
        Described("own", Kind.TEXTS, "TITLE=KIND", (
            "keep another column, also later, as text, number, day, yes-no or choice; as none it isn't kept"
        ), "Other columns"),
        Described("worksheet", Kind.TEXT, "NAME", "the worksheet of an .xlsx file [the one whose titles fit]",
            "Worksheet", "of an .xlsx file with several"),
        Described("month-first", Kind.FLAG, "", "days such as 03/25/2001 have the month first [the day], also later",
            "Days as 03/25/2001 have the month first"),
        Described("day-first", Kind.FLAG, "", "such days have the day first: takes back --month-first of before",
            "They have the day first, whatever was said before"),
        Described("anyway", Kind.FLAG, "", (
            "take the sheet though it looks like another one than the book's: another flock, another id, an older one; "
            "or a pedigree many of whose parents have no line"
        ), "It is the right sheet: take it though it looks like another one"),
        Described("youngest", Kind.DAYS, "DAYS", "report parents that were younger at a birth, also later [180]",
            "Youngest age of a parent, in days", "younger ones are told; else 180"),
        Described("apart", Kind.DAYS, "DAYS", "report births of one dam that are nearer, also later [100]",
            "Days between births of one dam", "nearer ones are told; else 100"),
        Described("breed", Kind.LETTERS, "ABC", NUMBERS.format("breed"),
            "Breed in the numbers", "three letters, as SKU"),
        Described("country", Kind.LETTERS, "ABC", NUMBERS.format("country"),
            "Country in the numbers", "three letters, as DEU"),
        Described("day", Kind.DAY, "DAY", "the day on which owners changed [today, which is inferred]",
            "Owners changed on", "else today"),
        Described("preview", Kind.FLAG, "", "report what would change and what may be wrong, and write nothing",
            "Only looked at"),
        Described("strict", Kind.FLAG, "", "take nothing where anything would be left out",
            "Only if nothing is left out"),
        Described("semicolons", Kind.FLAG, "", "write report.csv with semicolons, as some spreadsheets want it",
            "The report with semicolons"),
        Described("drop-gone", Kind.FLAG, "", (
            "drop animals of the book that have no row any more and aren't ancestors of any that has one"
        ), "Drop animals of the book that have no row any more"),
        Described("append", Kind.FLAG, "", "the sheet has rows that are new alone: animals of the book without one aren't gone",
            "The sheet has new rows only"),
    )
)  # fmt: skip
# the order in which a book stores those that were given
AS_STORED = (
    "columns", "own", "unknown", "known", "sexes", "owner", "no-animal", "animal", "new-tag", "breed", "country", "day",
    "keep", "worksheet", "youngest", "apart", "strict", "drop-gone", "append", "semicolons", "leave-out", "month-first",
    "day-first", "anyway", "preview",
)  # fmt: skip
# those that the page of a sheet has, but for its columns
ON_PAGE = (
    "unknown", "known", "sexes", "no-animal", "animal", "new-tag", "owner", "breed", "country", "day", "youngest",
    "apart",
    "worksheet", "month-first", "day-first", "append", "drop-gone", "anyway",
)  # fmt: skip

PLAN = by_name(
    (
        Described("most-for-a-sire", Kind.BOUND, "N", (
            "no sire has more dams than these, or `any` [twice as many as if all had the same]"
        ), "Most dams for a sire", "usually twice as many as if all sires had the same; empty for any"),
        Described("at-most", Kind.COEFFICIENT, "F", "no offspring is above this, as 1/16 or 0.0625 [any]",
            "No coefficient above", "as 1/16 or 0.0625; empty for any"),
        Described("minimum-age", Kind.DAYS, "DAYS", (
            "leave out younger animals, 0 for none [as old as parents of the book are at their first offspring]"
        ), "Youngest age in days",
            "proposed is how old parents of the book were at their first offspring; empty for any"),
        Described("kinship-weight", Kind.COEFFICIENT, "W", (
            "count a sire's mean kinship with the living so much of a coefficient [0]"
        )),
    )
)  # fmt: skip

LIST = by_name(
    (
        Described("living", Kind.FLAG, "", "only living animals that have a row", "only living"),
        Described("sex", Kind.SEX, "SEX", "only males or females, m or f", "Sex"),
        Described("owner", Kind.TEXT, "NAME", "only the animals of an owner", "Owner"),
        Described("born", Kind.SPAN, "FROM..TO", "only animals born so, as 2010..2019", "Born"),
    )
)  # fmt: skip
# the order in which the page of animals has them
LIST_ON_PAGE = ("sex", "owner", "born", "living")
