"""The kinds of what is found of a sheet, each under a heading that can stand alone, in the order of the harm that they
do; and of how many animals each tells."""
from __future__ import annotations

import enum
from collections.abc import Iterable, Mapping, Sequence
from dataclasses import dataclass

from gudokeyi.domain.findings import Entry, Finding, Severity, What
from gudokeyi.domain.kinds import Field
from gudokeyi.ingest.findings.cells import CellLeftOut, DayLeftOut, ErrorValue
from gudokeyi.ingest.findings.exits import ExitsWithoutDay
from gudokeyi.ingest.findings.rows import ExitInRemark
from gudokeyi.ingest.findings.sheets import CellsUnread, ErrorCells
from gudokeyi.reconcile.findings.by_hand import ValueChanged
from gudokeyi.reconcile.findings.own_columns import OwnCellUnread

# The kinds in the order of the harm that they do, by codes, of some with a field or a value too.


class Harm(enum.IntEnum):
    """What comes of findings that nobody looks at, the greatest harm first."""

    STOPS = 1
    # animals are lost, doubled, mixed up, or others than in the book
    ANIMALS = 2
    # and so are parents, by which coefficients change
    PARENTS = 3
    EXITS_AND_OWNERS = 4
    # what isn't read stays as the book has it, or isn't known
    LEFT_OPEN = 5
    NOTES = 6


HEADINGS: Mapping[Harm, Mapping[str, tuple[str, ...]]] = {
    Harm.STOPS: {
        "A column that is needed isn't found": ("columns lack", "named column lacks", "pedigree titles lack"),
        "Days have now the day and now the month first": ("wrong order", "one wrong order"),
        "Most cells of a column show an error": ("error column", "narrow column"),
        "Cells have a value that can't be read": (
            "cut number", "formula cell", "formulas without value", "stray bytes",
        ),
        "It isn't clear which worksheet is meant": ("worksheet unclear", "worksheet lacks"),
    },
    Harm.ANIMALS: {
        "Animals on other worksheets aren't read": ("worksheet unread",),
        "The ids are read from another column than before": ("ids moved", "ids from other"),
        "The ids only count the rows of the sheet": ("ids count rows",),
        "Animals may have exchanged their ids": ("ids exchanged",),
        "Animals that had left count as living again": ("exits withdrawn",),
        "Animals of the book have no row in this sheet": ("row is gone",),
        "Ids stand for another animal in the book or in another row": (
            "id used again", "id of another", "tag of another",
        ),
        "Birth days of the book move by years": ("birth moved by years",),
        "Animals of the book have another sex now": ("sex of another",),
        "Sexes don't fit the offspring": ("sex against offspring",),
        "Rows left out: another row has the same id": ("id again", "line again"),
        "Rows left out: they have no id that can be used": ("no id", "id too long", "unseen in id"),
        "Rows left out: they have more cells than there are titles": ("too many cells",),
        "Rows left out: the animals would be younger than their offspring": (
            "born after offspring", "line after offspring",
        ),
        "Rows left out: the sex can't be read": ("sex not known",),
        "Animals of the book may have new tags, and would be in it twice": (
            "new tag", "tag without sign", "old tag", "new tag beside row", "row of former id",
        ),
        "Two rows or animals may be the same animal": ("ids alike", "same but for sign", "name and day twice"),
        "Rows that may be no animals": ("like a sum", "id alone", "id unlike others", "animal after all"),
        "Rows that may be several animals": ("two ids",),
        "Ids or names seem to be miswritten": (
            "id with fewer digits", "id of another alphabet", "id to come", "ditto for text",
            "day for text", "ids as in book", "ids of other alphabet", "ids unlike others", "ids with fewer digits",
            "ids with more",
        ),
        "Long numbers have lost digits in the spreadsheet": ("digits lost", "id used often"),
        "Ids of the book lose the apostrophe before them": ("ids with apostrophe",),
        "Letters are lost or wrong": ("letters lost", "letters doubtful", "decoded twice"),
        "Days of a column aren't those that were written": ("days exchanged", "years as days"),
        "Text that is struck through is read all the same": ("struck through", "struck cells", "struck within"),
        "Rows marked as deleted are taken all the same": ("deleted rows",),
        "Animals of another breed are taken as the book's own": ("other breeds",),
        "A column that belongs to the book seems not to be read": ("field unread",),
        "Most animals have another value than before": ("most changed",),
        "Names change": ("value changed name",),
        "Sexes change": ("value changed sex",),
        "Birth days change": ("value changed birth day",),
    },
    Harm.PARENTS: {
        "The columns of sires and dams may be swapped": ("columns swapped",),
        "A column of sexes may be misread": ("one sex alone", "sex marks unread"),
        "Parents are read from another column than usual": ("parents from other",),
        "Parents change": ("value changed sire", "value changed dam"),
        "Parents left out: they can't be the parents": (
            "own ancestor", "same parent twice", "parent refused", "no sexes fit", "parents exchanged",
        ),
        "Parents left out: it isn't clear which animals are meant": (
            "either parent", "both parents", "named by relation", "not said to be parent", "carrier no dam",
            "parent not sure",
        ),
        "Words that may stand for unknown parents": (
            "may be unknown", "like no id", "title as parent", "more may be unknown",
        ),
        "Parents without a row may be animals that have one": ("name of animals", "name alike", "added as parent"),
        "Parents whose id and name are of different animals": ("parent named otherwise", "named otherwise beside"),
        "A second column of parents isn't read": ("parents beside", "genes differ", "carriers alone"),
        "Dams are read from the column of genetic dams": ("genetic dams read",),
        "Marks for the cell above may be misread": ("marks alone", "rows between marks", "marks are names"),
        "Castrated animals are sires": ("castrated sire",),
        "Parents were very young or very old at a birth": ("old parent", "young parent"),
        "Births of one dam are very close together": ("births too near", "births nearer than usual"),
        "Sires had left long before a birth": ("sire left long before",),
    },
    Harm.EXITS_AND_OWNERS: {
        "The column of exits isn't there any more": ("exits of lost column",),
        "Exits change": ("value changed exit",),
        "Owners change": ("value changed owner", "value changed owner since", "owners merged", "owner renamed"),
        "A column that may tell of exits isn't read": (
            "status unread", "status of codes", "living unmarked", "may be exits", "tells no exits",
            "stillborn unread", "causes unread", "exits since said",
        ),
        "Tables or worksheets of exits aren't read": ("exits beside", "exits below unread", "worksheet of exits"),
        "Remarks or headings tell of exits of animals that count as living": (
            "exits in remarks", "exit in remark", "exit column unread", "section of exits",
        ),
        "Exits seem to stand in other cells, such as the name": (
            "name tells of exit", "id tells of exit", "sex tells of exit", "death in birth", "birth of born dead",
            "born dead",
        ),
        "It isn't certain whether animals have left": (
            "exit in doubt", "buyer disagrees", "status disagrees", "states in doubt",
        ),
        "Exits can't be read, and the animals count as gone": ("cells unread exit", "day left out exit"),
        "A day beside other words counts as an exit": ("exits in other words",),
        "What stands for exits says something else, and the animals stay": ("no exits",),
        "Coloured or hidden rows are taken like all others": ("grey rows", "colored rows", "hidden rows"),
        "Very old animals count as living": ("old as living", "many old as living"),
        "Exits name an owner: is the animal with that one?": ("taker unclear", "owner in exit"),
        "Animals were sold to an owner of the society": (
            "sold within", "sold then left", "sold earlier", "owner sold", "owner after sale", "owners in turn",
        ),
        "Owners who may be one, written in two ways": (
            "owner respelt", "owner meant", "owner mistyped", "owners alike", "owners otherwise",
            "owner of book alike", "owner with more", "owner with initial", "owner of several", "owner of generation",
            "owners count up",
        ),
        "Owners that don't look like names": ("owner is no name", "owner for sale"),
        "Owners beside the column of owners aren't read": (
            "owners beside", "second owners unread", "owners of one name", "sections of owners",
        ),
        "First days with an owner are moved": ("owner day moved",),
        "Exits or changes of owner left out: they can't be so": ("command left out", "command refused"),
        "Animals left on a day that isn't known": ("exits without day",),
    },
    Harm.LEFT_OPEN: {
        "A column isn't found or isn't read, and the book keeps what it has": (
            "column lost", "own column lost", "said none", "entry days unread",
        ),
        "It isn't clear which of two columns is meant": ("likelier column", "title twice"),
        "A column with texts isn't read": ("column untitled", "title below", "corrections unread", "breeders not kept"),
        "It isn't certain whether days have the month first": ("no order shown",),
        "Cells can't be read": ("cells unread", "sexes unknown", "sex unread", "day left out", "embryo unread"),
        "Cells are left out: their text is too long": ("text too long",),
        "Cells show an error of the spreadsheet or ###": ("error value", "error cells", "narrow value", "narrow cells"),
        "Cells of the society's own columns can't be read": ("own cell unread", "own cells unread", "own numbers cut"),
        "Texts have become TRUE or FALSE in the spreadsheet": ("truth value",),
        "Sexes aren't certain": ("sexes unsure", "section of sex"),
        "It isn't certain whether animals are castrated": (
            "castrated in remarks", "castrated without sex", "castrated females",
        ),
        "Birth days aren't certain": ("section of births", "first days", "birth day inferred", "birth years disagree"),
        "Marks for the cell above have nothing above them": ("nothing repeated",),
    },
    Harm.NOTES: {
        "Exits are read from a second column or from rows below the list too": (
            "exit days read", "buyers read", "status read", "exits below",
        ),
        "Columns are read by what their cells say": ("parents by cells", "sexes by cells", "titles joined"),
        "Birth days are read from several columns": ("births joined", "birth years read"),
        "Days are read in the way that is told": ("days read so", "no days"),
        "Words for the sexes are read in the way that is told": (
            "castrated letter", "female letter", "sex words short", "castrations read",
        ),
        "Marks stand for the cell above": ("cells repeated",),
        "Texts of an own column read like days": ("own days among texts",),
        "Invisible characters are left out": ("apostrophes", "unseen dropped"),
        "The letters are read as an older Mac writes them": ("letters of mac",),
        "Notes at cells aren't read": ("notes at cells",),
        "Cells say that there is no name": ("no names",),
        "Rows that repeat the titles are left out": ("titles again",),
        "Rows that read like headings or notes are left out": ("note row",),
    },
}
# by each code its harm, its place among all, and its heading
PLACES = {
    code: (harm, at, heading)
    for at, (harm, heading, codes) in enumerate(
        (harm, heading, codes) for harm, those in HEADINGS.items() for heading, codes in those.items()
    )
    for code in codes
}
# what is of no such kind stands behind all others
NO_KIND = (Harm.NOTES, len(PLACES), "")


def kind_of(finding: Finding) -> tuple[Harm, int, str]:
    codes = f"{finding.code} {field_of(finding)}", finding.code
    return next((PLACES[code] for code in codes if code in PLACES), NO_KIND)


def field_of(finding: Finding) -> str:
    """The field or value by which a kind is another one, empty for most."""
    if isinstance(finding, CellsUnread):
        return finding.cells.field
    if isinstance(finding, ValueChanged):
        return finding.name
    return finding.field if isinstance(finding, DayLeftOut) else ""


def heading_of(finding: Finding) -> str:
    """Empty where it is of no kind that is summed up."""
    return kind_of(finding)[2]


def place_of(finding: Finding) -> tuple[Harm, bool, int]:
    """The greatest harm comes first, and of it that on which much else hangs."""
    harm, at, _ = kind_of(finding)
    return harm, not finding.comes_first(), at


# Of how many animals each kind tells.

# what of the book changes or goes is told among what may be wrong, though it is as the sheet says it
OF_BOOK = (What.CHANGED, What.GONE)
# the fields by which findings say of how many animals they tell; a parent has offspring of which it is sire and dam
COUNTS, OFFSPRING = ("animals", "count", "changed", "refused"), ("sire_of", "dam_of")


@dataclass(frozen=True, slots=True)
class KindFound:
    """A kind of what is found: its heading and its place, and of how many animals or rows it tells, 0 where nothing
    says."""

    heading: str
    place: int
    animals: int


def kinds_found(entries: Sequence[Entry]) -> list[KindFound]:
    """The kinds of what may be wrong, or changes something of the book, the greatest harm first."""
    summed_up = fields_summed_up(entries)
    found: dict[tuple[Harm, int, str], list[Entry]] = {}
    for entry in entries:
        finding = entry.finding
        if (finding.does() is not Severity.NONE or entry.what in OF_BOOK) and not is_summed_up(finding, summed_up):
            found.setdefault(kind_of(finding), []).append(entry)
    kinds = sorted((kind, those) for kind, those in found.items() if kind is not NO_KIND)
    return [KindFound(heading, at, animals_in(those)) for (_, at, heading), those in kinds]


def animals_in(entries: Iterable[Entry]) -> int:
    """Of how many animals or rows entries of one kind tell."""
    told, rows = 0, set[tuple[int, str]]()
    for entry in entries:
        count = count_in(entry.finding)
        told += count
        if not count and (entry.line or entry.id):
            rows.add((entry.line, entry.id))
    return told + len(rows)


def count_in(finding: Finding) -> int:
    """The number that a finding has, or its cells have; 0 where there is none."""
    told = [getattr(one, name, 0) for one in (finding, getattr(finding, "cells", None)) for name in COUNTS]
    counts = (count for count in told if isinstance(count, int) and count)
    return next(counts, sum(getattr(finding, name, 0) for name in OFFSPRING))


def fields_summed_up(entries: Iterable[Entry]) -> set[Field | type[ErrorCells]]:
    """The fields whose cells that can't be read are told in one sentence."""
    findings = [entry.finding for entry in entries]
    sums = {one.cells.field for one in findings if isinstance(one, (CellsUnread, ExitsWithoutDay))}
    return sums | {ErrorCells for one in findings if isinstance(one, ErrorCells)}


def is_summed_up(finding: Finding, summed_up: set[Field | type[ErrorCells]]) -> bool:
    # one finding for each column sums up those of its cells
    if isinstance(finding, OwnCellUnread | ExitInRemark):
        return True
    if isinstance(finding, ErrorValue):
        return ErrorCells in summed_up
    return isinstance(finding, CellLeftOut) and finding.summed_up_as() in summed_up
