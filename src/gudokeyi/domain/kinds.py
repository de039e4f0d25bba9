"""The kinds of things that a book knows, each a word of its own: what an animal is in it, what is kept of it, and the
two roles of a parent."""
from __future__ import annotations

import enum

from gudokeyi.domain.messages import Worded

# The kinds of things that a book knows, each a word of its own: what an animal is in it, and what is kept of it.


class Standing(Worded):
    """What an animal is in the book."""

    # it has a row in the last sheet
    ROW = "row"
    # it had one before
    GONE = "gone"
    # it is a parent that never had one
    PARENT = "parent"
    # it was filed by hand, and no sheet had it yet
    FILED = "filed"
    # it isn't in the book any more; its number is kept
    DROPPED = "dropped"

    def words(self) -> str:
        return STANDINGS[self]

    def had_row(self) -> bool:
        return self in (Standing.ROW, Standing.GONE)

    def is_listed(self) -> bool:
        """Is it one of the society's own, which lists and advice name?"""
        return self in (Standing.ROW, Standing.FILED)


STANDINGS = {
    Standing.ROW: "has a row",
    Standing.GONE: "has no row any more",
    Standing.PARENT: "a parent without a row",
    Standing.FILED: "filed by hand",
    Standing.DROPPED: "dropped",
}


class Field(enum.StrEnum):
    """What a sheet has a column for. `since` is the day since which the owner has the animal."""

    ID = "id"
    NAME = "name"
    SEX = "sex"
    BIRTH = "birth"
    SIRE = "sire"
    DAM = "dam"
    OWNER = "owner"
    SINCE = "since"
    EXIT = "exit"
    EMBRYO = "embryo"
    # words such as `lives` and `sold`, beside a column of exits
    STATUS = "status"


class CommandKind(enum.Enum):
    BIRTH = "birth"
    PARENTS = "parents"
    TRANSFER = "transfer"
    EXIT = "exit"


class ChangeKind(enum.Enum):
    """What made a change."""

    TAKE = "take"
    PEDIGREE = "pedigree"
    BIRTH = "birth"
    PARENTS = "parents"
    TRANSFER = "transfer"
    EXIT = "exit"
    UNDO = "undo"
    RESTORE = "restore"
    # a folder of version 0.11 was taken over
    FOLDER = "folder"
    # anything of one animal was corrected
    CORRECTION = "correction"
    # commands of another program
    BATCH = "batch"
    # a note on one, or the values of one in the society's own columns
    NOTE = "note"
    OWN_VALUES = "own values"
    # which such columns there are
    OWN_COLUMNS = "own columns"
    # what is known of an owner, two that become one, and what was personal of one is gone
    MEMBER = "member"
    MERGE = "merge"
    ERASURE = "erasure"
    # the births of one dam on a day
    LITTER = "litter"
    # some changes were undone, and none that came later
    TAKEN_BACK = "taken back"


class ExitReason(enum.StrEnum):
    """Why an animal left, where somebody said it."""

    DIED = "died"
    SLAUGHTERED = "slaughtered"
    # to an owner outside of the society
    SOLD = "sold"
    LOST = "lost"
    # it was born dead
    STILLBORN = "stillborn"


class Remembered(enum.Enum):
    """What a book remembers of how its sheets are read: for each a word, and what it stands for."""

    # words of the options --columns, --unknown and --sexes, as they were given
    COLUMNS = "columns"
    UNKNOWN = "unknown"
    SEXES = "sexes"
    # that days with / have the month first
    MONTH_FIRST = "month-first"
    # words that stand for animals, though they are usual words for an unknown parent
    KNOWN = "known"
    # how old parents are at least, and how far births of one dam are from one another, in days
    YOUNGEST = "youngest"
    APART = "apart"
    # an owner's name, and how it is written now
    OWNER = "owner"
    # a field, and the title of its column, empty where there is none
    COLUMN = "column"
    # a word of rows that seem to be no animals, and that they are none: these are left out
    TOLD = "told"
    # the worksheet that somebody named, and all that the file had
    WORKSHEET = "worksheet"


# The two roles of a parent.


class Role(enum.StrEnum):
    SIRE = "sire"
    DAM = "dam"

    @property
    def sex(self) -> str:
        """The letter of the sex that such a parent has."""
        return "M" if self is Role.SIRE else "F"


class Doing(enum.StrEnum):
    """The parts of work that aren't those of the breed's measures."""

    COLUMNS = "columns"
    CHANGES = "changes"
    TAKING = "taking"
    COEFFICIENTS = "coefficients"
    RESTORING = "restoring"


# what is kept of the cells of a row, beside its id
CELL_FIELDS = tuple(field for field in Field if field not in (Field.ID, Field.STATUS))
