"""What a change of a book's history did, in the words that a terminal and a page share."""
from __future__ import annotations

from gudokeyi.domain.changes import Change
from gudokeyi.domain.kinds import ChangeKind
from gudokeyi.services.history import numbers_taken_back

# with a place for its sheet, its backup, the changes that it took back, or the state that it brought back
DID = {
    ChangeKind.TAKE: "took the sheet {}",
    ChangeKind.PEDIGREE: "took the pedigree {}",
    ChangeKind.BIRTH: "filed a birth",
    ChangeKind.PARENTS: "filed parents",
    ChangeKind.TRANSFER: "filed a transfer",
    ChangeKind.EXIT: "filed an exit",
    ChangeKind.UNDO: "brought back the state after change {}",
    ChangeKind.RESTORE: "restored the backup {}",
    ChangeKind.FOLDER: "took over the folder of version 0.11",
    ChangeKind.CORRECTION: "corrected an animal",
    ChangeKind.BATCH: "filed commands of another program",
    ChangeKind.NOTE: "wrote a note",
    ChangeKind.OWN_VALUES: "wrote own columns",
    ChangeKind.OWN_COLUMNS: "set up own columns",
    ChangeKind.MEMBER: "changed an owner's record",
    ChangeKind.MERGE: "made one owner of two",
    ChangeKind.ERASURE: "erased what was personal of an owner",
    ChangeKind.LITTER: "filed a litter",
    ChangeKind.TAKEN_BACK: "took back change {}",
}
EMPTY_AGAIN = "brought back the empty book"


def message_of(change: Change) -> tuple[str, str | int]:
    """What it did, and what stands in that text's place, if it has one."""
    if change.kind is ChangeKind.UNDO and not change.undone_to:
        return EMPTY_AGAIN, ""
    named = change.source.name if change.source else change.undone_to or ", ".join(numbers_taken_back(change))
    return DID[change.kind], named
