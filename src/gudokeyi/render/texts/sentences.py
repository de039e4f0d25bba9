"""Sentences of mistakes as pages say them in English, where a terminal's words don't serve there."""
from __future__ import annotations

from gudokeyi.domain.messages import Message
from gudokeyi.domain.requests import Mating, Naming, NotSuch, WebFault
from gudokeyi.domain.seals import SealFault
from gudokeyi.engine.messages import ProgramFault
from gudokeyi.ingest.messages import SheetFault
from gudokeyi.reconcile.messages import ImportFault
from gudokeyi.store.messages import AccountFault, BackupFault, BookFault, NotWhole

SENTENCES: dict[Message, str] = {
    BookFault.DAMAGED: "the book's file is damaged: nothing is touched. Restore a backup: whoever opened the desk can do it.",
    BookFault.NO_ROOM: "there is no room for the book on its disk: nothing is changed",
    BookFault.BUSY: "the book is being changed by somebody else for {minutes} minutes: try again later",
    BookFault.CLOSED: "the book's file can't be written: nothing is changed. Whoever opened the desk has to be allowed to",
    BookFault.OTHER: "the book's file can't be used: nothing is changed",
    BookFault.UNSURE: (
        "the book's file can't be written or read any more. Whether change {change} is in it can't be seen now: repair "
        "the disk, and look at the history"
    ),
    BookFault.CANT_BE_READ: "the book's file can't be read ({error}): whoever opened the desk has to be allowed to",
    BookFault.ALWAYS_CHANGED: "the book is changed all the time by somebody else: try again later",
    BookFault.NO_BOOK: "there is no book any more: take a sheet first",
    BookFault.ONLY_SHEET: "The page of sheets takes it.",
    BookFault.NO_FOLDER: "the folder {folder} isn't there: make it, and try again",
    BookFault.FILE_IN_PLACE: "{path} isn't of a book, and one in the folder {folder} would write over it: move it away",
    BookFault.COEFFICIENTS_LACK: "the book keeps {kept} of {there}, so it isn't whole. Restore a backup: whoever opened the desk can do it.",
    NotWhole.FAULT: "{fault}",
    NotWhole.WHAT_TO_DO: "the book isn't whole: nothing is changed. Restore a backup: whoever opened the desk can do it.",
    NotWhole.SHOWN: (
        "the book isn't whole: what is shown may be wrong, and no certificate is printed. Restore a backup: whoever "
        "opened the desk can do it."
    ),
    NotWhole.NOT_PRINTED: "the book isn't whole: nothing is printed. Restore a backup: whoever opened the desk can do it.",
    NotWhole.STATE: "The journal has {animals} of the animals otherwise, the first is {first}.",
    NotWhole.COEFFICIENTS: "The program has {coefficients} of the kept coefficients otherwise, the first is {first}'s.",
    ProgramFault.NOT_THERE: "the program herdbook isn't where it was: open the desk anew",
    ProgramFault.IS_FOLDER: "where the program herdbook was there is a folder: open the desk anew",
    ProgramFault.NOT_BUILT: "the program herdbook isn't built: open the desk anew",
    ProgramFault.NOT_BUILT_HERE: "the program herdbook isn't built: whoever looks after this machine calls {script} in a terminal",
    ProgramFault.NOT_FOUND: "the program herdbook {version} isn't on this machine: install the package gudokeyi, which has it",
    ProgramFault.OTHER: "the program herdbook doesn't answer, or is of another version: install the one that belongs to the front desk",
    ProgramFault.CANT_RUN: "the program herdbook can't be run ({error})",
    ProgramFault.TOO_LONG: (
        "the program herdbook wasn't done after {minutes} minutes, and was ended: has the machine nothing else to do? "
        "Nothing is changed"
    ),
    ProgramFault.CANT_DO: "the program herdbook can't do it ({told}). Nothing is changed",
    ProgramFault.REPLIES_LACK: "the program herdbook answered {replies} of {commands}: nothing is changed",
    ProgramFault.REPLY_DIFFERS: (
        "the program's reply to command {place} isn't the stored one: nothing goes on. Restore a backup: whoever "
        "opened the desk can do it."
    ),
    SealFault.NOT_SEALED: (
        "{id} isn't in the book whose seal was published on {day}: publish the seal of now, and ask for its "
        "certificate then"
    ),
    BackupFault.NO_BOOK: "there is no book in {path}: choose a copy that was saved here",
    BackupFault.NOT_READ: "{path} can't be read: {error}",
    BackupFault.DAMAGED: "{path} is damaged, or isn't a copy of a book: nothing is changed",
    BackupFault.NOT_RESTORED: "{path} can't be restored: nothing is changed",
    Naming.IS_FILE: "the book has no animal '{word}': search for a part of its id or name",
    Naming.SEVERAL: "{count} animals have the name '{word}': write the id of the one that you mean: {ids}",
    Naming.WITH_BLANKS: "several begin so: write the whole id or name",
    Naming.MANY_PARTS: "the page of animals finds those that have it in their ids or names",
    Naming.FIND: "the page of animals finds a part of an id, a name or an owner",
    Naming.FIND_OWNERS: "the page of animals finds owners by a part of the name",
    Naming.AS_IN_BOOK: "write one as the book has it",
    NotSuch.LETTERS_OF: "'{text}' isn't three letters A to Z",
    Mating.WRONG_SEX: "{animals} can't be {role}",
    Mating.TOO_MANY_PAIRS: "these are {pairs} pairs, and at most {most} are compared: ask for older animals alone",
    Mating.NOT_A_DAM: "{dam}: {refusal} (fault {number}): choose a female",
    Mating.NAME_ONE_OR_LEFT: "ask for those that left too",
    Mating.NAME_IN_FILE: "take a sheet that has some",
    Mating.NONE_SO_OLD: "none is so old: ask for fewer days",
    Mating.ASSUMED_AGE: (
        "Assumed: parents are {days} days old at least, as nineteen of twenty of the book's {parents} were at their "
        "first offspring. Left out as too young: {count}."
    ),
    Mating.ASSUMED_YEAR: "Assumed: parents are {days} days old at least. Left out as too young: {count}.",
    Mating.ASSUMED_MOST: "Assumed: no sire has more than {most} dams, twice as many as if all had the same.",
    WebFault.NO_PORT: "port {port} can't be used ({told})",
    SheetFault.NO_WORKSHEETS: "{path} is no .xlsx file, and has no worksheets: leave the field of the worksheet empty",
    SheetFault.CANT_BE_READ: "{path} can't be read: {error}",
    SheetFault.NO_WORKBOOK: "{path} can't be read as an .xlsx file: save the sheet as CSV, and take that",
    SheetFault.COLUMN_OPTION: "a column is named wrongly: '{part}'",
    SheetFault.SEX_OPTION: "words for the sexes: '{part}' isn't written as WORD=m, WORD=f or WORD=mc (castrated)",
    ImportFault.OWNER_OPTION: "owners: '{word}' isn't written as OLD=NEW, as Meier=Meyer",
    ImportFault.OWNER_LACKS: "owners: the book has no owner '{before}': its owners are {owners}",
    ImportFault.NO_OWNERS: "owners: no animal of the book has an owner yet",
    ImportFault.OWNER_IS_THERE: "owners: the book has '{name}' too, as another owner: undo the import that brought it, and then say this again",
    ImportFault.NEW_TAG_OPTION: "new tags: {word}: write OLD=NEW, as 012=345",
    ImportFault.NEW_TAG_LACKS: "new tags: the book has no animal with the id {before}",
    ImportFault.NEW_TAG_IS_THERE: "new tags: the book has another animal with the id {now}",
    ImportFault.SHEET_TOO_LARGE: (
        "the sheet and the book have {animals} animals together, and a book holds at most {most}: leave out animals "
        "that aren't ancestors of any other. To leave out ancestors, such as the oldest animals, changes coefficients"
    ),
    ImportFault.PEDIGREE_TOO_LARGE: "the pedigree and the book have {animals} animals together, and a book holds at most {most}",
    ImportFault.KEEP_FEWER: "where not all animals are needed, leave out those that aren't ancestors of these",
    AccountFault.NONE_THERE: "there are no accounts here",
    AccountFault.NO_ACCOUNT: "there is no account '{name}'",
    AccountFault.FIRST_IS_KEEPER: "the first account is a keeper's",
    AccountFault.CANT_BE_USED: "the accounts can't be read or written",
    AccountFault.CLOSED: "the accounts can't be written: nothing is changed",
    AccountFault.READ_BY_OTHERS: "the file of accounts may be read by others: its owner has to close it, and to give new passwords",
}
