"""What members of enums are called on pages, and within findings."""
from __future__ import annotations

import enum
from collections.abc import Mapping
from typing import Any

from gudokeyi.domain.findings import What
from gudokeyi.domain.kinds import STANDINGS, ChangeKind, CommandKind, Doing, ExitReason, Field, Role, Standing
from gudokeyi.domain.own_columns import OwnKind
from gudokeyi.domain.people import AccountRole
from gudokeyi.domain.provenance import BirthSource, ExitSource, SexSource
from gudokeyi.domain.refusals import MATING_FAULTS, REFUSALS, MatingFault, Refusal
from gudokeyi.domain.wording import Word
from gudokeyi.ingest.days import DayFault
from gudokeyi.ingest.findings.days import DayReading
from gudokeyi.ingest.findings.sheets import Advice
from gudokeyi.reconcile.findings.obstacles import Changed, LooksLike
from gudokeyi.reconcile.findings.own_columns import OWN_ADVICE
from gudokeyi.services.facts import Fact
from gudokeyi.services.plans import Step, Unmated

# members of findings
OF_FINDINGS: dict[enum.Enum, str] = {
    # of these findings tell the text with them
    DayFault.NO_DAY: "'{}' is no day: write it as 2001-03-01",
    DayFault.TWO_DIGITS: "'{}' has two digits of the year: write all four",
    DayFault.NUMBER: "'{}' is a number: give the column the format of a date, and save the sheet again",
    DayFault.YEAR: "the year {} isn't one of 1900 to 2199",
    DayFault.WRONG_ORDER: "'{}' has the day and the month in the other order",
    DayFault.AFTER_TODAY: "{} is after today",
    DayFault.BEFORE_BIRTH: "{} is before its birth",
    DayFault.WITHIN_BEFORE_BIRTH: "the day in '{}' would be before its birth",
    DayFault.WORD_ALONE: "'{}' has no day",
    DayFault.WORD_WITH_NUMBERS: "'{}' has no single day with a year of four digits",
    DayFault.OTHER_EVENT: "'{}' tells of another event than a birth: write the day of birth alone",
    DayReading.TWO_DIGITS: "two digits of the year",
    DayReading.SERIAL: "a spreadsheet's number for a day",
    DayReading.TOGETHER: "day, month and year without signs between",
    DayReading.WITHIN: "a day and a text",
    DayReading.ONE_OF: "one of several days",
    DayReading.UNSURE: "a day that isn't certain",
    DayReading.PERIOD_WITHIN: "a text with a month, a week or a season",
    DayReading.YEAR_ALONE: "a text of which the year alone can be read",
    DayReading.OTHER_ORDER: "day and month in the other order than elsewhere",
    BirthSource.GIVEN: "as given",
    BirthSource.PERIOD: "from a month or year",
    BirthSource.OFFSPRING: "from its offspring",
    BirthSource.PARENTS: "from its parents",
    BirthSource.EARLIEST: "the earliest that it can be, since no parent and no offspring has one",
    BirthSource.NEAREST: "the nearest to the book's that an exit leaves open",
    BirthSource.INVENTED: "invented",
    ExitSource.GIVEN: "as given",
    ExitSource.PERIOD: "from a month or year",
    ExitSource.UNKNOWN_DAY: "day unknown",
    SexSource.GIVEN: "as given",
    SexSource.SIRE: "since it is a sire",
    SexSource.DAM: "since it is a dam",
    SexSource.BOOK: "as in the book",
    SexSource.NOTHING: "since nothing else is known",
    SexSource.INVENTED: "invented",
    LooksLike.ANOTHER_FLOCK: "it looks like the sheet of another flock",
    LooksLike.ANOTHER_ID: "it looks like the same animals with another id: choose the column that has the book's ids",
    LooksLike.OLDER_SHEET: "it looks like an older sheet: each of its animals is in the book, and the youngest are missing",
    LooksLike.PART: "it looks like a part of the flock",
    LooksLike.PARENTS_BY_NAME: "the parents seem to be written by their names: choose the column that has the animals' names",
    LooksLike.PARENTS_BY_ANOTHER_ID: (
        "it looks like another id than that of the column that is read: choose the one in which the parents' cells are "
        "found"
    ),
    LooksLike.IDS_AND_MORE: "the cells seem to have both an id and a name: write only the ids in the parents' columns",
    LooksLike.SORTED_APART: (
        "it looks like a sheet some of whose columns were sorted without the others, or like that of another flock: "
        "compare these rows with the book"
    ),
    LooksLike.IDS_OTHERWISE: (
        "it looks like the same animals, whose ids differ in case, blanks or zeros: write them as in the book"
    ),
    Changed.NAMES_AND_BIRTH_DAYS: "names and birth days",
    Changed.BIRTH_DAYS: "birth days",
    Changed.NAMES: "names, which are those of others,",
    Changed.PARENTS: "parents, or none,",
    Changed.SEXES: "sexes",
    Advice.SEX: "write M or F",
    Advice.BIRTH: "write days as 2001-03-01 or 01.03.2001, or 03.2001 or 2001 alone; or choose another column",
    Advice.EXIT: (
        "such an animal counts as gone; write days as 2001-03-01 or 01.03.2001, a word such as sold where the day "
        "isn't known, and nothing or alive where the animal hasn't left; or choose another column"
    ),
    Advice.SINCE: "write days as 2001-03-01 or 01.03.2001; or choose another column",
    Advice.EMBRYO: "write 1 or nothing; or choose another column",
    **OWN_ADVICE,
}

# what pages name
COMMANDS = {
    CommandKind.BIRTH: "Birth",
    CommandKind.PARENTS: "Correction of parents",
    CommandKind.TRANSFER: "New owner",
    CommandKind.EXIT: "Exit",
}

# what is filed by hand, and may be refused
CHANGES = {ChangeKind(kind.value): name for kind, name in COMMANDS.items()} | {
    ChangeKind.CORRECTION: "Correction", ChangeKind.NOTE: "Note", ChangeKind.OWN_VALUES: "Own columns",
    ChangeKind.OWN_COLUMNS: "Own columns", ChangeKind.MEMBER: "Owner", ChangeKind.MERGE: "Owners",
    ChangeKind.ERASURE: "Erase personal data",
    ChangeKind.LITTER: "Litter",
}  # fmt: skip

EXIT_REASONS = {
    ExitReason.DIED: "died",
    ExitReason.SLAUGHTERED: "slaughtered",
    ExitReason.SOLD: "sold out of the society",
    ExitReason.LOST: "lost",
    ExitReason.STILLBORN: "stillborn",
}

FIELDS = {
    Field.ID: "Id",
    Field.NAME: "Name",
    Field.SEX: "Sex",
    Field.BIRTH: "Birth day",
    Field.SIRE: "Sire",
    Field.DAM: "Dam",
    Field.OWNER: "Owner",
    Field.SINCE: "Owner since",
    Field.EXIT: "Exit",
    Field.EMBRYO: "Stored embryo",
    Field.STATUS: "Status",
}

FACTS = {
    Fact.ID: "id",
    Fact.STANDING: "in the book",
    Fact.SEX: "sex",
    Fact.NUMBER: "number",
    Fact.NAME: "name",
    Fact.BIRTH_DAY: "birth day",
    Fact.SIRE: "sire",
    Fact.DAM: "dam",
    Fact.OWNER: "owner",
    Fact.OWNER_SINCE: "owner since",
    Fact.EXIT: "exit",
    Fact.EXIT_REASON: "reason of the exit",
    Fact.EMBRYO: "stored embryo",
    Fact.CASTRATED: "castrated",
    Fact.BIRTH_BASIS: "basis of the birth day",
    Fact.SEX_BASIS: "basis of the sex",
    Fact.WRITTEN_SIRE: "sire in the sheet",
    Fact.WRITTEN_DAM: "dam in the sheet",
    Fact.WRITTEN_EXIT: "exit in the sheet",
    Fact.BY_HAND: "filed by hand",
}

GROUPS = {
    What.WARNING: "May be wrong",
    What.NEW: "New",
    What.CHANGED: "Changed",
    What.LEFT_OUT: "Left out",
    What.INFERRED: "Inferred",
    What.GONE: "Gone",
    What.ADDED: "Added as parents",
}

UNMATED = {
    Unmated.REFUSED: "Not mated, since the register refuses a mating with each of the sires:",
    Unmated.ABOVE: "Not mated, since each coefficient would be above the one allowed:",
    Unmated.NO_ROOM: "Not mated, since the sires have as many dams as they may:",
}

STEPS = {
    Step.MEAN_KINSHIPS: "The mean kinships are computed.",
    Step.BIRTH_YEARS: "The birth years are gone through.",
    Step.GENERATIONS: "The generations are counted.",
    Step.FOUNDERS: "The founders and ancestors are looked for.",
}

DOINGS = {
    Doing.COLUMNS: "The columns are read.",
    Doing.CHANGES: "The rows are compared with the book.",
    Doing.TAKING: "The book is written.",
    Doing.COEFFICIENTS: "The coefficients are computed.",
    Doing.RESTORING: "The copy is compared with the register.",
}

ACCOUNT_ROLES = {
    AccountRole.INSPECTOR: "inspector",
    AccountRole.CLERK: "clerk",
    AccountRole.KEEPER: "keeper",
}

ROLES = {Role.SIRE: "Sire", Role.DAM: "Dam"}

WORDS = {
    Word.MALE: "male",
    Word.FEMALE: "female",
    Word.UNKNOWN: "unknown",
    Word.NONE: "none",
    Word.YES: "yes",
    Word.NO_DAY: OF_FINDINGS[ExitSource.UNKNOWN_DAY],
}
# what work tells as its parts begin, by what comes from another process
STEPS_OF_WORK: dict[str, str] = {str(part): text for part, text in [*STEPS.items(), *DOINGS.items()]}
# by their kinds, since members of two kinds may be equal
OWN_KINDS = {
    OwnKind.TEXT: "text",
    OwnKind.NUMBER: "number",
    OwnKind.DAY: "day",
    OwnKind.YES_OR_NO: "yes or no",
    OwnKind.CHOICE: "a choice",
    OwnKind.NONE: "not kept",
}
NAMES: dict[type[enum.Enum], Mapping[Any, str]] = {
    AccountRole: ACCOUNT_ROLES, ChangeKind: CHANGES, OwnKind: OWN_KINDS, ExitReason: EXIT_REASONS,
    CommandKind: COMMANDS, Doing: DOINGS, Fact: FACTS, Field: FIELDS, MatingFault: MATING_FAULTS, Refusal: REFUSALS,
    Role: ROLES, Standing: STANDINGS, Step: STEPS, Unmated: UNMATED, What: GROUPS, Word: WORDS,
    **{type(member): OF_FINDINGS for member in OF_FINDINGS},
}  # fmt: skip
