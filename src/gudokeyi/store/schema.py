"""The tables of `book.sqlite`, by version: each script makes of a file of the version before it one of its own."""
from __future__ import annotations

import enum

from gudokeyi.domain.kinds import ChangeKind, CommandKind, ExitReason, Remembered, Standing
from gudokeyi.domain.own_columns import OwnKind
from gudokeyi.domain.provenance import BirthSource, ExitSource, OwnerDay, SexSource
from gudokeyi.domain.settings import JPEG, PNG
from gudokeyi.store.views import VIEWS

# what tells a herd book from other databases: HERD
APPLICATION = 0x48455244


def one_of(column: str, kinds: type[enum.Enum]) -> str:
    """The check that a column has one of the words of an enum, the first of which is the usual one. For `IN` SQLite
    would make a table of the words for each statement, and look for each row's word in it."""
    words = " OR ".join(f"{column} = '{kind.value}'" for kind in kinds)
    return f"CHECK ({words})"


DAY = "GLOB '[12][0-9][0-9][0-9]-[01][0-9]-[0-3][0-9]'"
NUMBER = "GLOB '[A-Z][A-Z][A-Z][A-Z][A-Z][A-Z][MF][0-9A-Z]*'"

# Changes and the journal only grow. A row of the state holds from the change `since` on, and where it doesn't hold any
# more up to before the change `until`: so the state after each change is there.
FIRST = f"""
CREATE TABLE edition (
    edition INTEGER PRIMARY KEY CHECK (edition >= 1),
    predecessor INTEGER REFERENCES edition CHECK (predecessor < edition),
    keeps INTEGER NOT NULL CHECK (keeps >= 0),
    CHECK (predecessor IS NOT NULL OR keeps = 0)
) STRICT;

CREATE TABLE change (
    change INTEGER PRIMARY KEY CHECK (change >= 1),
    kind TEXT NOT NULL {one_of('kind', ChangeKind)},
    -- microseconds since 1970 began, in universal time
    time INTEGER NOT NULL,
    login TEXT NOT NULL,
    -- the journal after it: an edition up to a length
    edition INTEGER NOT NULL REFERENCES edition,
    length INTEGER NOT NULL CHECK (length >= 0),
    file TEXT,
    path TEXT,
    digest TEXT CHECK (length(digest) = 64),
    -- whose state an undo brings back; 0 is the empty book
    undone_to INTEGER CHECK (undone_to >= 0 AND undone_to < change),
    CHECK ((file IS NULL) = (digest IS NULL) AND (file IS NULL) = (path IS NULL)),
    CHECK ((kind = '{ChangeKind.UNDO.value}') = (undone_to IS NOT NULL))
) STRICT;

CREATE TABLE given_option (
    change INTEGER NOT NULL REFERENCES change,
    place INTEGER NOT NULL,
    option TEXT NOT NULL,
    word TEXT NOT NULL,
    PRIMARY KEY (change, place)
) STRICT, WITHOUT ROWID;

CREATE TABLE counted (
    change INTEGER NOT NULL REFERENCES change,
    what TEXT NOT NULL,
    count INTEGER NOT NULL CHECK (count >= 0),
    PRIMARY KEY (change, what)
) STRICT, WITHOUT ROWID;

CREATE TABLE told (
    change INTEGER NOT NULL REFERENCES change,
    place INTEGER NOT NULL,
    kind TEXT NOT NULL,
    part TEXT NOT NULL,
    line INTEGER NOT NULL CHECK (line >= 0),
    id TEXT NOT NULL,
    -- an object of texts
    fields TEXT NOT NULL CHECK (json_valid(fields)),
    PRIMARY KEY (change, place)
) STRICT, WITHOUT ROWID;

CREATE TABLE command (
    edition INTEGER NOT NULL REFERENCES edition,
    place INTEGER NOT NULL CHECK (place >= 1),
    kind TEXT NOT NULL {one_of('kind', CommandKind)},
    animal TEXT NOT NULL CHECK (length(animal) = 19 AND animal {NUMBER}),
    day TEXT CHECK (day {DAY}),
    sire TEXT CHECK (length(sire) = 19 AND sire {NUMBER}),
    dam TEXT CHECK (length(dam) = 19 AND dam {NUMBER}),
    giver INTEGER CHECK (giver BETWEEN 1 AND 99999999),
    taker INTEGER CHECK (taker BETWEEN 1 AND 99999999),
    embryo INTEGER NOT NULL CHECK (embryo IN (0, 1)),
    -- the reply: the number of the refusal, or 0 where it was accepted
    refusal INTEGER NOT NULL CHECK (refusal BETWEEN 0 AND 16),
    CHECK ((kind = 'parents') = (day IS NULL)),
    CHECK (kind IN ('birth', 'parents') OR (sire IS NULL AND dam IS NULL)),
    CHECK ((kind IN ('birth', 'transfer')) = (taker IS NOT NULL)),
    CHECK ((kind = 'transfer') = (giver IS NOT NULL)),
    CHECK (kind = 'birth' OR embryo = 0),
    PRIMARY KEY (edition, place)
) STRICT, WITHOUT ROWID;

CREATE TABLE owner (
    herd INTEGER PRIMARY KEY CHECK (herd BETWEEN 1 AND 99999998),
    name TEXT NOT NULL UNIQUE
) STRICT;

CREATE TABLE animal (
    animal INTEGER PRIMARY KEY,
    id TEXT NOT NULL CHECK (id <> ''),
    since INTEGER NOT NULL REFERENCES change,
    until INTEGER REFERENCES change CHECK (until > since),
    number TEXT NOT NULL CHECK (length(number) = 19 AND number {NUMBER}),
    name TEXT NOT NULL,
    -- the id and the name in small letters, by which it is found
    folded_id TEXT NOT NULL,
    folded_name TEXT NOT NULL,
    standing TEXT NOT NULL {one_of('standing', Standing)},
    birth_source TEXT NOT NULL {one_of('birth_source', BirthSource)},
    birth_period TEXT,
    birth_no_such_day TEXT,
    exit_source TEXT NOT NULL {one_of('exit_source', ExitSource)},
    exit_period TEXT,
    exit_no_such_day TEXT,
    exit_text TEXT,
    sex_source TEXT NOT NULL {one_of('sex_source', SexSource)},
    castrated INTEGER NOT NULL CHECK (castrated IN (0, 1)),
    written_sire TEXT NOT NULL,
    written_dam TEXT NOT NULL,
    by_hand TEXT NOT NULL,
    owner_day TEXT NOT NULL {one_of('owner_day', OwnerDay)},
    -- what the register has, none of it for one that was dropped
    born TEXT CHECK (born {DAY}),
    sire TEXT CHECK (length(sire) = 19 AND sire {NUMBER}),
    dam TEXT CHECK (length(dam) = 19 AND dam {NUMBER}),
    embryo INTEGER CHECK (embryo IN (0, 1)),
    herd INTEGER CHECK (herd BETWEEN 1 AND 99999999),
    owned_since TEXT CHECK (owned_since {DAY}),
    giver INTEGER CHECK (giver BETWEEN 1 AND 99999999),
    departed TEXT CHECK (departed {DAY}),
    CHECK ((birth_source = 'period') = (birth_period IS NOT NULL)),
    CHECK ((exit_source = 'period') = (exit_period IS NOT NULL)),
    CHECK ((exit_source = 'unknown day') = (exit_text IS NOT NULL)),
    CHECK ((standing = 'dropped') = (born IS NULL)),
    CHECK ((born IS NULL) = (embryo IS NULL) AND (born IS NULL) = (herd IS NULL)),
    CHECK ((born IS NULL) = (owned_since IS NULL)),
    UNIQUE (id, since)
) STRICT;
CREATE UNIQUE INDEX animal_id ON animal (id) WHERE until IS NULL;
CREATE UNIQUE INDEX animal_number ON animal (number) WHERE until IS NULL;
CREATE INDEX animal_folded_id ON animal (folded_id) WHERE until IS NULL;
CREATE INDEX animal_folded_name ON animal (folded_name) WHERE until IS NULL AND folded_name <> '';
CREATE INDEX animal_sire ON animal (sire) WHERE until IS NULL AND sire IS NOT NULL;
CREATE INDEX animal_dam ON animal (dam) WHERE until IS NULL AND dam IS NOT NULL;

-- the cells of the last sheet that had a row for an animal, as they were written; none where it had no such column
CREATE TABLE cell (
    id TEXT NOT NULL,
    since INTEGER NOT NULL REFERENCES change,
    until INTEGER REFERENCES change CHECK (until > since),
    cell_name TEXT,
    cell_sex TEXT,
    cell_birth TEXT,
    cell_sire TEXT,
    cell_dam TEXT,
    cell_owner TEXT,
    cell_since TEXT,
    cell_exit TEXT,
    cell_embryo TEXT,
    PRIMARY KEY (id, since)
) STRICT, WITHOUT ROWID;

CREATE TABLE remembered (
    what TEXT NOT NULL {one_of('what', Remembered)},
    word TEXT NOT NULL,
    since INTEGER NOT NULL REFERENCES change,
    until INTEGER REFERENCES change CHECK (until > since),
    place INTEGER NOT NULL,
    meaning TEXT NOT NULL,
    PRIMARY KEY (what, word, since)
) STRICT, WITHOUT ROWID;

-- what the society says of itself: no part of the history
CREATE TABLE setting (
    setting TEXT NOT NULL PRIMARY KEY,
    value TEXT NOT NULL
) STRICT, WITHOUT ROWID;

-- the coefficients of the last state, in age order
CREATE TABLE coefficient (
    place INTEGER PRIMARY KEY,
    number TEXT NOT NULL UNIQUE,
    fraction TEXT NOT NULL,
    percent TEXT NOT NULL
) STRICT;
"""

# a form that is sent twice makes one change
SECOND = """
ALTER TABLE change ADD COLUMN form TEXT CHECK (form <> '');
CREATE UNIQUE INDEX change_form ON change (form) WHERE form IS NOT NULL;
"""

# an animal can be corrected: that is a kind of change, which a table of an earlier version doesn't have yet; the reason
# of an exit is kept, and the ids that an animal had
THIRD = f"""
PRAGMA writable_schema = ON;
UPDATE sqlite_schema SET sql = replace(
    sql, 'kind = ''{ChangeKind.FOLDER.value}'')',
    'kind = ''{ChangeKind.FOLDER.value}'' OR kind = ''{ChangeKind.CORRECTION.value}'')'
) WHERE name = 'change';
PRAGMA writable_schema = RESET;
ALTER TABLE animal ADD COLUMN exit_reason TEXT {one_of('exit_reason', ExitReason)};
CREATE INDEX animal_digits ON animal (substr(number, 8));

-- the ids that animals had before theirs were corrected, by the digits of their numbers, which stay
CREATE TABLE former_id (
    id TEXT NOT NULL,
    digits TEXT NOT NULL,
    since INTEGER NOT NULL REFERENCES change,
    until INTEGER REFERENCES change CHECK (until > since),
    PRIMARY KEY (id, digits, since)
) STRICT, WITHOUT ROWID;
"""

# the seals that the society published: no part of the history
FOURTH = f"""
CREATE TABLE published_seal (
    -- of the journal: an edition up to a length
    edition INTEGER NOT NULL REFERENCES edition,
    steps INTEGER NOT NULL CHECK (steps >= 0),
    day TEXT NOT NULL CHECK (day {DAY}),
    animals INTEGER NOT NULL CHECK (animals >= 0),
    seal TEXT NOT NULL CHECK (length(seal) = 64 AND seal NOT GLOB '*[^0-9a-f]*'),
    PRIMARY KEY (edition, steps)
) STRICT, WITHOUT ROWID;
"""

# another program files many commands as one change, each with a request of its own, whose answer is kept; and the book
# has views for others, whose columns stay whatever becomes of the tables
FIFTH = f"""
PRAGMA writable_schema = ON;
UPDATE sqlite_schema SET sql = replace(
    sql, 'kind = ''{ChangeKind.CORRECTION.value}'')',
    'kind = ''{ChangeKind.CORRECTION.value}'' OR kind = ''{ChangeKind.BATCH.value}'')'
) WHERE name = 'change';
PRAGMA writable_schema = RESET;

CREATE TABLE request (
    request TEXT NOT NULL PRIMARY KEY CHECK (request <> ''),
    change INTEGER NOT NULL REFERENCES change,
    -- what was asked for, and what was answered
    command TEXT NOT NULL CHECK (json_valid(command)),
    answer TEXT NOT NULL CHECK (json_valid(answer))
) STRICT, WITHOUT ROWID;
{VIEWS}"""

# what the society keeps of its animals beside the register, by the digits of their numbers, which stay: notes, its own
# columns and their values; and what it keeps of owners beside their names
MORE_KINDS = " OR ".join(
    f"kind = ''{kind.value}''"
    for kind in (
        ChangeKind.NOTE, ChangeKind.OWN_VALUES, ChangeKind.OWN_COLUMNS, ChangeKind.MEMBER, ChangeKind.MERGE,
        ChangeKind.ERASURE,
    )
)  # fmt: skip
SIXTH = f"""
PRAGMA writable_schema = ON;
UPDATE sqlite_schema SET sql = replace(
    sql, 'kind = ''{ChangeKind.BATCH.value}'')', 'kind = ''{ChangeKind.BATCH.value}'' OR {MORE_KINDS})'
) WHERE name = 'change';
PRAGMA writable_schema = RESET;

CREATE TABLE note (
    digits TEXT NOT NULL,
    note INTEGER NOT NULL CHECK (note >= 1),
    since INTEGER NOT NULL REFERENCES change,
    until INTEGER REFERENCES change CHECK (until > since),
    day TEXT NOT NULL CHECK (day {DAY}),
    author TEXT NOT NULL,
    text TEXT NOT NULL CHECK (text <> ''),
    -- as it is found
    folded TEXT NOT NULL,
    PRIMARY KEY (digits, note, since)
) STRICT, WITHOUT ROWID;

CREATE TABLE own_column (
    place INTEGER NOT NULL CHECK (place >= 1),
    since INTEGER NOT NULL REFERENCES change,
    until INTEGER REFERENCES change CHECK (until > since),
    title TEXT NOT NULL CHECK (title <> ''),
    kind TEXT NOT NULL {one_of('kind', OwnKind)},
    -- in lines
    choices TEXT NOT NULL,
    certified INTEGER NOT NULL CHECK (certified IN (0, 1)),
    PRIMARY KEY (place, since)
) STRICT, WITHOUT ROWID;

CREATE TABLE own_value (
    digits TEXT NOT NULL,
    place INTEGER NOT NULL CHECK (place >= 1),
    since INTEGER NOT NULL REFERENCES change,
    until INTEGER REFERENCES change CHECK (until > since),
    -- empty where somebody emptied it
    value TEXT NOT NULL,
    folded TEXT NOT NULL,
    -- the cell of the last sheet
    cell TEXT,
    PRIMARY KEY (digits, place, since)
) STRICT, WITHOUT ROWID;

CREATE TABLE member (
    herd INTEGER NOT NULL CHECK (herd BETWEEN 1 AND 99999998),
    since INTEGER NOT NULL REFERENCES change,
    until INTEGER REFERENCES change CHECK (until > since),
    member_number TEXT NOT NULL,
    address TEXT NOT NULL,
    mail TEXT NOT NULL,
    telephone TEXT NOT NULL,
    PRIMARY KEY (herd, since)
) STRICT, WITHOUT ROWID;
"""

# births of a litter, and changes that are taken back one by one, are kinds of changes; an animal may be born dead
LITTERS = f"""
PRAGMA writable_schema = ON;
UPDATE sqlite_schema SET sql = replace(
    sql, 'kind = ''{ChangeKind.FOLDER.value}''',
    'kind = ''{ChangeKind.FOLDER.value}'' OR kind = ''{ChangeKind.LITTER.value}'' OR kind = ''{ChangeKind.TAKEN_BACK.value}'''
) WHERE name = 'change' AND NOT instr(sql, '{ChangeKind.LITTER.value}');
UPDATE sqlite_schema SET sql = replace(
    sql, 'exit_reason = ''{ExitReason.LOST.value}''',
    'exit_reason = ''{ExitReason.LOST.value}'' OR exit_reason = ''{ExitReason.STILLBORN.value}'''
) WHERE name = 'animal' AND NOT instr(sql, '{ExitReason.STILLBORN.value}');
PRAGMA writable_schema = RESET;
"""

# the society's picture, which its certificates show: no part of the history
PICTURE = f"""
CREATE TABLE picture (
    -- there is one at most
    place INTEGER PRIMARY KEY CHECK (place = 1),
    media_type TEXT NOT NULL CHECK (media_type IN ('{PNG}', '{JPEG}')),
    width INTEGER NOT NULL CHECK (width >= 1),
    height INTEGER NOT NULL CHECK (height >= 1),
    file BLOB NOT NULL
) STRICT;
"""

# the worksheet that was taken is remembered
WORKSHEET = f"""
PRAGMA writable_schema = ON;
UPDATE sqlite_schema SET sql = replace(
    sql, 'what = ''{Remembered.TOLD.value}''',
    'what = ''{Remembered.TOLD.value}'' OR what = ''{Remembered.WORKSHEET.value}'''
) WHERE name = 'remembered' AND NOT instr(sql, '''{Remembered.WORKSHEET.value}''');
PRAGMA writable_schema = RESET;
"""

# an exit with a day may have a text too: what the sheet says beside the day
EXIT_TEXT = f"""
PRAGMA writable_schema = ON;
UPDATE sqlite_schema SET sql = replace(
    sql, '(exit_source = ''{ExitSource.UNKNOWN_DAY.value}'') = (exit_text IS NOT NULL)',
    'exit_source <> ''{ExitSource.UNKNOWN_DAY.value}'' OR exit_text IS NOT NULL'
) WHERE name = 'animal';
PRAGMA writable_schema = RESET;
"""

MIGRATIONS = (FIRST, SECOND, THIRD, FOURTH, FIFTH, SIXTH, LITTERS, PICTURE, WORKSHEET, EXIT_TEXT)
VERSION = len(MIGRATIONS)
