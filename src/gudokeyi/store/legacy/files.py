"""The files of version 0.11: their names, by which a folder of a book of that version is known; their words, which
`ids.csv` still has; and where they are kept beside a book of this version."""
from __future__ import annotations

import contextlib
import pathlib
import re
import time

from gudokeyi.domain.kinds import Standing
from gudokeyi.domain.provenance import (
    BIRTH_WORDS, GIVEN_EXIT, NO_DAY, SEX_WORDS, BirthBasis, BirthSource, ExitBasis, ExitSource, Period, SexSource,
)  # fmt: skip
from gudokeyi.store.database import path_of
from gudokeyi.store.files import has_titles, put

# The names of the files of version 0.11, by which a folder of a book of that version is known.

OLD = "old"
COMMANDS, IDS, REPORT, OWNERS, PARENTS, OPTIONS = (
    "commands.csv", "ids.csv", "report.csv", "owners.csv", "parents.csv", "options.csv"
)  # fmt: skip
ID_TITLES = ["number", "id", "name", "row", "birth", "exit", "sex"]
# those that a later version doesn't write
OLD_NAMES = (OWNERS, PARENTS, OPTIONS)
ALL_NAMES = (COMMANDS, IDS, REPORT, *OLD_NAMES)


def is_old(folder: pathlib.Path) -> bool:
    """Has the folder a file that only version 0.11 writes, or a command file and no database, or an empty one?"""
    if any((folder / name).exists() for name in OLD_NAMES):
        return True
    path = path_of(folder)
    return (folder / COMMANDS).exists() and not (path.exists() and path.stat().st_size)


# The words of version 0.11 in `ids.csv`, which `ids.csv` still has, and what each stands for.

STANDINGS = {
    Standing.ROW: "yes",
    Standing.GONE: "gone",
    Standing.PARENT: "no",
    Standing.FILED: "by hand",
    Standing.DROPPED: "dropped",
}
STANDING_OF = {word: standing for standing, word in STANDINGS.items()}
BIRTH_OF = {words: BirthBasis(source) for source, words in BIRTH_WORDS.items()}
SEX_OF = {words: source for source, words in SEX_WORDS.items()}
PERIOD = re.compile(r"the (?:month|year) (\d{4}(?:-\d\d)?)(?:, since there is no day (.+))?")


def read_period(words: str) -> Period | None:
    found = PERIOD.fullmatch(words)
    return Period(found[1], found[2] or "") if found else None


def read_birth(words: str) -> BirthBasis | None:
    """What the words for a birth day's basis stand for, or none where they are no such words."""
    if words in BIRTH_OF:
        return BIRTH_OF[words]
    period = read_period(words.removeprefix("from ")) if words.startswith("from ") else None
    return BirthBasis(BirthSource.PERIOD, period) if period else None


def read_exit(words: str) -> ExitBasis | None:
    if not words:
        return GIVEN_EXIT
    if words.startswith(NO_DAY):
        text = words.removeprefix(NO_DAY).removeprefix(": ")
        is_quoted = len(text) > 1 and text[0] == text[-1] == "'"
        return ExitBasis(ExitSource.UNKNOWN_DAY, text=text[1:-1] if is_quoted else text)
    period = read_period(words)
    return ExitBasis(ExitSource.PERIOD, period) if period else None


def read_sex(words: str) -> SexSource | None:
    return SEX_OF.get(words)


# Files of version 0.11 beside a book of this version, which stand there where a backup or such a folder was copied:
# they are a book too, and are kept before exports are written over them.


def keep_old_files(folder: pathlib.Path) -> None:
    """Keeps them in a folder of their own in `old`, unless they stand in `old` as they are, as those that were taken
    over."""
    if not has_titles(folder / IDS, ID_TITLES):
        return
    # whoever asks the book would wait for it
    import secrets

    files = {name: (folder / name).read_bytes() for name in ALL_NAMES if (folder / name).is_file()}
    if all(is_kept(folder, name, text) for name, text in files.items()):
        return
    place = folder / OLD / f"version-0.11-{time.strftime('%Y%m%d-%H%M%S')}-{secrets.token_hex(3)}"
    place.mkdir(parents=True)
    for name, text in files.items():
        put(place / name, text)
    # no export takes their places
    for name in files.keys() & {*OLD_NAMES}:
        (folder / name).unlink()


def is_kept(folder: pathlib.Path, name: str, text: bytes) -> bool:
    with contextlib.suppress(OSError):
        return (folder / OLD / name).read_bytes() == text
    return False
