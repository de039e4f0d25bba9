"""Which column of a sheet has what: by the titles that are named, by those of the last time, and by the usual ones."""
from __future__ import annotations

import collections
import functools
import itertools
import string
from collections.abc import Callable, Collection, Mapping
from dataclasses import dataclass, field
from typing import Container

from gudokeyi.domain.kinds import Field
from gudokeyi.domain.spelling import closest
from gudokeyi.ingest.births_beside import TAG, parts_of_births
from gudokeyi.ingest.castrations import castrated_in_remarks
from gudokeyi.ingest.column_detection import MOST_COMPARED, IdColumn, LikelyColumns, are_different, are_row_numbers
from gudokeyi.ingest.columns_by_cells import read_by_cells
from gudokeyi.ingest.days import is_span
from gudokeyi.ingest.encodings import Letters, decoded_twice
from gudokeyi.ingest.exits_beside import are_purchases, exit_columns, exit_day_columns, says_day
from gudokeyi.ingest.exits_unread import (
    ExitsUnread, causes_unread, codes_of_status, column_unread, living_unmarked, remarks_unread,
)  # fmt: skip
from gudokeyi.ingest.findings.columns import (
    ColumnLost, ColumnsLack, ColumnUntitled, LikelierColumn, NamedColumnLacks, SheetFinding, TellsNoExits, TitleTwice,
)  # fmt: skip
from gudokeyi.ingest.fields_unread import SOME, are_names, tell_unread_fields
from gudokeyi.ingest.findings.rows import StatusUnread
from gudokeyi.ingest.findings.sheets import MOST_SHOWN
from gudokeyi.ingest.many_texts import likely_among
from gudokeyi.ingest.owners_beside import owners_beside, persons_name
from gudokeyi.ingest.owners_by_cells import owners_by_cells
from gudokeyi.ingest.parent_titles import MOST_ALIKE, PARENTS, columns_of_pair, columns_of_parent
from gudokeyi.ingest.parents_beside import tell_parents_beside, tell_parents_from_others
from gudokeyi.ingest.remarks import telling_castrations, telling_exits
from gudokeyi.ingest.sheets import Sheet
from gudokeyi.ingest.titles import (
    KNOWN_DOUBTFUL, KNOWN_DOUBTFUL_DAYS, KNOWN_DOUBTFUL_NAMES, KNOWN_REASONS, KNOWN_STATES, KNOWN_TITLES, NEEDED,
    TITLES, known_titles, names_both_sexes, names_exit_days, names_exits_alone, said_of,
)  # fmt: skip
from gudokeyi.ingest.texts import plain
from gudokeyi.ingest.exit_words import DEAD, TELLING_EXITS, state_exit, tells_of_others
from gudokeyi.ingest.words import KNOWN_EXITS, KNOWN_NOTHING, KNOWN_STAYS, KNOWN_STILL_THERE, LETTER, has_word


@dataclass
class Columns:
    """For each field its column; what keeps the sheet from being taken, and what is told."""

    sheet: Sheet
    found: dict[str, int] = field(default_factory=dict)
    faults: list[SheetFinding] = field(default_factory=list)
    # the title of the book's ids, where no column has these
    lacks_ids: str = ""
    notes: list[SheetFinding] = field(default_factory=list)
    # the columns that have parts of days, and those that can only have parents or persons
    parts: Collection[int] = ()
    apart: Collection[int] = ()
    # what is told of cells that may tell of exits, where their animals count as living
    exits_unread: list[ExitsUnread] = field(default_factory=list)
    # the titles of the last sheet's columns of exits that this one lacks, where exits are read from another
    lost_exits: tuple[str, ...] = ()
    # the titles that would be read for fields of which somebody says that no column has them, and of how many exits
    # those of exits tell
    refused: dict[str, tuple[str, int | None]] = field(default_factory=dict)

    def cells(self, at: int) -> list[str]:
        return self.sheet.column(at)

    def counts(self, at: int) -> collections.Counter[str]:
        """How many cells of a column have each text, but for empty ones."""
        found = collections.Counter(self.cells(at))
        del found[""]
        return found

    def title(self, at: int) -> str:
        return self.sheet.titles[at]

    def titled(self, usual: Collection[str]) -> list[int]:
        """The columns that have one of these titles and no other field, the likeliest title first."""
        return [at for title in usual for at in self.by_title.get(title, [])[:MOST_ALIKE] if self.is_free(at)]

    def of_parent(self, parent: Field) -> list[int]:
        """The columns with a usual title for a parent and no other field, the likeliest first."""
        return [at for at in columns_of_parent(self.sheet, parent) if self.is_free(at)]

    @functools.cached_property
    def by_title(self) -> dict[str, list[int]]:
        """The columns of each title: a sheet may have very many."""
        found = collections.defaultdict[str, list[int]](list)
        for at, title in enumerate(self.sheet.titles):
            found[as_title(title)].append(at)
        return found

    def is_free(self, at: int) -> bool:
        return at not in self.found.values() and at not in self.parts and at not in self.apart

    def in_order(self) -> dict[str, int]:
        return {name: self.found[name] for name in TITLES if name in self.found}

    def titles_not_read(self) -> tuple[str, ...]:
        return tuple(title for at, title in enumerate(self.sheet.titles) if title and self.is_free(at))

    def titles_found(self) -> list[tuple[str, str]]:
        """The fields with their titles, as the book remembers them."""
        return [(name, self.title(at)) for name, at in self.in_order().items()]


def named_columns(columns: Columns, given: Mapping[str, str], before: Mapping[str, str]) -> dict[str, str]:
    """Finds the columns by the titles that are `given`, or of the last time; answers these titles."""
    titles = {as_title(title) for title in columns.sheet.titles}
    named = {name: title for name, title in before.items() if not title or as_title(title) in titles} | dict(given)
    for name in TITLES:
        # which column has the ids of a book is seen in its cells
        if named.get(name) and (name != Field.ID or name in given):
            name_column(columns, name, named)
    return named


def find_columns(
    sheet: Sheet, given: Mapping[str, str], before: Mapping[str, str], unknown: Container[str],
    ids: Collection[str] = (),
) -> Columns:  # fmt: skip
    """The columns by the titles that are `given`, else by those of the last time, `before`, and else by the usual ones.
    `ids` are those of the book."""
    columns = Columns(sheet)
    tell_doubles(columns)
    named = named_columns(columns, given, before)
    # a dog and a bitch may be the animals themselves, but for where both have a column
    columns.apart = [at for at in columns_of_pair(sheet) if columns.is_free(at)]
    find_person(columns, named)
    find_by_titles(columns, named)
    # one that the last sheet had and this one lacks is told
    if Field.OWNER not in {*named, *columns.found} and not before.get(Field.OWNER):
        columns.found |= {Field.OWNER: at for at in owners_by_cells(sheet)[:1] if columns.is_free(at)}
    find_births_in_parts(columns, given, only_ids(columns, before.get(Field.ID, "")))
    columns.apart = ()
    parents = [name for name in PARENTS if name not in named and name not in columns.found]
    IdColumn(columns, parents, unknown, ids, before.get(Field.ID, "")).find()
    read_by_cells(columns, named, unknown)
    tell_parents_from_others(columns, parents)
    # `Tag` is a word for ids too, and it is seen now whether it has these
    find_births_in_parts(columns, given)
    if Field.STATUS in columns.found and Field.EXIT not in columns.found and named.get(Field.EXIT) != "":
        columns.found[Field.EXIT] = columns.found.pop(Field.STATUS)
    tell_parents_beside(columns, unknown)
    columns.notes += owners_beside(sheet, columns.found)
    tell_untitled(columns)
    tell_unread_statuses(columns, named, unknown)
    tell_codes(columns, named, unknown)
    columns.exits_unread += living_unmarked(sheet) if Field.EXIT in columns.found else ()
    tell_unread_fields(columns, named)
    tell_likelier(columns, given, before)
    tell_lacking(columns, named, before, LikelyColumns(columns, unknown))
    return columns


def find_by_titles(columns: Columns, named: Mapping[str, str]) -> None:
    """By their usual titles, by words within titles, or by titles above theirs; but for those of ids and parents."""
    for name in TITLES:
        if name not in named and name not in (Field.ID, *PARENTS):
            usual_column(columns, name)
    for name, tells in ((Field.SEX, names_both_sexes), (Field.EXIT, names_exits_alone)):
        if name not in named and name not in columns.found:
            column_of_words(columns, name, tells)
    for name in BELOW:
        if name not in named and name not in columns.found:
            column_below(columns, name)


def tell_lacking(
    columns: Columns, named: Mapping[str, str], before: Mapping[str, str], likely: LikelyColumns
) -> None:
    """The fields without a column: those that a sheet needs, and those that the last one had."""
    tell_missing(columns, named, likely)
    tell_lost(columns, before, likely)


def find_births_in_parts(columns: Columns, given: Mapping[str, str], kept: Collection[int] = ()) -> None:
    """The days of births stand in three columns, of which that of the years has the field; one that is named, or is
    read beside these, has it else. Those that are `kept` are for something else."""
    at = columns.found.get(Field.BIRTH)
    parts = parts_of_births(columns.sheet, {*columns.found.values(), *kept} - {-1 if at is None else at})
    if parts and (at == parts.year or Field.BIRTH not in given and at in (None, *parts.places())):
        columns.found[Field.BIRTH] = parts.year
        columns.parts = [one for one in parts.places() if one != parts.year]


def only_ids(columns: Columns, before: str) -> list[int]:
    """The columns called `Tag` where no other one has a title for ids, and the cells differ as those of ids do. The
    ids of the book have the title `before`."""
    if Field.ID in columns.found:
        return []
    usual = columns.titled({*KNOWN_TITLES[Field.ID], plain(before)} - {""})
    tags = [at for at in usual if plain(columns.title(at)) == TAG]
    are_ids = len(tags) == len(usual) and all(are_different(columns.cells(at)) for at in tags)
    return tags if are_ids or plain(before) == TAG else []


def as_title(title: str) -> str:
    """A title as it is compared; one of signs alone, as `†`, as it is written."""
    return plain(title) or title


def name_column(columns: Columns, name: str, named: Mapping[str, str]) -> None:
    title = named[name]
    places = [at for at, one in enumerate(columns.sheet.titles) if one == title]
    places += [at for at, one in enumerate(columns.sheet.titles) if as_title(one) == as_title(title)]
    if places:
        columns.found[name] = places[0]
        return
    titles = columns.sheet.titles
    meant = closest(title, [one for one in titles if one and one not in named.values()], 1)
    lacks = NamedColumnLacks(columns.sheet.line, Field(name), title, tuple(titles), meant[0] if meant else "")
    columns.faults.append(lacks)


def usual_column(columns: Columns, name: str) -> None:
    titled = columns.titled(KNOWN_TITLES[name])
    if name == Field.EXIT:
        # words that tell of exits are read beside a column of days, also where that has nothing yet
        of_days = [at for at in titled if plain(columns.title(at)) not in KNOWN_DOUBTFUL]
        titled = of_days or days_of_exits(columns) or titled
    # one that has nothing is read where no other has its field
    for at in sorted(titled, key=lambda one: not any(columns.cells(one))):
        title = plain(columns.title(at))
        if title in KNOWN_DOUBTFUL_DAYS and not are_purchases(columns.counts(at)):
            continue
        if title in KNOWN_DOUBTFUL_NAMES and not are_names(columns.counts(at)):
            continue
        is_doubtful = title in KNOWN_DOUBTFUL or name == Field.STATUS and title not in KNOWN_REASONS
        if not is_doubtful or tells_exits(columns, at, is_told=name != Field.STATUS):
            columns.found[name] = at
            return


def days_of_exits(columns: Columns) -> list[int]:
    """The columns such as `verkauft am`, most of whose cells are days."""
    titled = [at for at, title in enumerate(columns.sheet.titles) if columns.is_free(at) and names_exit_days(title)]
    said = {at: [*filter(None, columns.cells(at))] for at in titled[:MOST_ALIKE]}
    return [at for at, cells in said.items() if 2 * sum(map(says_day, cells)) > len(cells)]


def column_of_words(columns: Columns, name: Field, tells: Callable[[str], bool]) -> None:
    """The only column whose title has several words for what the field has."""
    titled = [at for at, title in enumerate(columns.sheet.titles) if title and columns.is_free(at) and tells(title)]
    if len(titled) == 1:
        columns.found[name] = titled[0]


# the fields whose title may stand above that of a column
BELOW = Field.SEX, Field.BIRTH, Field.OWNER, Field.SINCE, Field.EXIT


def column_below(columns: Columns, name: Field) -> None:
    """The only column above whose title stands one for the field, in a sheet with two lines of titles. The lower one is
    none that is known, and no other column has it, by which the book remembers it."""
    if columns.titled(KNOWN_TITLES[name]):
        return
    titles = [plain(title) for title in columns.sheet.titles]
    above = [(at, plain(title)) for at, title in enumerate(columns.sheet.above[: len(titles)])]
    likely = [at for at, title in above if title in KNOWN_TITLES[name] and columns.is_free(at)]
    found = [at for at in likely if titles[at] and titles.count(titles[at]) == 1 and not known_titles([titles[at]])]
    if len(found) == 1:
        columns.found[name] = found[0]


def tells_exits(columns: Columns, at: int, is_told: bool = True) -> bool:
    """Do most cells of the column tell that an animal left, or that it lives?"""
    counts, title = columns.counts(at), columns.title(at)
    words = KNOWN_EXITS | KNOWN_STAYS | KNOWN_STILL_THERE | KNOWN_NOTHING
    said = {cell: said_of(cell, title) for cell in counts}
    known = sum(counts[cell] for cell, text in said.items() if is_span(text) or has_word(text, words) or state_exit(text))
    if is_told and 2 * known <= counts.total() and known:
        columns.notes.append(TellsNoExits(title))
    return 2 * known > counts.total()


def is_cross(cell: str) -> bool:
    """Is it a sign of a death alone?"""
    return not LETTER.search(cell) and DEAD.search(cell) is not None


def tell_unread_statuses(columns: Columns, named: Mapping[str, str], unknown: Container[str]) -> None:
    """Columns that aren't read, and whose cells tell that animals live or left, or are castrated."""
    of = Field.EXIT if Field.EXIT not in columns.found else Field.STATUS
    usual = columns.titled(KNOWN_TITLES[Field.STATUS]) if of in columns.found else []
    tell_other_statuses(columns, usual)
    of_exits = {*exit_columns(columns.sheet, columns.found)}
    others = {*usual, *exit_day_columns(columns.sheet, columns.found)}
    free = [at for at, title in enumerate(columns.sheet.titles) if title and columns.is_free(at) and at not in others]
    may_be_read = of not in columns.found and named.get(of) != ""
    for at in free[:MOST_COMPARED]:
        cells = columns.counts(at)
        texts = likely_among(cells)
        columns.notes += castrated_in_remarks(columns.sheet, columns.found, at, telling_castrations(texts))
        # a plus alone may be the result of a test
        crosses = {cell for cell in texts if is_cross(cell) and "+" not in (cell, cell.strip("()"))}
        telling = [cell for cell in texts if has_word(cell, TELLING_EXITS | KNOWN_STAYS) or cell in crosses]
        telling = [cell for cell in telling if not tells_of_others(cell)]
        count = sum(cells[cell] for cell in telling)
        if may_be_read and 2 * count > cells.total() and cells.total() >= SOME:
            columns.notes.append(StatusUnread(columns.title(at), count, tuple(telling[:MOST_SHOWN]), of))
        elif at in of_exits:
            columns.exits_unread.append(column_unread(columns.sheet, columns.found, at, unknown))
        elif named.get(Field.EXIT) != "":
            causes = causes_unread(columns.sheet, columns.found, at, unknown, of) if named.get(of) != "" else None
            told = telling_exits(texts, columns.title(at))
            columns.exits_unread.append(causes or remarks_unread(columns.sheet, columns.found, at, told))


def tell_other_statuses(columns: Columns, usual: list[int]) -> None:
    """Columns with a usual title for a status, where another one is read as that."""
    for at in usual:
        title = columns.title(at)
        said = {text: said_of(text, title) for text in likely_among({*columns.cells(at)})}
        telling = {text for text, meant in said.items() if has_word(meant, TELLING_EXITS) or DEAD.search(meant)}
        telling = {text for text in telling if not tells_of_others(text)}
        columns.exits_unread.append(remarks_unread(columns.sheet, columns.found, at, telling))


def tell_codes(columns: Columns, named: Mapping[str, str], unknown: Container[str]) -> None:
    """Columns of states that aren't read, unless that is told already, or somebody says that they tell of none."""
    told = {one.title for one in columns.notes if isinstance(one, TellsNoExits | StatusUnread)}
    for at in columns.titled(KNOWN_STATES) if named.get(Field.STATUS) != "" else ():
        codes = codes_of_status(columns.sheet, at, unknown)
        if codes and codes.title not in told:
            columns.notes.append(codes)


# so many columns without a title are told
MOST_UNTITLED = 9
LETTERS = string.ascii_uppercase


def letters_of(at: int) -> str:
    """The letters by which a spreadsheet calls a column."""
    before, last = divmod(at, len(LETTERS))
    return (letters_of(before - 1) if before else "") + LETTERS[last]


def tell_untitled(columns: Columns) -> None:
    """Columns without a title, whose cells nobody reads, but for those that number the rows."""
    titles = columns.sheet.titles
    untitled = (at for at, title in enumerate(titles) if not title and any(columns.cells(at)))
    untitled = (at for at in untitled if not are_row_numbers(columns.cells(at)))
    for at in itertools.islice(untitled, MOST_UNTITLED):
        cells = columns.counts(at)
        telling = (one for one in likely_among(cells) if has_word(one, TELLING_EXITS) or is_cross(one))
        exits = sum(cells[one] for one in telling if not tells_of_others(one))
        line, text = next((line, texts[at]) for line, texts in columns.sheet.rows if at < len(texts) and texts[at])
        columns.notes.append(ColumnUntitled(letters_of(at), cells.total(), line, text, exits))


def find_person(columns: Columns, named: Mapping[str, str]) -> None:
    """A column `Name` beside one of first names is the owner's where no other is, and not the animals'."""
    at = persons_name(columns.sheet)
    if at is None or not columns.is_free(at):
        return
    if Field.OWNER in named or columns.titled(KNOWN_TITLES[Field.OWNER]):
        columns.apart = [*columns.apart, at]
    else:
        columns.found[Field.OWNER] = at


def tell_doubles(columns: Columns) -> None:
    titles = columns.sheet.titles
    for title, places in columns.by_title.items():
        if title and len(places) > 1:
            same = all(columns.cells(at) == columns.cells(places[0]) for at in places)
            columns.notes.append(TitleTwice(titles[places[0]], tuple(at + 1 for at in places), same))


def tell_likelier(columns: Columns, given: Mapping[str, str], before: Mapping[str, str]) -> None:
    """A column that is read as at the last time, where the sheet has one besides whose title is likelier."""
    for name in (one for one in before if one in columns.found and one not in given and one != Field.ID):
        title = columns.title(columns.found[name])
        # what others with states say is told by itself
        likelier = likelier_columns(columns, Field(name)) if plain(title) not in KNOWN_REASONS else []
        if likelier:
            columns.notes.append(LikelierColumn(Field(name), title, columns.title(likelier[0])))


def likelier_columns(columns: Columns, name: Field) -> list[int]:
    """Those with likelier titles than the one that is read."""
    at = columns.found[name]
    if name in PARENTS:
        places = columns_of_parent(columns.sheet, name)
        return [one for one in places[: places.index(at) if at in places else None] if columns.is_free(one)]
    usual, title = KNOWN_TITLES[name], plain(columns.title(at))
    return columns.titled(usual[: usual.index(title)] if title in usual else usual)


def tell_missing(columns: Columns, named: Mapping[str, str], likely: LikelyColumns) -> None:
    missing = [name for name in NEEDED if name not in columns.found and (name == Field.ID or named.get(name) != "")]
    # a title that is named and isn't there is told already
    missing = [name for name in missing if not (named.get(name) and columns.faults)]
    wrong_letters = letters_of_titles(columns.sheet)
    (columns.faults if missing else columns.notes).extend(wrong_letters)
    if wrong_letters:
        meant = {plain(decoded_twice(title)) for title in columns.sheet.titles}
        missing = [name for name in missing if not meant & {*KNOWN_TITLES[name]}]
    if missing:
        titles = tuple(columns.sheet.titles)
        columns.faults.append(ColumnsLack(columns.sheet.line, tuple(missing), titles, likely.of_needed(missing)))


def letters_of_titles(sheet: Sheet) -> list[SheetFinding]:
    letters = Letters()
    for title in sheet.titles:
        letters.look(sheet.line, title)
    return letters.told()


def tell_lost(columns: Columns, before: Mapping[str, str], likely: LikelyColumns) -> None:
    """The last sheet had a column that this one lacks, as where it has another title now."""
    exits = [title for name, title in before.items() if title and name.split()[0] == Field.EXIT]
    if Field.EXIT in columns.found:
        columns.lost_exits = tuple(title for title in exits if as_title(title) not in columns.by_title)
    for name, title in before.items():
        if title and name in TITLES and name not in columns.found and name not in NEEDED:
            columns.notes.append(ColumnLost(Field(name), title, likely.of_lost(Field(name), title)))
