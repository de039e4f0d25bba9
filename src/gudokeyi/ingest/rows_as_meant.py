"""The rows of a sheet as they are meant: without signs that no one sees, and headings and notes between them, with the
cell above in place of a mark that repeats it, and with what a column of words such as `Status` says of exits."""
from __future__ import annotations

import collections
import functools
import itertools
import operator
import re
from collections.abc import Callable, Collection, Iterable, Mapping, Sequence
from dataclasses import dataclass, replace
from typing import Container, NamedTuple

from gudokeyi.domain.findings import Report
from gudokeyi.domain.kinds import Field
from gudokeyi.ingest.births_beside import births_said
from gudokeyi.ingest.day_forms import TWO
from gudokeyi.ingest.days import places_within
from gudokeyi.ingest.days_together import read_together
from gudokeyi.ingest.doubtful_owners import is_no_name, tells_of_exit
from gudokeyi.ingest.exits_below import with_exits_below
from gudokeyi.ingest.exits_beside import Exits
from gudokeyi.ingest.exits_in_doubt import is_in_doubt
from gudokeyi.ingest.findings.cells import UnseenInId
from gudokeyi.ingest.findings.rows import CellsRepeated, MarksAreNames, NoteRow, NothingRepeated
from gudokeyi.ingest.findings.sheets import UnseenDropped
from gudokeyi.ingest.genetic_dams import genetic_dams
from gudokeyi.ingest.marked_ids import without_signs_of_exits
from gudokeyi.ingest.names_for_ids import with_names_for_ids
from gudokeyi.ingest.no_days import without_no_days
from gudokeyi.ingest.owners_beside import owners_named
from gudokeyi.ingest.owners_in_turn import with_owners_of_now
from gudokeyi.ingest.sheets import Sheet, SheetRow, cell_of, with_cell
from gudokeyi.ingest.statuses import SOLD, TAKER, exits_said
from gudokeyi.ingest.texts import nearly, plain, shape, shapes_of
from gudokeyi.ingest.unknown_parents import UnknownParents, names_no_owner
from gudokeyi.ingest.exit_words import is_for_sale, is_undone, lives_besides
from gudokeyi.ingest.words import KNOWN_EXITS, KNOWN_SEXES, KNOWN_SUMS, sex_word

# Cells with signs that no one sees: they are read without, but an id, which others write otherwise than it is seen.

# the columns of ids
IDS = (Field.ID, Field.SIRE, Field.DAM)


def as_seen(sheet: Sheet, columns: Mapping[str, int], animals: Container[str], report: Report) -> Sheet:
    """The sheet without rows whose ids have such signs. An animal that is there by such an id keeps it."""
    if not sheet.unseen:
        return sheet
    ids = {columns[name]: name for name in IDS if name in columns}
    kept = {place: text for place, text in sheet.unseen.items() if place[1] in ids and text in animals}
    of_ids = {line for line, at in sheet.unseen if ids.get(at) == Field.ID and (line, at) not in kept}
    dropped = [line for line, at in sheet.unseen if (line, at) not in kept and line not in of_ids]
    rows = list[SheetRow]()
    for row in sheet.rows:
        if row.line in of_ids:
            report.add(row.line, "", UnseenInId(row.cells[columns[Field.ID]]))
            continue
        for at in ids:
            row = with_cell(row, at, kept[row.line, at]) if (row.line, at) in kept else row
        rows.append(row)
    if dropped:
        report.add(0, "", UnseenDropped(len(dropped), dropped[0]))
    return replace(sheet, rows=rows, kept={})


# Rows that are headings between animals, or notes below them: they say nothing of an animal, and don't read like the
# ids of the others.

SIGNS = ":;.,=–-"
# what headings begin or end with
MARKED = re.compile(r"[-=*_~#–—>.]{2,}.*|.*[-=*_~–—]{2,}|.*:", re.DOTALL)
WORD = re.compile(r"[^\W\d_]{4,}")


class Notes:
    """Finds such rows."""

    def __init__(self, sheet: Sheet, columns: Mapping[str, int]) -> None:
        self.sheet, self.columns, self.id = sheet, columns, columns[Field.ID]

    def is_of(self, sheet: Sheet, columns: Mapping[str, int]) -> bool:
        """Are these the notes of a sheet with such columns of ids?"""
        return sheet is self.sheet and all(columns.get(name) == self.columns.get(name) for name in IDS)

    def found(self, animals: Container[str]) -> dict[int, str]:
        """The texts of such rows by their lines; `animals` are ids that are animals, whatever the row says."""
        return {line: text for line, text in self.likely.items() if text not in animals}

    @functools.cached_property
    def likely(self) -> dict[int, str]:
        # most sheets have a column with a cell in each row
        if any(all(self.sheet.column(at)) for at in self.columns.values() if at != self.id):
            return {}
        likely = [row for row in self.sheet.rows if self.says_an_id_alone(row)]
        if not likely or 2 * len(likely) > len(self.sheet.rows):
            return {}
        lines = {row.line for row in likely}
        rows = [row for row in self.sheet.rows if row.line not in lines and self.id < len(row.cells)]
        shapes = shapes_of([row.cells[self.id] for row in rows])
        parents = {
            nearly(cell) for role in (Field.SIRE, Field.DAM) if role in self.columns
            for cell in set(self.sheet.column(self.columns[role]))
        }  # fmt: skip
        texts = {row.line: row.cells[self.id] for row in likely}
        free = {line: text for line, text in texts.items() if nearly(text) not in parents}
        return {line: text for line, text in free.items() if reads_so(text, shapes)}

    def says_an_id_alone(self, row: SheetRow) -> bool:
        return self.id < len(row.cells) and bool(row.cells[self.id]) and sum(map(bool, row.cells)) == 1


def reads_so(text: str, shapes: Mapping[str, int]) -> bool:
    """Does it read like a heading or a note, beside the shapes of the other ids? What sums up is told by itself."""
    first = text.split()[0].strip(SIGNS)
    if plain(first) in KNOWN_SUMS or plain(text) in KNOWN_SUMS:
        return False
    if MARKED.fullmatch(text):
        return WORD.search(text) is not None or not re.search(r"\w", text)
    return shapes.get(shape(text), 0) == 0 and WORD.search(text) is not None


# Marks that stand for the cell above.

# such marks of signs alone, and the dashes between which they stand too
QUOTES = (
    '"', "''", "”", "“", "„", "〃", "″", "‶", "〞", "˝", ",,", "‚‚", "’’", "‘‘", "´´", "``", '""', "””", "„“", "„”", "““",
    "′′",
)  # fmt: skip
# two or three of these, with blanks between or without
SEVERAL_QUOTES = {
    blank.join([mark] * count) for mark in (*QUOTES, "'", "’", "´", "′") for count in (2, 3) for blank in ("", " ")
}
WORDS_BETWEEN = "do", "do.", "dto", "dto.", "dito", "detto", "id", "id.", "idem"
DASHES = ("-", "–", "—", "−")
BETWEEN_DASHES = {
    one + blank + mark + blank + other
    for one, other in itertools.product(DASHES, DASHES) for blank in ("", " ") for mark in (*QUOTES, *WORDS_BETWEEN)
}  # fmt: skip
DITTO = {*QUOTES} | SEVERAL_QUOTES | BETWEEN_DASHES | {
    "dito", "dito.", "detto", "detto.", "dto", "dto.", "dtto", "dtto.", "ditto", "ditto.", "do.", "idem", "idem.",
    "id.", "s.o.", "s. o.", "s.o", "s. oben", "siehe oben", "w.o.", "w. o.", "w.o", "w. oben", "wie oben", "wie vor",
    "wie zuvor", "wie vorher", "wie darüber", "ebenso", "ebenfalls", "ebd.", "gleich", "gleich wie oben", "gleiche", "gleicher",
    "der gleiche", "die gleiche", "derselbe", "dieselbe", "dasselbe", "desgl.", "desgleichen",
    "as above", "see above", "same", "the same", "same as above", "the same as above",
    "ci-dessus", "voir ci-dessus", "cf. ci-dessus", "comme ci-dessus", "idem ci-dessus", "comme au-dessus",
    "comme plus haut", "même", "le même", "la même", "»", "«", "« »", "«»", "»»", "» »", "d°", "d °", "dº",
}  # fmt: skip
# people are called so too
NAMES_OF_PEOPLE = {"Gleich", "GLEICH"}
# the same of an owner or a parent alone: of a day they may say that it isn't known
DITTO_OF_OWNER = DITTO | {"//", "/ /", "|", "||", "↓"}
# the same of a parent alone; as an owner it may be a name, and as a sex `doe`
DITTO_OF_PARENT = DITTO_OF_OWNER | {"do"}
# how they end, as no day and few ids do
ENDS, LAST_LETTER = frozenset(mark[-1] for mark in DITTO_OF_PARENT), operator.itemgetter(slice(-1, None))
# the columns in which they stand for something
REPEATED = (
    Field.OWNER, Field.BIRTH, Field.SIRE, Field.DAM, Field.SEX, Field.SINCE, Field.EXIT, Field.STATUS,
)  # fmt: skip
# the sex that no such parent has
NO_PARENT = {Field.SIRE: "F", Field.DAM: "M"}


def marks_in(names: Iterable[str]) -> set[str]:
    """The marks that are names of animals too."""
    return DITTO_OF_PARENT.intersection(map(str.casefold, names))


@dataclass(frozen=True)
class Marks:
    """The marks of a sheet's columns. `called` are those that are names of animals of the book, each with a sex that
    one has, and `unknown` words that somebody says stand for what isn't known."""

    sheet: Sheet
    columns: Mapping[str, int]
    called: Collection[tuple[str, str]]
    unknown: Collection[str]

    def repeat(self, rows: list[SheetRow], report: Report) -> list[SheetRow]:
        """The rows with the cells above in place of such marks; each column with some is told."""
        for field in REPEATED:
            at = self.columns.get(field)
            if at is None or not has_marks(self.sheet.column(at)):
                continue
            names = self.names_for(field)
            found = repeated(rows, at, self.of(field) - names)
            title, rows = self.sheet.titles[at], found.rows
            named = [one for one in rows if cell_of(one, at).casefold() in names] if names else []
            if found.told:
                report.add(0, "", CellsRepeated(title, len(found.told), *found.told[0]))
            if found.of_nothing:
                report.add(0, "", NothingRepeated(title, len(found.of_nothing), *found.of_nothing[0]))
            if named:
                report.add(0, "", MarksAreNames(title, len(named), named[0].line, cell_of(named[0], at)))
        return rows

    def of(self, field: Field) -> set[str]:
        marks = DITTO_OF_PARENT if field in NO_PARENT else DITTO_OF_OWNER if field is Field.OWNER else DITTO
        return marks.difference(self.unknown)

    def names_for(self, field: Field) -> set[str]:
        """The marks that are ids or names of animals that may be such a parent."""
        if field not in NO_PARENT:
            return set()
        sexes = self.sheet.column(self.columns[Field.SEX]) if Field.SEX in self.columns else ()
        found = {name for name, sex in self.called if sex != NO_PARENT[field]}
        for name in (Field.ID, Field.NAME):
            texts = self.sheet.column(self.columns[name]) if name in self.columns else ()
            marks = marks_in(texts)
            for at, text in enumerate(texts if marks else ()):
                if text.casefold() in marks and not (sexes and is_of_sex(sexes[at], NO_PARENT[field])):
                    found.add(text.casefold())
        return found


def is_of_sex(text: str, sex: str) -> bool:
    return KNOWN_SEXES.get(sex_word(text)) == sex


def has_marks(texts: list[str]) -> bool:
    """Is any text such a mark?"""
    ends = {*map(LAST_LETTER, texts)}
    if ENDS.isdisjoint(end.casefold()[-1:] for end in ends):
        return False
    return not DITTO_OF_PARENT.isdisjoint(map(str.casefold, {*texts}))


class Repeated(NamedTuple):
    """Rows with the cells above in place of marks: for each of these its line, its text and what stands above; and the
    lines and texts of those above which nothing stands."""

    rows: list[SheetRow]
    told: list[tuple[int, str, str]]
    of_nothing: list[tuple[int, str]]


def repeated(rows: list[SheetRow], at: int, marks: set[str]) -> Repeated:
    found, above = Repeated([], [], []), ""
    for row in rows:
        text = cell_of(row, at)
        if text.casefold() not in marks or text in NAMES_OF_PEOPLE:
            above = text
        elif above:
            found.told.append((row.line, text, above))
            row = with_cell(row, at, above)
        else:
            found.of_nothing.append((row.line, text))
            row = with_cell(row, at, "")
        found.rows.append(row)
    return found


# All of these.


def as_meant(
    sheet: Sheet, columns: Mapping[str, int], unknown: UnknownParents, animals: Container[str], report: Report,
    notes_of: Callable[[Sheet, Mapping[str, int]], Notes] = Notes, called: Collection[tuple[str, str]] = (),
) -> Sheet:  # fmt: skip
    """The sheet with its rows as they are meant; what is read so is told. `animals` are the ids of animals for sure,
    `called` the marks that are names of the book, as `Marks` has them, and `notes_of` has the notes of a sheet."""
    sheet = without_signs_of_exits(as_seen(sheet, columns, animals, report), columns, animals)
    sheet, below = with_exits_below(sheet, columns)
    if below:
        report.add(0, "", below)
    for at, names in with_names_for_ids(sheet, columns, unknown).items():
        rows = [with_cell(row, at, names[place]) if place in names else row for place, row in enumerate(sheet.rows)]
        sheet = replace(sheet, rows=rows, kept={})
    if dams := genetic_dams(sheet.rows, sheet, columns, unknown, report):
        sheet = replace(sheet, rows=with_cells(sheet.rows, columns[Field.DAM], dams), kept={})
    notes = notes_of(sheet, columns).found(animals)
    for line, text in notes.items():
        report.add(line, "", NoteRow(text))
    rows = [row for row in sheet.rows if row.line not in notes] if notes else sheet.rows
    rows = Marks(sheet, columns, called, unknown.more).repeat(rows, report)
    owners = owners_named(rows, sheet, columns, DITTO_OF_OWNER)
    if owners:
        rows = with_cells(rows, columns[Field.OWNER], owners)
    for field, texts in with_owners_of_now(rows, sheet, columns).items():
        rows = with_cells(rows, columns[field], texts) if texts and field in columns else rows
    rows = without_no_days(rows, sheet, columns, report)
    rows = read_together(rows, sheet, columns, unknown, report)
    births = births_said(rows, sheet, columns, unknown, report)
    if births:
        rows = with_cells(rows, columns[Field.BIRTH], births)
    exits = exits_said(rows, sheet, columns, unknown, report) if Field.EXIT in columns else Exits()
    if exits.texts:
        rows = with_cells(rows, columns[Field.EXIT], exits.texts)
    if rows is sheet.rows and not (exits.remarks or exits.reasons or exits.sales):
        return sheet
    return replace(
        sheet, rows=rows, kept={}, remarks=exits.remarks, exit_titles=exits.titles,
        reasons={**sheet.reasons, **exits.reasons}, sales=exits.sales,
    )  # fmt: skip


def with_cells(rows: Sequence[SheetRow], at: int, texts: Mapping[int, str]) -> list[SheetRow]:
    """The rows, some of which have another text in a column, by the places of these rows."""
    found = [*rows]
    for place, text in texts.items():
        found[place] = with_cell(found[place], at, text)
    return found


# Owners to whom animals are sold within the society.

# one who takes an animal, in a text that begins with whom
TO_WHOM = re.compile(r"(?:an|zu|to|à|au)\s+(?P<taker>\S.*)", re.IGNORECASE)
# what stands before the number of a member
MEMBER_NAME = "Mitglied"
MEMBER = {plain(word) for word in ("Mitglied", "Mitgl.", "Mitgliednr.", "Mitgliedsnr.", "member", "membre", "adhérent")}
# a name with less letters may be anything in a text
SHORTEST = 4
NUMBER = {plain(word) for word in ("Nr.", "Nummer", "No.", "N°", "number", "numéro")}


class Takers:
    """Finds the owner who is meant where an animal is sold. `owners` are those of the list and of the book, by the
    names and the numbers of members that a text may have."""

    def __init__(self, owners: Mapping[str, str]) -> None:
        named = [name for name, owner in owners.items() if owner and not names_no_owner(name)]
        names = [name for name in named if not (is_no_name(name) or tells_of_exit(name))]
        self.by_words = [(words, owners[name]) for name in names if (words := words_of(name))]

    def named(self, text: str) -> tuple[str, ...]:
        """The owners who are named behind `verkauft an`, or in a text that begins with whom."""
        found = TAKER.search(text) or TO_WHOM.match(text)
        if found is None or lives_besides(text) or is_undone(text) or is_for_sale(text):
            return ()
        return self.called(without_days(found["taker"]))

    def behind_sale(self, text: str) -> tuple[str, ...]:
        """The owners whom a text may mean that has nothing but a name and a day beside a word for a sale, as
        `verk. Meier`."""
        name = name_behind_sale(text)
        # few such texts have a word of an owner's name
        if not name or self.having.keys().isdisjoint(words_of_taker(name)):
            return ()
        name = without_days(name)
        return self.called(name) if len(plain(name)) >= SHORTEST and not words_of(name) <= KNOWN_EXITS else ()

    def sold_to(self, text: str) -> tuple[str, ...]:
        """The only one of these whose whole name it is, unless the sale is in doubt."""
        owners = self.behind_sale(text)
        if len(owners) != 1 or is_in_doubt(text):
            return ()
        words = words_of_taker(without_days(name_behind_sale(text)))
        return owners if any(its == words for its, _ in self.having[min(words)]) else ()

    def within(self, text: str) -> tuple[str, ...]:
        """The owners whose names stand whole in a text without saying that they took the animal."""
        words = words_of(text)
        found = {owner for word in words for its, owner in self.by_word.get(word, ()) if its <= words}
        return tuple(sorted(found))

    @functools.cached_property
    def by_word(self) -> dict[str, list[tuple[frozenset[str], str]]]:
        """The names that a text may have within, by one of their words each."""
        found: dict[str, list[tuple[frozenset[str], str]]] = {}
        for words, owner in self.by_words:
            if sum(map(len, words)) >= SHORTEST and not words <= KNOWN_EXITS:
                found.setdefault(min(words), []).append((words, owner))
        return found

    def called(self, name: str) -> tuple[str, ...]:
        """The owners whose names have all words of a name, or whose name those are."""
        words = words_of_taker(name)
        likely = self.having.get(min(words), []) if words else []
        whole = {owner for its, owner in likely if its == words}
        return tuple(sorted(whole or {owner for its, owner in likely if words <= its}))

    @functools.cached_property
    def having(self) -> dict[str, list[tuple[frozenset[str], str]]]:
        """All names, by each of their words."""
        found = collections.defaultdict[str, list[tuple[frozenset[str], str]]](list)
        for words, owner in self.by_words:
            for word in words:
                found[word].append((words, owner))
        return found


def name_behind_sale(text: str) -> str:
    """What stands behind a word for a sale that begins a text; empty where it has a word for to whom."""
    found = SOLD.match(text)
    return found["taker"] if found and TAKER.search(text) is None else ""


def without_days(name: str) -> str:
    for day in [*places_within(name), *TWO.finditer(name)]:
        name = name.replace(day[0], " ")
    return name


def words_of_taker(name: str) -> frozenset[str]:
    """The words of a name, of a member by the number those with which such a one is named."""
    words = words_of(name)
    return words - NUMBER - MEMBER | {plain(MEMBER_NAME)} if words & MEMBER else words


def member_numbered(number: str) -> str:
    """As a member is named by its number."""
    return f"{MEMBER_NAME} {number}"


def words_of(name: str) -> frozenset[str]:
    """The words of a name as they are compared, without days and what stands in brackets."""
    said = re.sub(r"\(.*?\)|\d+[./-][\d./-]*|\b(?:19|20)\d\d\b|\b(?:am|im|on|in|le|en)\b", " ", name)
    return frozenset(plain(word) for word in re.split(r"[\s,;.]+", said) if plain(word))
