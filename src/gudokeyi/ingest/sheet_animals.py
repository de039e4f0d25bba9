"""The animals of a sheet: which rows are taken, which may be no animals or have one id, and what is seen of the sheet
as a whole."""
from __future__ import annotations

import collections
import datetime
import functools
import itertools
import operator
import re
from collections.abc import Iterable, Iterator, Mapping, Sequence
from typing import Container

from gudokeyi.domain.findings import Report
from gudokeyi.domain.kinds import Field
from gudokeyi.domain.requests import MOST_IN_ID
from gudokeyi.ingest.animal_cells import AnimalCells, ErrorValues, Unread
from gudokeyi.ingest.animals import CELLS_OF as CELLS_OF_ANIMAL
from gudokeyi.ingest.animals import DAM_OF, LINE_OF, ROLES, SIRE_OF, SheetAnimal
from gudokeyi.ingest.castrations import Castrations
from gudokeyi.ingest.day_cells import Order
from gudokeyi.ingest.day_forms import DayForms
from gudokeyi.ingest.days_for_ids import days_among
from gudokeyi.ingest.exchanged_days import exchanged
from gudokeyi.ingest.findings.cells import (
    BETWEEN_CELLS, DAYS, AnimalAfterAll, IdAlone, IdTooLong, LikeASum, NoAnimal, NoId, TitlesAgain, TooManyCells,
)  # fmt: skip
from gudokeyi.ingest.findings.columns import SheetFinding
from gudokeyi.ingest.findings.exits import Remark
from gudokeyi.ingest.findings.files import ColoredRows, GreyRows, HiddenRows
from gudokeyi.ingest.findings.sheets import CutNumber, FormulaCell, Place
from gudokeyi.ingest.inferred_values import lines_of_inferred_sexes
from gudokeyi.ingest.no_names import names_told
from gudokeyi.ingest.odd_ids_told import tell_ids_otherwise, tell_odd_ids
from gudokeyi.ingest.odd_texts import (
    exits_in_sexes, first_days, tell_deaths_in_births, tell_exits_in_ids, tell_exits_in_names, tell_several_ids,
)  # fmt: skip
from gudokeyi.ingest.other_breeds import other_breeds
from gudokeyi.ingest.placeholders import (
    TRUTHS, tell_days_for_texts, tell_dittos, tell_ids_to_come, tell_truths,
)  # fmt: skip
from gudokeyi.ingest.plain_rows import CELLS_OF, SIGNS, PlainRows, chooser, first_sum, may_be_sum
from gudokeyi.ingest.rows_as_meant import Takers
from gudokeyi.ingest.same_ids import SameIds, tell_used_again
from gudokeyi.ingest.sexes import Sexes, one_sex_alone, parents_by_text, sexes_in_book, sexes_of_parents
from gudokeyi.ingest.sheets import Sheet, SheetRow
from gudokeyi.ingest.spellings import CUT
from gudokeyi.ingest.struck_cells import struck_told
from gudokeyi.ingest.titles import KNOWN_STATES, is_german, parts_of, words_of_sexes
from gudokeyi.ingest.unknown_parents import UnknownParents
from gudokeyi.ingest.texts import nearly, plain
from gudokeyi.ingest.words import KNOWN_SUMS, is_error_value
from gudokeyi.ingest.years_as_days import years_as_days

# Rows that may be no animals: those that count or sum up, and those that have an id alone. They are taken, and told,
# unless somebody says by a word of theirs that they are none.

# the place of a column that there isn't
NOWHERE = -1
# what a row says of an animal; an owner's cell may have a word of a row that sums up
SAYS = (Field.NAME, Field.SEX, Field.BIRTH, Field.SIRE, Field.DAM, Field.EXIT)


class NoAnimals:
    """The words of rows that are said to be no animals: whole ids, words that sum up and begin an id, and cells of rows
    that say no sex and no birth day. `before` are the texts of the rows that had a word when it was said at an earlier
    time: of an id it holds for rows that say the same."""

    def __init__(self, words: Iterable[str], before: Mapping[str, Sequence[str]] | None = None) -> None:
        self.words = {plain(word) for word in parts_of(list(words))} - {""}
        self.before = {plain(word): texts for word, texts in (before or {}).items()}
        # the texts of the rows that are left out, by their words, and the words whose rows are taken all the same
        self.left_out = collections.defaultdict[str, list[str]](list)
        self.taken = set[str]()

    def __bool__(self) -> bool:
        return bool(self.words)

    def is_of_other_row(self, word: str, text: str) -> bool:
        """Was a word said at an earlier time, and of rows with other texts?"""
        texts = self.before.get(plain(word), ())
        return bool(texts) and text not in texts

    def of_id(self, id: str) -> str:
        """The word by which a row with this id is no animal, empty where there is none."""
        if plain(id) in self.words:
            return id
        first = first_sum(id)
        return first if plain(first) in self.words else ""

    def of_cells(self, cells: list[str]) -> str:
        """The same of the cells of a row that says nothing of an animal; a number there may be that of a parent."""
        return next((cell for cell in cells if plain(cell) in self.words and not any(map(str.isdigit, cell))), "")


# a sheet that is looked at again has the same ids
@functools.lru_cache(1)
def likely_sums(ids: tuple[str, ...]) -> set[str]:
    return {*filter(may_be_sum, ids)}


def tell_odd_rows(animals: dict[str, SheetAnimal], rows: list[SheetRow], report: Report) -> set[str]:
    """Answers the ids of those that are told."""
    births = map(dict.get, map(CELLS_OF_ANIMAL, animals.values()), itertools.repeat(Field.BIRTH))
    without_day = {animal.line: animal for animal in itertools.compress(animals.values(), map(operator.not_, births))}
    are_without = map(without_day.__contains__, map(LINE_OF, rows)) if without_day else ()
    cells = {row.line: row.cells for row in itertools.compress(rows, are_without)}
    ids = likely_sums(tuple(animals)).union(animal.id for animal in without_day.values())
    likely = [animals[id] for id in filter(ids.__contains__, animals)]
    sums = {one.id: word for one in likely if (word := sum_of(one, cells.get(one.line, [])))}
    for id, word in sums.items():
        report.add(animals[id].line, id, LikeASum(word))
    alone = [one for one in without_day.values() if not any(map(one.cells.get, SAYS))]
    # a list of ids is no sheet with odd rows
    if not alone or 2 * len(alone) > len(animals):
        return {*sums}
    alone = [one for one in alone if one.id not in sums]
    parents = {*map(SIRE_OF, animals.values()), *map(DAM_OF, animals.values())} if alone else set[str]()
    nearly_parents = {*map(nearly, parents - {""})}
    alone = [one for one in alone if nearly(one.id) not in nearly_parents]
    for animal in alone:
        report.add(animal.line, animal.id, IdAlone(animal.id))
    return {*sums, *(one.id for one in alone)}


def sum_of(animal: SheetAnimal, cells: list[str]) -> str:
    """The word such as `Summe` with which its id begins, or which is a cell of a row without a birth day, or begins one
    that is read where the row says nothing else of an animal."""
    word = first_sum(animal.id) or next((cell.strip(SIGNS) for cell in cells if plain(cell) in KNOWN_SUMS), "")
    if word or any(map(animal.cells.get, SAYS[1:])):
        return word
    likely = next(filter(first_sum, animal.cells.values()), "")
    return likely.strip(SIGNS) if animal.cells.get(Field.OWNER, "") in ("", likely) else ""


# The animals of a sheet: which rows are taken, and what is seen of the sheet as a whole.

# how a spreadsheet shows a formula in place of its value, and a sign that it has, as a number that is cut has one
PLUS = "+"
# a name may begin with the sign; a formula names a cell or a function, or computes
FORMULA, EQUALS = re.compile(r"=.*(?:\(|\$?[A-Za-z]{1,3}\$?\d|\d\s*[-+*/&]|[-+*/&]\s*\d).*", re.DOTALL), "="


# so many letters are told of a row
MOST_TOLD = 120


def text_of(cells: list[str]) -> str:
    """What a row says, as one text."""
    return BETWEEN_CELLS.join(filter(None, cells))[:MOST_TOLD]


def are_titles(cells: list[str], titles: list[str]) -> bool:
    """Are nearly all cells the titles again? Those of several lines may be written otherwise at another page's head."""
    named = [at for at, title in enumerate(titles) if title]
    again = sum(cells[at] == titles[at] for at in named if at < len(cells))
    return 4 * again >= 3 * len(named)


# of all columns of days
@functools.lru_cache(len(DAYS))
def slashed_among(texts: tuple[str, ...]) -> set[str]:
    """The texts that may show the order of days."""
    return {*filter(Order.may_show, texts)}


class Rows:
    """Reads the rows of a sheet. `born` are the birth days that animals of the book have by their ids, `no_animals` the
    words of rows that are none."""

    def __init__(
        self,
        sheet: Sheet,
        columns: dict[str, int],
        unknown: UnknownParents,
        sexes: dict[str, str],
        report: Report,
        month_first: bool = False,
        born: Mapping[str, datetime.date] | None = None,
        no_animals: Sequence[str] = (),
        owners: Mapping[str, str] | None = None,
        before: PlainRows | None = None,
        sexes_of_book: Mapping[str, str] | None = None,
        no_animals_before: Mapping[str, Sequence[str]] | None = None,
    ) -> None:
        """`before` are the plain rows as they were read before, where they are read again, `sexes_of_book` the sexes
        that animals of the book were given, by their ids."""
        self.sheet, self.columns, self.unknown, self.report = sheet, columns, unknown, report
        self.no_animals = NoAnimals(no_animals, no_animals_before)
        self.month_first = month_first
        # rows that end before it get empty cells
        self.width = 1 + max(columns.values(), default=0)
        self.chosen = chooser([*columns.values()])
        self.errors = ErrorValues(sheet, columns)
        self.sexes = self.sexes_read(sexes, sexes_of_book or {})
        self.unread = Unread({name: sheet.titles[at] for name, at in columns.items()})
        self.unread.exit_titles = sheet.exit_titles
        self.forms = DayForms(self.texts(Field.BIRTH), (born or {}).values(), month_first)
        self.cells = AnimalCells(unknown, self.sexes, self.unread, report, month_first, self.forms)
        self.cells.reasons, self.cells.sales = sheet.reasons, sheet.sales
        self.castrations = Castrations(sheet, columns, unknown)
        self.cells.castrations = self.castrations.lines
        self.cells.inferred_sexes = lines_of_inferred_sexes(sheet, columns, lambda text: self.sexes.meaning(text).sex)
        self.cells.days.of_states = plain(self.unread.titles.get(Field.EXIT, "")) in KNOWN_STATES
        self.cells.takers = Takers({one: one for one in self.texts(Field.OWNER)} | dict(owners or {}))
        self.same_ids = SameIds(unknown, month_first, born or {})
        self.before = before
        # what keeps the sheet from being taken, and what may be wrong
        self.faults: list[SheetFinding] = []
        self.notes: list[SheetFinding] = []

    def sexes_read(self, given: dict[str, str], of_book: Mapping[str, str]) -> Sexes:
        """How the column of the sexes is read."""
        places = {field: self.columns[field] for field in (Field.SEX, *ROLES) if field in self.columns}
        titles = {field: self.sheet.titles[at] for field, at in places.items()}
        # of words of a title such as `Dog/Bitch` cells have the first letters; letters of a title are no cells
        named = [word for word in words_of_sexes(titles.get(Field.SEX, "")) if len(word) > 1]
        return Sexes(
            [*self.texts(Field.SEX), *named], given, functools.partial(sexes_of_parents, self.texts),
            functools.partial(sexes_in_book, self.texts, of_book), is_german(titles.values()),
        )  # fmt: skip

    def remarks(self) -> list[Remark]:
        """Cells that are kept as notes."""
        return [*self.sheet.remarks, *self.unread.remarks()]

    def texts(self, name: str) -> list[str]:
        """A column, in which error values are empty."""
        at = self.columns.get(name)
        if at is None:
            return [""] * len(self.sheet.rows)
        texts = self.sheet.column(at)
        return [self.value(text) for text in texts] if self.errors.found else texts

    def value(self, text: str) -> str:
        return "" if is_error_value(text) else text

    def said(self, cells: list[str]) -> dict[str, str]:
        """The cells of a row by their fields; error values are empty."""
        if len(cells) < self.width:
            cells = cells + [""] * (self.width - len(cells))
        texts = self.chosen(cells)
        return dict(zip(self.columns, map(self.value, texts) if self.errors.found else texts))

    @functools.cached_property
    def plain(self) -> PlainRows:
        """The rows that are read together."""
        words = self.no_animals.words
        again = self.before.again(self.sheet, self.cells, words) if self.before else None
        odd = self.cells.lines_of_sales(), self.castrations.lines
        lines = {line for line, *_ in self.errors.found}.union(*odd)
        found = again or PlainRows(self.sheet, self.columns, self.cells, words)
        found.leave_lines(lines)
        return found

    def animals(self) -> dict[str, SheetAnimal]:
        """The animals by id, in the order of the rows."""
        self.plain.count()
        found: dict[str, SheetAnimal] = {}
        # animals that have the id of another one
        others: list[SheetAnimal] = []
        ids, plain, may_be_none, begin = self.plain.texts[Field.ID], self.plain.animals, bool(self.no_animals), 0
        titles, id_title = len(self.sheet.titles), self.sheet.titles[self.columns[Field.ID]]
        for at in sorted(self.plain.odd):
            found.update(zip(ids[begin:at], plain[begin:at]))
            (line, cells), begin = self.sheet.rows[at], at + 1
            said = self.said(cells)
            id = said.pop(Field.ID)
            if len(id) > MOST_IN_ID:
                self.report.add(line, "", IdTooLong(len(id), MOST_IN_ID))
            elif len(cells) > titles and (len(cells) > self.usual_length or any(cells[titles:])):
                self.report.add(line, id, TooManyCells(len(cells), titles))
            elif self.unknown.is_one(id):
                self.report.add(line, id, NoId(id, "" if id else text_of(cells)))
            elif id == id_title and are_titles(cells, self.sheet.titles):
                moved = self.sheet.other_orders
                self.report.add(line, "", TitlesAgain(line in moved or None, moved.get(line, ())))
            elif may_be_none and (word := self.no_animal(line, id, cells, said)):
                self.report.add(line, id, NoAnimal(word))
            elif id not in found:
                found[id] = self.cells.animal(line, id, said)
            elif self.same_ids.are_two(found[id], said):
                others.append(self.of_two(found, self.cells.animal(line, id, said)))
            else:
                self.take_one(found, line, id, said)
        found.update(zip(ids[begin:], plain[begin:]))
        tell_used_again(found, others, self.report, self.same_ids.born)
        self.look_at_all(found)
        return found

    def no_animal(self, line: int, id: str, cells: list[str], said: dict[str, str]) -> str:
        """The word by which a row is no animal, as somebody says; empty where it is one."""
        says_day = bool(said.get(Field.BIRTH) and self.same_ids.birth(said))
        says_more = says_day or bool(self.sexes.meaning(said.get(Field.SEX, "")).sex)
        word, text = self.no_animals.of_id(id), text_of(cells)
        if word == id and says_more and self.no_animals.is_of_other_row(word, text):
            self.no_animals.taken.add(plain(word))
            self.report.add(line, id, AnimalAfterAll(word, self.no_animals.before[plain(word)][0]))
            return ""
        word = word or ("" if says_more else self.no_animals.of_cells(cells))
        if word:
            self.no_animals.left_out[plain(word)].append(text)
        return word

    @functools.cached_property
    def usual_length(self) -> int:
        """How many cells a row may have. Many sheets have empty ones at the end of all rows."""
        lengths = collections.Counter(map(len, map(CELLS_OF, self.sheet.rows)))
        common = [length for length, count in lengths.items() if 2 * count > len(self.sheet.rows)]
        return max([len(self.sheet.titles), *common])

    def of_two(self, found: dict[str, SheetAnimal], second: SheetAnimal) -> SheetAnimal:
        """Takes one of two animals with one id, and answers the other."""
        first = found[second.id]
        if not self.same_ids.is_preferred(first, second):
            return second
        found[second.id] = second
        return first

    def take_one(self, found: dict[str, SheetAnimal], line: int, id: str, said: dict[str, str]) -> None:
        """Of two rows with one id the one that agrees with the book is taken, else the first."""
        first = found[id]
        if self.same_ids.is_of_book(id, said) and not self.same_ids.is_of_book(id, first.cells):
            found[id] = self.cells.animal(line, id, said)
            self.report.add(first.line, id, self.same_ids.again(found[id], said, first.cells))
        else:
            self.report.add(line, id, self.same_ids.again(first, first.cells, said))

    def look_at_all(self, animals: dict[str, SheetAnimal]) -> None:
        """What is told of the sheet as a whole, and of rows that seem to count or to sum up."""
        self.errors.leave_out(animals, self.report)
        self.cells.take_back()
        self.look_at_ids(animals)
        tell_exits_in_names(animals, self.plain.different.get(Field.NAME, ()), self.report)
        tell_exits_in_ids(animals, self.sheet.marked, self.report)
        tell_deaths_in_births(animals, self.plain.different.get(Field.BIRTH, ()), self.report)
        for field in (Field.NAME, Field.OWNER):
            if not TRUTHS.isdisjoint(self.plain.different.get(field, ())):
                tell_truths(animals, field, self.report)
        self.unread.parents = functools.partial(parents_by_text, animals.values())
        order = Order(self.slashed_days())
        fault, note = order.fault(self.month_first), order.note(self.month_first)
        self.faults += [*([fault] if fault else []), *self.cut_numbers(), *self.unread.mostly(), *self.errors.mostly()]
        self.notes += [*self.sheet.unread, *self.marked_rows(animals), *self.cells.letters.told(), *self.errors.told()]
        self.notes += [note] if note else []
        self.notes += [*self.cells.readings.told(), *self.unread.found()]
        if Field.SEX in self.columns:
            title = self.sheet.titles[self.columns[Field.SEX]]
            self.notes += self.sexes.told(title)
            self.notes += exits_in_sexes(title, animals, self.plain.different[Field.SEX])
            self.notes += one_sex_alone(title, self.texts(Field.SEX), self.sexes, animals.values())
        if self.cells.no_names:
            self.notes += names_told(self.unread.titles[Field.NAME], animals.values(), self.cells.no_names)
        self.notes += self.castrations.told(animals.values(), self.sexes)
        self.notes += first_days(animals, self.plain.different.get(Field.BIRTH, ()))
        self.notes += self.odd_days()
        self.notes += other_breeds(self.sheet, self.columns, self.cells.unknown)

    def odd_days(self) -> Iterator[SheetFinding]:
        """Days with day and month exchanged, and those that are years."""
        for field in (field for field in DAYS if field in self.columns):
            title, different = self.sheet.titles[self.columns[field]], self.plain.different[field]
            column = title, self.texts(field), different, self.sheet.rows
            yield from [] if self.month_first else exchanged(*column)
            yield from years_as_days(*column)

    def look_at_ids(self, animals: dict[str, SheetAnimal]) -> None:
        """What is told of ids, and of names that are days."""
        told = tell_odd_rows(animals, self.sheet.rows, self.report) | tell_ids_to_come(animals, self.report)
        told |= tell_dittos(animals, Field.ID, animals, self.report)
        tell_dittos(animals, Field.NAME, self.plain.different.get(Field.NAME, ()), self.report)
        for field in (Field.ID, Field.NAME):
            # of a workbook's cells it is known which are days
            texts = () if self.sheet.worksheets else self.plain.different.get(field, ())
            lines = {*self.sheet.days.get(self.columns.get(field, NOWHERE), ())}
            lines |= {animals[id].line for id in days_among(tuple(animals))} if field is Field.ID else set()
            told |= tell_days_for_texts(animals, field, lines, texts, self.report)
        told |= self.same_ids.born.keys()
        told |= tell_ids_otherwise(animals, self.same_ids.born.keys(), self.report)
        tell_odd_ids(animals, told | tell_several_ids(animals, told, self.report), self.report)

    def marked_rows(self, animals: dict[str, SheetAnimal]) -> Iterator[SheetFinding]:
        """The animals' rows that are filled grey or otherwise, those that are hidden, and what is struck through."""
        marked = {GreyRows: self.sheet.grey, ColoredRows: self.sheet.colored, HiddenRows: self.sheet.hidden}
        are_marked = any(marked.values()) or any(self.sheet.struck)
        lines = {*map(LINE_OF, animals.values())} if are_marked else set[int]()
        for kind, marks in marked.items():
            if of_animals := [line for line in marks if line in lines]:
                yield kind(len(of_animals), of_animals[0])
        yield from struck_told(self.sheet, lines)

    def slashed_days(self) -> Iterator[Place]:
        """The cells of days that may show their order, each with its place."""
        for name, what in DAYS.items():
            texts = self.texts(name)
            slashed = slashed_among(tuple(self.plain.different.get(name, ())))
            places = zip(self.sheet.rows, texts) if slashed else ()
            for (line, cells), text in places:
                if text in slashed:
                    yield Place(line, self.said(cells)[Field.ID], what, text)

    def cut_numbers(self) -> list[SheetFinding]:
        """Ids that the spreadsheet has cut, and formulas in place of their values."""
        ids = [self.columns[name] for name in (Field.ID, *ROLES) if name in self.columns]
        cut = self.cells_like(CUT, PLUS, ids)
        # a file that says whether a cell is a formula has texts that only look like one
        is_typed = self.sheet.formulas is not None
        formulas = [] if is_typed else self.cells_like(FORMULA, EQUALS, [*self.columns.values()])
        found: list[SheetFinding] = [CutNumber(*cell, len(cut)) for cell in cut[:1]]
        return found + [FormulaCell(*cell, len(formulas)) for cell in formulas[:1]]

    def cells_like(self, pattern: re.Pattern[str], sign: str, columns: list[int]) -> list[tuple[int, str]]:
        """The cells of some columns that a pattern fits, each with its line. Few sheets and few rows have the sign of
        one."""
        rows = self.sheet.rows if sign in self.sheet.together else []
        rows = [row for row in rows if sign in "\t".join(row.cells)]
        places = [(line, cells[at]) for line, cells in rows for at in columns if at < len(cells)]
        return [(line, text) for line, text in places if pattern.fullmatch(text)]
