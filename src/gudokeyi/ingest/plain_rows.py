"""Rows all of whose cells say something in a usual way, as most rows of most sheets: they are read together, a column
at a time, and each text of a column once. The others are odd, and are read one by one."""
from __future__ import annotations

import collections
import copy
import datetime
import itertools
import operator
import re
from collections.abc import Callable, Collection, Iterable, KeysView, Mapping, Sequence
from typing import TypeVar

from gudokeyi.domain.kinds import Field
from gudokeyi.domain.provenance import GIVEN_EXIT
from gudokeyi.domain.requests import MOST_IN_ID, MOST_IN_NAME
from gudokeyi.ingest.animal_cells import AnimalCells
from gudokeyi.ingest.animals import SheetAnimal
from gudokeyi.ingest.day_cells import ExitCell
from gudokeyi.ingest.days import ANY_DAY, Span
from gudokeyi.ingest.encodings import LOST, decoded_twice
from gudokeyi.ingest.no_names import no_names
from gudokeyi.ingest.sexes import is_unsure
from gudokeyi.ingest.sheets import Sheet
from gudokeyi.ingest.statuses import taker_of_owner
from gudokeyi.ingest.texts import plain
from gudokeyi.ingest.unknown_parents import UnknownParents, names_no_owner
from gudokeyi.ingest.words import KNOWN_NO, KNOWN_SUMS, KNOWN_YES

Value = TypeVar("Value")
# what stands for the days of an empty cell
Nothing = TypeVar("Nothing")
# the columns whose texts are kept as they are
TEXTS = (Field.ID, Field.NAME, Field.OWNER, Field.SIRE, Field.DAM)
# what may stand between the letters of a word, and around it
BETWEEN = r"[\W_]*"
# what stands around a word that sums up
SIGNS = ":;.,=–-"
LINE_OF, CELLS_OF = operator.attrgetter("line"), operator.attrgetter("cells")
NO_ANIMAL = SheetAnimal("")


def chooser(places: list[int]) -> Callable[[list[str]], Sequence[str]]:
    """What chooses the cells at some places of a row."""
    if len(places) > 1:
        return operator.itemgetter(*places)
    return lambda cells: [cells[at] for at in places]


def with_words(texts: Collection[str], words: Collection[str]) -> set[str]:
    """The texts that are one of some words, as `plain` compares them."""
    forms = [BETWEEN.join(["", *(re.escape(letter) for letter in word), ""]) for word in words]
    is_one = re.compile("|".join(forms), re.IGNORECASE).fullmatch
    return {text for text in texts if (is_one(text) if text.isascii() else plain(text) in words)} if words else set()


def unknown_among(unknown: UnknownParents, texts: Collection[str]) -> set[str]:
    """Those of many texts that stand for an unknown parent."""
    # a remark may have a number
    remarked = {text for text in texts if "(" in text}
    likely = unknown.among(texts).union(remarked, itertools.filterfalse(str.isascii, texts))
    return {*filter(unknown.is_one, likely)}


def may_be_sum(id: str) -> bool:
    """Can it begin with a word that sums up? None ends with a digit, as most ids of one word do."""
    return not id[-1:].isdigit() or " " in id


def first_sum(id: str) -> str:
    """The first word of an id, where it sums up."""
    word = id.split()[0] if id else ""
    # no word that sums up ends with a digit, as most ids do
    return word.strip(SIGNS) if not word[-1:].isdigit() and plain(word) in KNOWN_SUMS else ""


def different_of(texts: Iterable[str]) -> KeysView[str]:
    """Each of some texts once. In their order they take less memory than as a set, and are gone through sooner."""
    return dict.fromkeys(texts).keys()


def is_doubtful(text: str) -> bool:
    """May its letters have been decoded wrongly?"""
    return LOST in text or bool(decoded_twice(text))


class PlainRows:
    """The plain rows of a sheet, whose columns have these places; `cells` read what the others say, and count what is
    read of both. Rows with one of some words are odd."""

    def __init__(
        self, sheet: Sheet, columns: Mapping[str, int], cells: AnimalCells, words: Collection[str]
    ) -> None:
        self.sheet, self.columns, self.cells, self.words, self.rows = sheet, columns, cells, {*words}, sheet.rows
        self.texts = {name: sheet.column(at) for name, at in columns.items()}
        self.different = {name: different_of(texts) for name, texts in self.texts.items()}
        # the places of the odd rows
        self.odd = set[int]()
        # of the columns of which it is counted, the texts that say something
        self.saying: dict[Field, set[str]] = {}
        # the texts of sexes that are taken for another word, which is that
        self.short: dict[str, str] = {}
        self.leave_long_rows()
        self.leave_words(self.words)
        self.leave_ids()
        self.leave_texts()
        self.look_at_names()
        self.animals = self.read()

    def read(self) -> list[SheetAnimal]:
        """The animals of all rows; of odd ones they aren't what these say."""
        births, lefts = self.days(Field.BIRTH, ANY_DAY), self.exits()
        if Field.EXIT in self.texts:
            days = enumerate(zip(births, lefts))
            self.odd |= {at for at, (birth, left) in days if left and birth.first > left}
        self.leave_embryos()
        animals = [*map(
            SheetAnimal, self.texts[Field.ID], map(LINE_OF, self.rows), self.names(), self.sexes(), births,
            self.parents(Field.SIRE), self.parents(Field.DAM), self.owners(), self.said(), self.days(Field.SINCE, None),
            lefts,
        )]  # fmt: skip
        self.give_reasons(animals)
        self.leave_sexes_open(animals)
        return animals

    def give_reasons(self, animals: list[SheetAnimal]) -> None:
        """What stands beside the days of exits."""
        reasons = self.sheet.reasons
        bases = {text: GIVEN_EXIT.with_reason(text) for text in {*reasons.values()}}
        for animal in animals if reasons else ():
            if animal.left and (text := reasons.get(animal.line)):
                animal.exit_basis = bases[text]

    def leave_sexes_open(self, animals: list[SheetAnimal]) -> None:
        """Those that are marked as inferred are likely ones."""
        lines = self.cells.inferred_sexes
        for animal in animals if lines else ():
            if animal.line in lines:
                animal.sex, animal.likely_sex = "", animal.sex

    def again(self, sheet: Sheet, cells: AnimalCells, words: Collection[str]) -> PlainRows | None:
        """The same rows, some of whose texts mean something else now, and others come or go: the rows that have these,
        and those that come, are odd from here on. Nothing where most would be."""
        before, found = self.cells, copy.copy(self)
        if before.days.today != cells.days.today:
            return None
        found.cells, found.words, found.odd = cells, {*words}, {*self.odd}
        if sheet is not self.sheet:
            found.take_rows(sheet)
        found.leave_words(found.words - self.words)
        for field, texts in self.different.items():
            found.leave(Field(field), {*before.read_otherwise(cells, Field(field), texts)})
        found.look_at_names()
        return found if 2 * len(found.odd) <= len(self.rows) else None

    def take_rows(self, sheet: Sheet) -> None:
        """Takes the rows of a sheet in place of those that were read. One that wasn't is odd, and so is one with its
        id."""
        places = {id(row): at for at, row in enumerate(self.rows)}
        before = [places.get(id(row)) for row in sheet.rows]
        new = {at for at, place in enumerate(before) if place is None}
        odd = {at for at, place in enumerate(before) if place in self.odd}
        # what stands for the animal of an odd row isn't asked for
        self.animals = [NO_ANIMAL if place is None else self.animals[place] for place in before]
        if sheet.reasons != self.sheet.reasons or sheet.sales != self.sheet.sales:
            others = {line for line, _ in sheet.reasons.items() ^ self.sheet.reasons.items()}
            others |= {line for line, _ in sheet.sales.items() ^ self.sheet.sales.items()}
            odd |= {at for at, row in enumerate(sheet.rows) if row.line in others}
        self.sheet, self.rows, self.odd = sheet, sheet.rows, new | odd
        self.texts = {name: sheet.column(at) for name, at in self.columns.items()}
        self.different = {name: different_of(texts) for name, texts in self.texts.items()}
        self.leave(Field.ID, {self.texts[Field.ID][at] for at in new})

    def by_id(self) -> dict[str, SheetAnimal]:
        """The animals of plain rows."""
        found = dict(zip(self.texts[Field.ID], self.animals))
        for id in self.odd_ids():
            del found[id]
        return found

    def odd_ids(self) -> set[str]:
        return {self.texts[Field.ID][at] for at in self.odd}

    # -- odd rows

    def leave_lines(self, lines: Collection[int]) -> None:
        """The rows of some lines are odd."""
        self.odd |= {at for at, row in enumerate(self.rows) if row.line in lines} if lines else set()

    def leave(self, field: Field, odd: Collection[str]) -> None:
        """Rows that have one of some texts in a column are odd."""
        if odd:
            self.odd |= {at for at, text in enumerate(self.texts[field]) if text in odd}

    def leave_long_rows(self) -> None:
        """Those with more cells than titles."""
        titles = len(self.sheet.titles)
        if max(map(len, map(CELLS_OF, self.rows)), default=0) > titles:
            self.odd |= {at for at, row in enumerate(self.rows) if len(row.cells) > titles}

    def leave_words(self, words: Collection[str]) -> None:
        """Those with a cell that is a word, or with an id that begins with one."""
        for at in range(len(self.sheet.titles)) if words else ():
            column = self.sheet.column(at)
            if odd := with_words({*column}, words):
                self.odd |= {place for place, text in enumerate(column) if text in odd}
        if words:
            ids = filter(may_be_sum, self.different[Field.ID])
            self.leave(Field.ID, {id for id in ids if plain(first_sum(id)) in words})

    def leave_ids(self) -> None:
        """Ids that are too long, unknown, the column's title or there twice."""
        ids, texts = self.different[Field.ID], self.texts[Field.ID]
        odd = {self.sheet.titles[self.columns[Field.ID]], *unknown_among(self.cells.unknown, ids)} & ids
        if max(map(len, ids), default=0) > MOST_IN_ID:
            odd |= {id for id in ids if len(id) > MOST_IN_ID}
        if len(ids) < len(texts):
            odd |= {id for id, count in collections.Counter(texts).items() if count > 1}
        self.leave(Field.ID, odd)

    def leave_texts(self) -> None:
        """Texts whose letters may have been decoded wrongly, and rows whose texts are too long together."""
        there = [field for field in TEXTS if field in self.texts]
        for field in there:
            self.leave(field, {*filter(is_doubtful, itertools.filterfalse(str.isascii, self.different[field]))})
        if sum(max(map(len, self.different[field]), default=0) for field in there) > MOST_IN_NAME:
            lengths = map(sum, zip(*(map(len, self.texts[field]) for field in there)))
            self.odd |= {at for at, length in enumerate(lengths) if length > MOST_IN_NAME}

    def leave_embryos(self) -> None:
        if Field.EMBRYO not in self.texts:
            return
        texts = {text: text.casefold() for text in self.different[Field.EMBRYO] if text}
        self.saying[Field.EMBRYO] = {text for text, folded in texts.items() if folded in KNOWN_NO}
        not_told = {text for text in texts if text in self.cells.unknown and texts[text] not in KNOWN_YES}
        self.leave(Field.EMBRYO, texts.keys() - self.saying[Field.EMBRYO] - not_told)

    # -- what the columns say

    def values(self, field: Field, values: Mapping[str, Value]) -> Iterable[Value]:
        """The value of each text of a column."""
        return [*map(values.__getitem__, self.texts[field])]

    def look_at_names(self) -> None:
        self.cells.no_names = no_names(self.different.get(Field.NAME, ()), self.cells.unknown.known)

    def names(self) -> Iterable[str]:
        return self.without(Field.NAME, self.cells.no_names) if Field.NAME in self.texts else itertools.repeat("")

    def without(self, field: Field, empty: Collection[str]) -> Iterable[str]:
        """The texts of a column, some of which say nothing."""
        texts = self.texts[field]
        return ["" if text in empty else text for text in texts] if empty else texts

    def parents(self, field: Field) -> Iterable[str]:
        if field not in self.texts:
            return itertools.repeat("")
        return self.without(field, unknown_among(self.cells.unknown, self.different[field]) - {""})

    def owners(self) -> Iterable[str]:
        if Field.OWNER not in self.texts:
            return itertools.repeat("")
        self.leave(Field.OWNER, {*filter(taker_of_owner, self.different[Field.OWNER])})
        return self.without(Field.OWNER, {*filter(names_no_owner, self.different[Field.OWNER])} - {""})

    def sexes(self) -> Iterable[str]:
        if Field.SEX not in self.texts:
            return itertools.repeat("")
        meanings = {text: self.cells.sexes.meaning(text) for text in self.different[Field.SEX]}
        self.saying[Field.SEX] = {text for text, meaning in meanings.items() if meaning.sex}
        self.short = {text: meaning.word for text, meaning in meanings.items() if meaning.word}
        castrated = {text for text, meaning in meanings.items() if meaning.is_castrated}
        silent = meanings.keys() - self.saying[Field.SEX]
        unsure = {*filter(is_unsure, self.saying[Field.SEX])}
        self.leave(Field.SEX, (castrated | unsure).union(text for text in silent if text not in self.cells.unknown))
        return self.values(Field.SEX, {text: meaning.sex for text, meaning in meanings.items()})

    def days(self, field: Field, nothing: Nothing) -> Iterable[Span | Nothing]:
        if field not in self.texts:
            return itertools.repeat(nothing)
        texts = self.different[field] - {""}
        days = self.cells.days.of_all(field, texts, unknown_among(self.cells.unknown, texts))
        self.saying[field] = {text for text, day in days.items() if day.says_something}
        self.leave(field, {text for text, day in days.items() if day.fault or day.reading})
        return self.values(field, {"": nothing, **{text: day.span or nothing for text, day in days.items()}})

    def exits(self) -> Iterable[datetime.date | None]:
        """The days of exits; texts with more than a day are odd."""
        if Field.EXIT not in self.texts:
            return itertools.repeat(None)
        exits = {text: self.cells.days.exit(text) for text in self.different[Field.EXIT]}
        tells = {text: exit for text, exit in exits.items() if text and exit}
        left = {text: day_of(exit) for text, exit in tells.items()}
        self.saying[Field.EXIT] = {text for text, day in left.items() if day}
        self.leave(Field.EXIT, {text for text, day in left.items() if not day})
        return self.values(Field.EXIT, {**dict.fromkeys(exits), **left})

    def said(self) -> Iterable[dict[str, str]]:
        """The cells of each row by their fields, but for its id."""
        names = [name for name in self.columns if name != Field.ID]
        width, chosen = 1 + max(self.columns.values()), chooser([self.columns[name] for name in names])
        rows: Iterable[list[str]] = map(CELLS_OF, self.rows)
        if min(map(len, map(CELLS_OF, self.rows)), default=width) < width:
            rows = [cells + [""] * (width - len(cells)) for cells in rows]
        return (dict(zip(names, texts)) for texts in map(chosen, rows))

    def count(self) -> None:
        """How many cells of plain rows say something, and are taken for another word."""
        for field, saying in self.saying.items():
            texts = self.texts[field]
            in_odd = sum(texts[at] in saying for at in self.odd)
            self.cells.unread.read[field] += sum(map(saying.__contains__, texts)) - in_odd
        if self.short:
            texts = self.texts[Field.SEX]
            counts = collections.Counter(texts)
            counts.subtract(texts[at] for at in self.odd)
            taken_for = {(text, word): counts[text] for text, word in self.short.items() if counts[text]}
            self.cells.sexes.taken_for.update(taken_for)


def day_of(exit: ExitCell) -> datetime.date | None:
    """The day of a text that is nothing but one."""
    day = exit.day
    is_plain = exit.is_span and day.span and day.span.is_day and not day.fault and not day.reading
    return day.span.last if day.span and is_plain else None
