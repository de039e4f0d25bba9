"""Reads the cells of an animal's row: its parents, its sex, its days, and whether it is a stored embryo; and what of a
sheet's cells can't be read."""
from __future__ import annotations

import collections
from collections.abc import Callable, Collection, Mapping
from dataclasses import replace

from gudokeyi.domain.findings import Finding, Report
from gudokeyi.domain.kinds import CELL_FIELDS, Field
from gudokeyi.domain.messages import MOST_NAMED
from gudokeyi.domain.provenance import ExitBasis, ExitSource
from gudokeyi.domain.requests import MOST_IN_NAME, MOST_IN_OWNER
from gudokeyi.ingest.animals import Castration, SheetAnimal
from gudokeyi.ingest.day_cells import DayCell, DayCells, ExitCell, usual_cell
from gudokeyi.ingest.day_forms import DayForms, Readings
from gudokeyi.ingest.days import ANY_DAY, DayFault, Span, is_span
from gudokeyi.ingest.encodings import Letters
from gudokeyi.ingest.exits_in_doubt import is_in_doubt
from gudokeyi.ingest.findings.cells import DAYS, DayLeftOut, EmbryoUnread, ErrorValue, NarrowValue, SexUnread, TextTooLong
from gudokeyi.ingest.findings.columns import SheetFinding
from gudokeyi.ingest.findings.exits import (
    ExitInDoubt, ExitInferred, ExitsInOtherWords, ExitsWithoutDay, Remark, told_of_remarks,
)  # fmt: skip
from gudokeyi.ingest.findings.rows import StatusDisagrees
from gudokeyi.ingest.findings.sales import OwnerInExit, OwnerSold, SoldEarlier, SoldThenLeft, SoldWithin, TakerUnclear
from gudokeyi.ingest.findings.sexes import SexesUnknown, SexesUnsure, UnknownSex
from gudokeyi.ingest.findings.sheets import (
    MOST_TEXTS, Cells, CellsUnread, ErrorCells, ErrorColumn, NarrowCells, NarrowColumn, TextCount,
)  # fmt: skip
from gudokeyi.ingest.rows_as_meant import Takers
from gudokeyi.ingest.sexes import Sexes, is_unsure
from gudokeyi.ingest.sheets import Sheet
from gudokeyi.ingest.statuses import parted_at_death, taker_of_owner
from gudokeyi.ingest.texts import plain
from gudokeyi.ingest.titles import names_other_exits
from gudokeyi.ingest.unknown_parents import UnknownParents, names_no_owner
from gudokeyi.ingest.exit_words import exit_word
from gudokeyi.ingest.words import KNOWN_NO, KNOWN_SALES, KNOWN_YES, is_error_value

# The cells of a sheet that can't be read: which texts there are, and whether they are most of a column.

# a text, and its line
Cell = tuple[str, int]


class Unread:
    """For each column, by its field, the texts that can't be read, and how many cells say something: an empty one or
    a word for unknown doesn't, nor does one for a living animal tell of an exit. `titles` are the columns' own."""

    def __init__(self, titles: dict[str, str]) -> None:
        self.titles = titles
        self.cells: collections.defaultdict[str, list[Cell]] = collections.defaultdict(list)
        # texts such as `sold`, which say something, though no day
        self.exits: list[Cell] = []
        # texts with a day that is taken for that of an exit, though no word tells of one
        self.other_words: list[Cell] = []
        # texts that tell of something else than an exit
        self.no_exits: list[Cell] = []
        # those of sexes that aren't sure
        self.unsure: list[Cell] = []
        self.read: collections.Counter[str] = collections.Counter()
        # those of other columns, by the lines whose exits are their days or words
        self.exit_titles: Mapping[int, str] = {}
        # how many animals with each text for a sex are sires, and how many dams
        self.parents: Callable[[], Mapping[str, tuple[int, int]]] = dict

    def add(self, field: str, text: str, line: int) -> None:
        cells = self.exits if field == "exit" and exit_word(text) else self.cells[field]
        cells.append((text, line))

    def found(self) -> list[SheetFinding]:
        of_each = [its for field, cells in self.cells.items() for its in self.of_each(field, cells)]
        told: list[SheetFinding] = [*map(self.told, of_each)]
        told += map(ExitsWithoutDay, self.of_each(Field.EXIT, self.exits))
        told += [one for those in by_title(self.remarks()) for one in told_of_remarks(those)]
        told += [SexesUnsure(self.titles[Field.SEX], len(self.unsure), *self.unsure[0])] if self.unsure else []
        return [*told, *map(ExitsInOtherWords, self.of_each(Field.EXIT, self.other_words))]

    def remarks(self) -> list[Remark]:
        """The texts that tell of no exit, to be kept."""
        return [Remark(line, self.title(Field.EXIT, line), text) for text, line in self.no_exits]

    def of_each(self, field: str, cells: list[Cell]) -> list[Cells]:
        """The cells of the column, and those of others that are taken for an exit."""
        if field != Field.EXIT or not self.exit_titles:
            return [self.of(field, cells)] if cells else []
        by_title = collections.defaultdict[str, list[Cell]](list)
        for cell in sorted(cells, key=lambda one: one[1] in self.exit_titles):
            by_title[self.title(field, cell[1])].append(cell)
        said = collections.Counter(self.exit_titles.values())
        said[self.titles[field]] += self.read[field] - len(self.exit_titles)
        return [replace(self.of(field, its), said=max(said[title], len(its))) for title, its in by_title.items()]

    def title(self, field: str, line: int) -> str:
        """That of the column in which a cell stands."""
        return self.exit_titles.get(line, self.titles[field]) if field == Field.EXIT else self.titles[field]

    def of(self, field: str, cells: list[Cell]) -> Cells:
        counts = collections.Counter(text for text, _ in cells).most_common()
        texts = tuple(TextCount(text, count) for text, count in counts[:MOST_TEXTS])
        line = cells[0][1]
        [(title, _)] = collections.Counter(self.title(field, line) for _, line in cells).most_common(1)
        return Cells(Field(field), title, len(cells), self.read[field], line, texts, len(counts) - len(texts))

    def mostly(self) -> list[SheetFinding]:
        """A column is a mistake where more than half of its cells that say something, and at least three, can't be
        read: hardly anything of it would be taken. One beside that of the exits is only told."""
        found = [its for field, cells in self.cells.items() for its in self.of_each(field, cells)]
        found = [its for its in found if its.title == self.titles[its.field] and its.count > max(2, its.said // 2)]
        return [*map(self.told, found)]

    def told(self, cells: Cells) -> CellsUnread:
        """What is told of cells that can't be read; of sexes of which none can what the animals' offspring say too."""
        if cells.field is not Field.SEX or cells.count < cells.said or cells.more or len(cells.texts) < 2:
            title = self.titles[cells.field]
            return CellsUnread(cells, title if cells.title != title else "")
        parents = self.parents()
        sexes = (UnknownSex(one.text, one.count, *parents.get(one.text, (0, 0))) for one in cells.texts)
        return SexesUnknown(cells, sexes=(*sexes,))


def by_title(remarks: list[Remark]) -> list[list[Remark]]:
    found = collections.defaultdict[str, list[Remark]](list)
    for remark in remarks:
        found[remark.title].append(remark)
    return [*found.values()]


# Cells that show a spreadsheet's error value, as `#REF!`: they are empty, and told.


class ErrorValues:
    """The error values of a sheet: for each its line, its column and its text."""

    def __init__(self, sheet: Sheet, columns: dict[str, int]) -> None:
        self.sheet, self.columns = sheet, columns
        rows = sheet.rows if may_have(sheet.together) else []
        self.found = [
            (line, at, text)
            for line, cells in rows
            if may_have("\t".join(cells))
            for at, text in enumerate(cells)
            if is_error_value(text)
        ]

    @staticmethod
    def is_one(text: str) -> bool:
        return is_error_value(text)

    def title(self, at: int) -> str:
        return self.sheet.titles[at] if at < len(self.sheet.titles) else f"{at + 1}"

    def leave_out(self, animals: dict[str, SheetAnimal], report: Report) -> None:
        """Each is left out; what the book has of the animal stays."""
        names = {at: name for name, at in self.columns.items()}
        by_line = {animal.line: animal for animal in animals.values()}
        for line, at, text in self.found:
            animal = by_line.get(line)
            if at in names and animal:
                animal.unread.append(names[at])
            id = animal.id if animal else ""
            report.add(line, id, (NarrowValue if is_narrow(text) else ErrorValue)(self.title(at), text))

    def told(self) -> list[SheetFinding]:
        narrow = [one for one in self.found if is_narrow(one[2])]
        errors = [one for one in self.found if not is_narrow(one[2])]
        return [self.of_all(kind, found) for kind, found in ((ErrorCells, errors), (NarrowCells, narrow)) if found]

    def of_all(self, kind: type[ErrorCells], found: list[tuple[int, int, str]]) -> ErrorCells:
        texts = tuple(dict.fromkeys(text for _, _, text in found))
        titles = tuple(self.title(at) for at in dict.fromkeys(at for _, at, _ in found))
        return kind(len(found), titles, found[0][0], texts)

    def mostly(self) -> list[SheetFinding]:
        """A column is a mistake where most of its cells are error values, and at least three."""
        if not self.found:
            return []
        counts = collections.Counter(at for _, at, _ in self.found)
        faults: list[SheetFinding] = []
        for name, at in self.columns.items():
            filled = sum(1 for _, cells in self.sheet.rows if at < len(cells) and cells[at])
            if counts[at] > max(2, filled // 2):
                are_narrow = all(is_narrow(text) for _, place, text in self.found if place == at)
                kind = NarrowColumn if are_narrow else ErrorColumn
                faults.append(kind(Field(name), self.title(at), counts[at], filled))
        return faults


def is_narrow(text: str) -> bool:
    """Is it what a spreadsheet shows of a value for which the column is too narrow?"""
    return not text.strip("#")


def may_have(cells: str) -> bool:
    """Can one of the cells of a text show an error value? Few sheets and few rows have a sign of one."""
    return "#" in cells or "Err" in cells


# Reads the cells of an animal's row: its parents, its sex, its days, and whether it is a stored embryo.

# where a row has no cell
NO_TEXTS = ("",) * len(CELL_FIELDS)
# so many letters are kept of a cell
KEPT = {Field.NAME: MOST_IN_NAME, Field.OWNER: MOST_IN_OWNER, Field.SIRE: MOST_IN_NAME, Field.DAM: MOST_IN_NAME}


class AnimalCells:
    """Makes animals of the cells of their rows, by the fields of these. What can't be read is counted and told."""

    def __init__(
        self, unknown: UnknownParents, sexes: Sexes, unread: Unread, report: Report, month_first: bool,
        forms: DayForms | None = None,
    ) -> None:  # fmt: skip
        self.unknown, self.sexes, self.unread, self.report = unknown, sexes, unread, report
        self.days, self.letters = DayCells(unknown, month_first, forms), Letters()
        self.readings, self.takers = Readings(), Takers({})
        # what stands beside the days of exits, by lines
        self.reasons: Mapping[int, str] = {}
        # the texts of the column of names that are none, once these are looked at
        self.no_names: Collection[str] = ()
        # sales that other columns tell beside the days of other exits, by lines
        self.sales: Mapping[int, str] = {}
        # the titles and texts of other columns that tell of castrations, by lines
        self.castrations: Mapping[int, tuple[str, str]] = {}
        # the lines of rows whose sex a list of the book marks as inferred
        self.inferred_sexes: Collection[int] = ()
        # the animals that an owner took on the day of their exit
        self.sold: set[str] = set()

    def read_otherwise(self, others: AnimalCells, field: Field, texts: Collection[str]) -> set[str]:
        """The texts of a column that may be read otherwise by others."""
        words = self.unknown.words_apart(others.unknown)
        found = set[str]()
        if words and not words.isdisjoint(map(str.casefold, texts)):
            found |= {text for text in texts if text.casefold() in words}
        if field is Field.SEX:
            found |= {text for text in texts if self.sexes.meaning(text) != others.sexes.meaning(text)}
        if field in DAYS and self.days.month_first != others.days.month_first:
            found |= {text for text in texts if not usual_cell(text, self.days.today)}
        return found

    def animal(self, line: int, id: str, cells: dict[str, str]) -> SheetAnimal:
        """The animal of a row, by the cells of its other columns."""
        said: Callable[[str, str], str] = cells.get
        name, sex, birth, sire, dam, owner, since, exit, embryo = map(said, CELL_FIELDS, NO_TEXTS)
        sire = "" if self.unknown.is_one(sire) else sire
        dam = "" if self.unknown.is_one(dam) else dam
        owner = "" if names_no_owner(owner) else owner
        name = "" if name in self.no_names else name
        animal = SheetAnimal(id, line, name, "", ANY_DAY, sire, dam, owner, cells)
        if not f"{id}{name}{owner}{sire}{dam}".isascii():
            self.look_at_letters(animal)
        if len(f"{name}{owner}{sire}{dam}") > MOST_IN_NAME:
            self.leave_out_long(animal)
        self.read_sex(animal, sex)
        if birth:
            animal.birth = self.span(animal, Field.BIRTH, birth, self.days.day(Field.BIRTH, birth)) or ANY_DAY
        if since:
            animal.since = self.span(animal, Field.SINCE, since, self.days.day(Field.SINCE, since))
        if owner and (taker := taker_of_owner(owner)):
            self.read_taker(animal, owner, taker)
        if sale := self.sales.get(line):
            self.read_sale(animal, sale)
        if exit:
            self.read_exit(animal, exit)
        if (reason := self.reasons.get(line)) and (animal.left or animal.exit_basis.day_is_unknown):
            animal.exit_basis = animal.exit_basis.with_reason(reason)
            if is_span(exit):
                self.tell_taker(animal, reason)
        if embryo:
            animal.embryo = self.is_embryo(animal, embryo)
        return animal

    def look_at_letters(self, animal: SheetAnimal) -> None:
        for text in animal.id, animal.name, animal.owner, animal.sire, animal.dam:
            if not text.isascii():
                self.letters.look(animal.line, text)

    def leave_out_long(self, animal: SheetAnimal) -> None:
        """A parent may be written by its name."""
        for field, most in KEPT.items():
            text = getattr(animal, field)
            if len(text) > most:
                setattr(animal, field, "")
                self.not_taken(animal, field, TextTooLong(field, len(text), most))

    def leave_out(self, animal: SheetAnimal, name: str, text: str, found: Finding) -> None:
        """A cell that can't be read."""
        self.unread.add(name, text, animal.line)
        self.not_taken(animal, name, found)

    def not_taken(self, animal: SheetAnimal, name: str, found: Finding) -> None:
        animal.unread.append(name)
        self.report.add(animal.line, animal.id, found)

    def read_sex(self, animal: SheetAnimal, text: str) -> None:
        animal.sex, animal.castrated = self.sexes.read(text)
        if animal.sex:
            self.unread.read[Field.SEX] += 1
            if is_unsure(text):
                self.unread.unsure.append((text, animal.line))
            if is_unsure(text) or animal.line in self.inferred_sexes:
                animal.sex, animal.likely_sex = "", animal.sex
            if "M" in (animal.sex, animal.likely_sex) and (said := self.castrations.get(animal.line)):
                span = self.days.day(Field.EXIT, said[1]).span
                animal.castrated, animal.castration = True, Castration(*said, span.last if span else None)
        elif text not in self.unknown:
            self.unread.read[Field.SEX] += 1
            self.leave_out(animal, Field.SEX, text, SexUnread(text))

    def span(self, animal: SheetAnimal, field: Field, text: str, day: DayCell) -> Span | None:
        """The days of a cell; one that isn't taken is told."""
        self.unread.read[field] += day.says_something
        if day.fault and day.is_unread:
            self.leave_out(animal, field, text, day.fault)
        elif day.fault:
            self.not_taken(animal, field, day.fault)
        if day.reading and day.span:
            self.readings.add(self.unread.title(field, animal.line), day.reading, animal.line, text, day.span)
        return day.span

    def read_exit(self, animal: SheetAnimal, text: str) -> None:
        sale, behind = parted_at_death(text)
        if behind and (sold := self.days.exit(sale)) and self.is_sold_within(animal, sale, sold, behind):
            text = behind
        exit = self.days.exit(text)
        if exit is None or self.is_sold_within(animal, text if not exit.is_span else self.sale_beside(animal), exit):
            return
        if exit.is_none:
            self.unread.read[Field.EXIT] += 1
            self.unread.no_exits.append((text, animal.line))
            return
        if exit.day.span and self.is_day_of_sale(animal, exit):
            return
        left = self.span(animal, Field.EXIT, text, exit.day)
        if left and left.last < animal.birth.first:
            if exit.is_span:
                self.not_taken(animal, Field.EXIT, DayLeftOut(Field.EXIT, DayFault.BEFORE_BIRTH, text, True))
            else:
                found = DayLeftOut(Field.EXIT, DayFault.WITHIN_BEFORE_BIRTH, text, True)
                self.leave_out(animal, Field.EXIT, text, found)
            left = None
        if left:
            animal.left, animal.exit_basis = left.last, exit.basis
            if not exit.is_span and not exit_word(text):
                self.unread.other_words.append((text, animal.line))
            if animal.exit_basis.is_inferred or not exit.is_span:
                inferred = ExitInferred(animal.left, animal.exit_basis, "" if exit.is_span else text)
                self.report.add(animal.line, animal.id, inferred)
        elif Field.EXIT in animal.unread and not exit.is_later:
            animal.exit_basis = ExitBasis(ExitSource.UNKNOWN_DAY, text=text)
        if not exit.is_span and (left or animal.exit_basis.day_is_unknown):
            self.tell_doubt(animal, text)

    def tell_doubt(self, animal: SheetAnimal, text: str) -> None:
        """An exit that isn't sure, or whose text has the name of another owner of the society."""
        if is_in_doubt(text):
            self.report.add(animal.line, animal.id, ExitInDoubt(text))
        owners = tuple(one for one in self.takers.within(text) if one != animal.owner)
        if not self.takers.named(text) and not self.tell_taker(animal, text) and owners:
            self.report.add(animal.line, animal.id, OwnerInExit(text, owners[:MOST_NAMED]))

    def tell_taker(self, animal: SheetAnimal, text: str) -> bool:
        """Owners who may be meant behind a word for a sale, as in `verk. Meier`, and of whom none is taken for it;
        answers whether there are any."""
        takers = self.takers.behind_sale(text)
        if takers:
            kind = TakerUnclear if {*takers} - {*self.takers.within(text)} else OwnerInExit
            self.report.add(animal.line, animal.id, kind(text, takers[:MOST_NAMED]))
        return bool(takers)

    def sale_beside(self, animal: SheetAnimal) -> str:
        """What another column says of the sale to an owner, beside a day in that of exits, as `verk. Meier`."""
        reason = self.reasons.get(animal.line, "")
        is_sale = self.takers.sold_to(reason) and not names_other_exits(self.unread.titles[Field.EXIT])
        return f"{reason} {animal.cells[Field.EXIT]}" if is_sale else ""

    def lines_of_sales(self) -> set[int]:
        """Those of rows of which another column may tell so to whom the animal was sold."""
        sales = {reason for reason in {*self.reasons.values()} if self.takers.behind_sale(reason)}
        return {line for line, reason in self.reasons.items() if reason in sales}.union(self.sales)

    def read_sale(self, animal: SheetAnimal, sale: str) -> None:
        """What other columns say of a sale, beside the day of another exit."""
        sold = self.days.exit(sale)
        if sold and self.is_sold_within(animal, sale, sold, animal.cells.get(Field.EXIT, "")):
            self.sold.add(animal.id)

    def is_sold_within(self, animal: SheetAnimal, text: str, exit: ExitCell, behind: str = "") -> bool:
        """Was it sold to an owner of the society? Then it has him, since the day that the text has, unless another one
        has it since a later day. `behind` tells how it left later."""
        named = self.takers.named(text) or self.takers.sold_to(text)
        if len(named) != 1:
            if named:
                self.report.add(animal.line, animal.id, TakerUnclear(text, named[:MOST_NAMED]))
            return False
        [owner], day = named, exit.day.span
        self.unread.read[Field.EXIT] += not behind
        before = animal.owner if animal.owner != owner else ""
        if before and day and animal.since and day.last < animal.since.first:
            self.report.add(animal.line, animal.id, SoldEarlier(text, owner, before, animal.since.first))
            return True
        animal.owner, animal.owner_before, animal.since = owner, before, day or animal.since
        animal.is_since_sale = day is not None
        told = SoldThenLeft(owner, before, text, behind) if behind else SoldWithin(owner, before, text)
        self.report.add(animal.line, animal.id, told)
        return True

    def is_day_of_sale(self, animal: SheetAnimal, exit: ExitCell) -> bool:
        """Is it the day on which the owner took the animal, whose cell tells of that without a day?"""
        text, reason = animal.cells.get(Field.OWNER, ""), exit.reason or self.reasons.get(animal.line, "")
        is_told = text != animal.owner and taker_of_owner(text) and animal.since in (None, exit.day.span)
        if not is_told or names_other_exits(self.unread.titles[Field.EXIT]):
            return False
        if plain(reason) not in KNOWN_SALES | {""} and not taker_of_owner(reason):
            return False
        self.unread.read[Field.EXIT] += 1
        animal.since, animal.is_since_sale = exit.day.span, True
        self.sold.add(animal.id)
        self.report.add(animal.line, animal.id, SoldWithin(animal.owner, "", f"{text} {animal.cells[Field.EXIT]}"))
        return True

    def take_back(self) -> None:
        """Those who were sold so live, as another column may say."""
        entries = self.report.entries
        if self.sold:
            is_none = [one.id in self.sold and isinstance(one.finding, StatusDisagrees) for one in entries]
            self.report.entries = [one for one, is_wrong in zip(entries, is_none) if not is_wrong]

    def read_taker(self, animal: SheetAnimal, text: str, taker: str) -> None:
        """The owner of an animal is written as `verkauft an Meier`, who is an owner of other animals."""
        named = self.takers.called(taker)
        if len(named) != 1:
            return
        [animal.owner], day = named, self.days.day(Field.EXIT, text)
        if day.span:
            animal.since, animal.is_since_sale = day.span, True
        if day.reading and day.span:
            self.readings.add(self.unread.titles[Field.OWNER], day.reading, animal.line, text, day.span)
        self.report.add(animal.line, animal.id, OwnerSold(text, animal.owner))

    def is_embryo(self, animal: SheetAnimal, text: str) -> bool:
        is_told = text not in self.unknown or text.casefold() in KNOWN_NO
        self.unread.read[Field.EMBRYO] += is_told
        if is_told and text.casefold() not in KNOWN_YES | KNOWN_NO:
            self.leave_out(animal, Field.EMBRYO, text, EmbryoUnread(text))
        return text.casefold() in KNOWN_YES
