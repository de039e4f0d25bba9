"""Columns beside that of the exits which tell of these too: `geschlachtet am` and `verkauft`, with days or a yes, and
to whom an animal was sold."""
from __future__ import annotations

import functools
import itertools
import string
from collections.abc import Iterable, Mapping, Sequence
from dataclasses import dataclass, field
from typing import Container

from gudokeyi.domain.findings import Report
from gudokeyi.domain.kinds import Field
from gudokeyi.ingest.day_forms import SERIAL, TWO
from gudokeyi.ingest.days import DIGITS, Unreadable, behind_since, is_span, places_within, read_span
from gudokeyi.ingest.exit_places import has_day, place_of_exit
from gudokeyi.ingest.findings.exits import BuyerDisagrees, BuyersRead, ExitDaysRead, Remark
from gudokeyi.ingest.findings.rows import StatusDisagrees
from gudokeyi.ingest.sheets import Sheet, SheetRow, cell_of
from gudokeyi.ingest.texts import listed, plain
from gudokeyi.ingest.titles import (
    BETWEEN_WORDS, DEATHS, KNOWN_CAUSES, KNOWN_DOUBTFUL, KNOWN_REASONS, KNOWN_TITLES, SALE_DAYS, is_cross_title,
    names_exit_days, names_other_exits, said_of,
)  # fmt: skip
from gudokeyi.ingest.exit_words import (
    PLAIN_EXITS, exit_word, is_still_there, lives, owner_change, says_lives, tells_of_others,
)  # fmt: skip
from gudokeyi.ingest.words import KNOWN_EXITS, KNOWN_NO, KNOWN_SALES, KNOWN_SINCE_BIRTH, KNOWN_YES, LETTER, has_word

# titles of columns that say to whom animals were sold, by how the cell of an exit says so
BUYERS = {
    "verkauft an": "verkauft an, abgegeben an, Käufer, Käuferin, Abnehmer, Abnehmerin, neuer Besitzer, neuer Eigentümer, "
    "neuer Halter",
    "sold to": "sold to, buyer, purchaser, bought by, purchased by, new owner",
    "vendu à": "vendu à, vendue à, vendu(e) à, acheteur, acheteuse, acquéreur, nouveau propriétaire",
}
# titles of columns that say so beside sales and changes of owners alone
DESTINATIONS = {plain(title) for title in listed("Destination, destinataire")}
# so many texts show whether a column has days
MOST_TEXTS = 500
KNOWN_BUYERS = {plain(title): said for said, titles in BUYERS.items() for title in listed(titles)}
SAID_OF_BUYERS = KNOWN_BUYERS | dict.fromkeys(DESTINATIONS, "vendu à")


@dataclass
class Exits:
    """What is found beside the exits: the texts for exits, by the places of rows; the titles of the columns whose days
    or words are taken, by the lines of rows; the reasons beside days of exits, by their lines; and what is to be kept
    as notes."""

    texts: dict[int, str] = field(default_factory=dict)
    titles: dict[int, str] = field(default_factory=dict)
    reasons: dict[int, str] = field(default_factory=dict)
    remarks: list[Remark] = field(default_factory=list)
    # to whom and when animals were sold that have the day of another exit, by the lines of their rows
    sales: dict[int, str] = field(default_factory=dict)


def exit_columns(sheet: Sheet, columns: Mapping[str, int]) -> list[int]:
    """The columns that name exits beside that of these, as `Abgang 2` too."""
    if Field.EXIT not in columns:
        return []
    usual = {*KNOWN_TITLES[Field.EXIT]} - KNOWN_DOUBTFUL
    free = [at for at, title in enumerate(sheet.titles) if title and at not in columns.values()]
    named = ((at, plain(sheet.titles[at])) for at in free)
    those = {at for at, title in named if title in usual or title.rstrip(string.digits) in usual}
    return [at for at in free if at in those or names_exit_days(sheet.titles[at])]


def exit_day_columns(sheet: Sheet, columns: Mapping[str, int]) -> list[int]:
    """Those of them that have a day, or a yes: they are read as that of the exits is."""
    named = exit_columns(sheet, columns)
    return [at for at in named if tells_exits(sheet.column(at), word_of(sheet.titles[at]))]


def buyer_columns(sheet: Sheet, columns: Mapping[str, int]) -> list[int]:
    """The column that isn't read, and says to whom animals were sold."""
    if Field.EXIT not in columns:
        return []
    free = [(at, plain(title)) for at, title in enumerate(sheet.titles) if at not in columns.values()]
    return [at for known in (KNOWN_BUYERS, DESTINATIONS) for at, title in free if title in known][:1]


def reasons_beside(titles: Sequence[str], columns: Mapping[str, int]) -> list[int]:
    """The place of a column that says why animals left, beside another one that is read as the status, or next to that
    of the exits where none is."""
    free = [at for at in range(len(titles)) if at not in columns.values()]
    if Field.STATUS in columns:
        return [at for at in free if plain(titles[at]) in KNOWN_REASONS][:1]
    exit_at = columns.get(Field.EXIT, 0)
    is_sure = Field.EXIT in columns and plain(titles[exit_at]) not in KNOWN_DOUBTFUL
    return [at for at in free if is_sure and abs(at - exit_at) == 1 and plain(titles[at]) in KNOWN_CAUSES][:1]


def columns_beside(sheet: Sheet, columns: Mapping[str, int]) -> list[int]:
    """All of these."""
    reasons = reasons_beside(sheet.titles, columns)
    return [*exit_day_columns(sheet, columns), *buyer_columns(sheet, columns), *reasons]


def tells_exits(texts: list[str], word: str) -> bool:
    """Is any of the texts a day or a month, or are most of the different ones years or numbers, or a yes or a no?"""
    said = {*texts} - {""}
    known = KNOWN_YES | KNOWN_NO if says_plainly(word) else set[str]()
    if any(map(says_day_or_month, said)):
        return True
    return 2 * sum(text.casefold() in known or says_day(text) for text in said) > len(said)


def says_day(text: str) -> bool:
    return is_span(text) or any(form.fullmatch(text) for form in (TWO, SERIAL)) or bool(places_within(text))


def says_day_or_month(text: str) -> bool:
    """Does it say more than a year, which may be a price?"""
    is_whole = any(form.fullmatch(text) for form in (TWO, DIGITS))
    return is_whole or any(len(place.groupdict()) > 1 for place in places_within(text))


def are_days(texts: Iterable[str]) -> bool:
    """Are most of some texts days, of which the first are looked at?"""
    some = [*itertools.islice(texts, MOST_TEXTS)]
    return 2 * sum(map(says_day, some)) > len(some)


def are_purchases(texts: Iterable[str]) -> bool:
    """Have most of some texts the day of a purchase, or say that there was none, as `homebred`?"""
    some = [*itertools.islice(texts, MOST_TEXTS)]
    born = [plain(behind_since(text)) in KNOWN_SINCE_BIRTH for text in some]
    return 2 * sum(is_one or says_day(text) or has_day(text) for text, is_one in zip(some, born)) > len(some)


def says_plainly(word: str) -> bool:
    """Does a yes in a column with this word tell of an exit?"""
    return has_word(word, PLAIN_EXITS) or is_cross_title(word)


def word_of(title: str) -> str:
    """The words of a title that say why an animal left."""
    if plain(title) in SALE_DAYS:
        return "verkauft"
    if is_cross_title(title):
        return "†"
    words = [word for word in BETWEEN_WORDS.split(title) if plain(word) in KNOWN_EXITS]
    return title if plain(title) in DEATHS else " ".join(words)


class ExitDays:
    """Takes what such columns say where that of the exits says nothing, and tells where they disagree."""

    def __init__(self, sheet: Sheet, columns: Mapping[str, int], unknown: Container[str], report: Report) -> None:
        self.sheet, self.columns, self.unknown, self.report = sheet, columns, unknown, report
        self.exit = columns[Field.EXIT]
        # the same texts stand in many cells
        self.tells_none = functools.cache(lambda cell: lives(cell) or cell in unknown and not exit_word(cell))

    def add(self, exits: Exits, rows: Sequence[SheetRow], at: int) -> None:
        title, word, count = self.sheet.titles[at], word_of(self.sheet.titles[at]), 0
        for place, row in enumerate(rows):
            cell = cell_of(row, at)
            if not cell or self.tells_none(cell) or cell == title and self.are_titles(row):
                continue
            is_yes = cell.casefold() in KNOWN_YES and says_plainly(word)
            text = self.of_yes(exits, place, row, word) if is_yes else self.taken(exits, place, row, at)
            if text:
                exits.texts[place], exits.titles[row.line] = text, title
                count += not is_still_there(text)
            if text == cell and word:
                exits.reasons.setdefault(row.line, word)
        if count:
            self.report.add(0, "", ExitDaysRead(title, self.sheet.titles[self.exit], count))

    def are_titles(self, row: SheetRow) -> bool:
        """Does the row repeat them?"""
        return cell_of(row, self.columns[Field.ID]) == self.sheet.titles[self.columns[Field.ID]]

    def taken(self, exits: Exits, place: int, row: SheetRow, at: int) -> str:
        """The text for the exit that has what the other column says, empty where another is taken."""
        said, exit = cell_of(row, at), exits.texts.get(place) or cell_of(row, self.exit)
        if not exit or exit in self.unknown or tells_of_others(exit):
            self.look_at_status(row, at)
            return said
        if lives(exit):
            self.tell(row, self.title(exits, row), exit, at, False)
            return said
        title, has_digits = self.sheet.titles[at], any(map(str.isdigit, exit))
        if not says_day(said):
            self.add_words(exits, row, exit, at)
        elif not has_digits and names_other_exits(exit) == names_other_exits(title):
            return f"{exit} {said}"
        elif not has_digits or not is_same_day(exit, said):
            self.tell(row, self.title(exits, row), exit, at, has_digits)
        return ""

    def add_words(self, exits: Exits, row: SheetRow, exit: str, at: int) -> None:
        """What is no day, beside an exit that another column tells: of the same one it may say why."""
        title, said = self.title(exits, row), cell_of(row, at)
        if names_other_exits(title) != names_other_exits(self.sheet.titles[at]):
            self.tell(row, title, exit, at, any(map(str.isdigit, exit)))
        elif LETTER.search(said) and said.casefold() not in KNOWN_YES:
            exits.reasons.setdefault(row.line, said)

    def of_yes(self, exits: Exits, place: int, row: SheetRow, word: str) -> str:
        """The word of a column such as `verkauft` that says yes where nothing tells of another exit."""
        exit = exits.texts.get(place) or cell_of(row, self.exit)
        return word if not exit or exit in self.unknown else ""

    def title(self, exits: Exits, row: SheetRow) -> str:
        return exits.titles.get(row.line) or self.sheet.titles[self.exit]

    def look_at_status(self, row: SheetRow, at: int) -> None:
        """A status may say that the animal lives."""
        status_at = self.columns.get(Field.STATUS)
        if status_at is not None and says_lives(cell_of(row, status_at)):
            self.tell(row, self.sheet.titles[at], cell_of(row, at), status_at, True)

    def tell(self, row: SheetRow, exit_title: str, exit: str, at: int, has_day: bool) -> None:
        found = StatusDisagrees(exit_title, exit, self.sheet.titles[at], cell_of(row, at), has_day)
        self.report.add(row.line, cell_of(row, self.columns[Field.ID]), found)


def is_same_day(exit: str, day: str) -> bool:
    """May it be one day? Where a text has more than a day, as `verkauft 2020`, nothing else is said."""
    try:
        return read_span(exit, legible=False).meets(read_span(day, legible=False))
    except Unreadable:
        return True


def add_exit_days(
    exits: Exits, rows: Sequence[SheetRow], sheet: Sheet, columns: Mapping[str, int], unknown: Container[str],
    report: Report,
) -> None:  # fmt: skip
    for at in exit_day_columns(sheet, columns):
        ExitDays(sheet, columns, unknown, report).add(exits, rows, at)


def add_sales_to(exits: Exits, rows: Sequence[SheetRow], sheet: Sheet, at: int, unknown: Container[str]) -> None:
    """The cells of a column for exits that says to whom animals were sold are read with what its title says."""
    said = KNOWN_BUYERS.get(plain(sheet.titles[at]))
    for place, row in enumerate(rows if said else ()):
        buyer = cell_of(row, at)
        is_exit = exit_word(buyer) and not place_of_exit(buyer)
        if LETTER.search(buyer) and buyer not in unknown and not lives(buyer) and not is_exit:
            exits.texts.setdefault(place, f"{said} {buyer}")


class Buyers:
    """Says in the text for an exit to whom the animal was sold, as another column has it, unless one says that it is
    there."""

    def __init__(self, sheet: Sheet, columns: Mapping[str, int], unknown: Container[str], at: int) -> None:
        self.titles, self.columns, self.unknown, self.at = sheet.titles, columns, unknown, at
        self.exit, self.owner = columns[Field.EXIT], columns.get(Field.OWNER, at)
        self.said = SAID_OF_BUYERS[plain(sheet.titles[at])]
        self.is_destination = plain(sheet.titles[at]) in DESTINATIONS
        # the same texts stand in many cells
        self.is_there = functools.cache(is_there)
        self.of_sales = [
            at for at, title in enumerate(sheet.titles)
            if at not in (self.at, *columns.values()) and plain(word_of(title)) in KNOWN_SALES
        ]  # fmt: skip

    def add(self, exits: Exits, rows: Sequence[SheetRow], report: Report) -> None:
        count = 0
        for place, row in enumerate(rows):
            buyer = cell_of(row, self.at)
            if not LETTER.search(buyer) or buyer in self.unknown or lives(buyer):
                continue
            exit = exits.texts.get(place) or cell_of(row, self.exit)
            exit = "" if exit in self.unknown else exit
            reason = exits.reasons.get(row.line, "")
            if (at := self.column_of_living(row, exit)) is not None:
                if not self.is_destination:
                    self.tell(row, at, report)
            elif self.may_be_sale(exit, reason):
                exits.texts[place] = self.text(exit, buyer)
                exits.reasons.pop(row.line, None)
                count += 1
            elif not self.is_destination and (day := self.day_of_sale(row)):
                exits.sales[row.line] = f"{self.said} {buyer} {day}"
        if count:
            report.add(0, "", BuyersRead(self.titles[self.at], count))

    def day_of_sale(self, row: SheetRow) -> str:
        """That in another column than that of the exits; empty where there is none."""
        days = (cell_of(row, at) for at in self.of_sales)
        return next((day for day in days if is_span(day)), "")

    def column_of_living(self, row: SheetRow, exit: str) -> int | None:
        """The column that says that the animal is there where no exit is told: that of a status, or of the exits."""
        if exit and not (lives(exit) or self.is_there(exit, self.titles[self.exit])):
            return None
        at = self.columns.get(Field.STATUS)
        status = "" if at is None else cell_of(row, at)
        if at is not None and status not in self.unknown and self.is_there(status, self.titles[at]):
            return at
        return self.exit if exit else None

    def tell(self, row: SheetRow, at: int, report: Report) -> None:
        """A buyer who is the owner has the animal."""
        buyer = cell_of(row, self.at)
        if self.owner == self.at or plain(cell_of(row, self.owner)) != plain(buyer):
            found = BuyerDisagrees(self.titles[self.at], buyer, self.titles[at], cell_of(row, at))
            report.add(row.line, cell_of(row, self.columns[Field.ID]), found)

    def may_be_sale(self, exit: str, reason: str) -> bool:
        """Is it no other exit, and says it not itself to whom?"""
        if reason:
            return plain(reason) in KNOWN_SALES
        if exit and names_other_exits(self.titles[self.exit]):
            return False
        if self.is_destination and not exit_word(exit) and not owner_change(exit):
            return False
        word = exit_word(exit) or owner_change(exit)
        if word and owner_change(exit):
            return not has_more(exit, word)
        return not LETTER.search(exit) or is_span(exit) or plain(word) in KNOWN_SALES and not has_more(exit, word)

    def text(self, exit: str, buyer: str) -> str:
        word = exit_word(exit) or owner_change(exit)
        said = f"{word} {self.said.rpartition(' ')[2]}" if word else self.said
        return f"{said} {buyer} {exit.replace(word, '', 1).strip()}".strip()


def is_there(text: str, title: str) -> bool:
    """Does a text of a column with this title say in words that the animal hasn't left?"""
    said = said_of(text, title)
    return says_lives(said) or is_still_there(said)


def has_more(exit: str, word: str) -> bool:
    """Has it more than a word and a day?"""
    rest = exit.replace(word, " ", 1)
    for day in places_within(rest):
        rest = rest.replace(day[0], " ")
    return LETTER.search(rest) is not None


def add_buyers(
    exits: Exits, rows: Sequence[SheetRow], sheet: Sheet, columns: Mapping[str, int], unknown: Container[str],
    report: Report,
) -> None:  # fmt: skip
    for at in buyer_columns(sheet, columns):
        Buyers(sheet, columns, unknown, at).add(exits, rows, report)
