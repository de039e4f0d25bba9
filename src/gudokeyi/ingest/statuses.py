"""Columns of words such as `Status` beside that of the exits: what they say of exits, and of why an animal left."""
from __future__ import annotations

import functools
import itertools
import re
from collections.abc import Mapping, Sequence
from typing import Container, NamedTuple

from gudokeyi.domain.findings import Report
from gudokeyi.domain.kinds import Field
from gudokeyi.ingest.born_dead import born_dead_word
from gudokeyi.ingest.day_cells import is_other_state
from gudokeyi.ingest.days import is_span, places_within
from gudokeyi.ingest.exits_beside import Exits, add_buyers, add_exit_days, add_sales_to, reasons_beside
from gudokeyi.ingest.findings.exits import Remark, told_of_remarks
from gudokeyi.ingest.findings.rows import StatusDisagrees, StatusRead
from gudokeyi.ingest.sheets import Sheet, SheetRow, cell_of, column_of
from gudokeyi.ingest.texts import listed, plain
from gudokeyi.ingest.titles import (
    KNOWN_STATES, KNOWN_STATUSES, OF_LIVING, names_exits_alone, names_other_exits, said_of,
)  # fmt: skip
from gudokeyi.ingest.exit_words import (
    DEAD, KNOWN_DEATHS, PLAIN_EXITS, is_still_there, lives, lives_besides, owner_change, says_lives, state_exit,
    tells_of_others,
)  # fmt: skip
from gudokeyi.ingest.words import EXITS, KNOWN_YES, has_word

# an owner who takes an animal
TAKER = re.compile(
    r"\b(?:verkauft|verkauf|verk|abgegeben|weggegeben|verschenkt|umgestellt|gewechselt|geht|ging|sold|sale|transferred|"
    r"(?:Besitz(?:er)?|Halter|Eigentümer|Eigentums)wechsel|changement\sde\s(?:propriétaire|détenteur)|"
    r"change\sof\sowner(?:ship)?|mutation|transfert?|cession|"
    r"given|went|vendue?|vente|cédée?|donnée?)\b\.?"
    r".*?\b(?:an|zu|to|à|a|au|aux)\s+(?P<taker>\S.*)",
    re.IGNORECASE,
)
# the same without a word for to whom, as `verk. Meier`: before it nothing stands but a day
SOLD = re.compile(
    r"[\W\d]*\b(?:verkauft|verkauf|verk|abgegeben|abgeg|weggegeben|verschenkt|umgestellt|sold|sale|vendue?|vente|"
    r"cédée?|donnée?)\b[.:]?\s*(?P<taker>\S.*)",
    re.IGNORECASE,
)
# the same of a text that stands for an owner
WITH_NOW = re.compile(
    r"(?:jetzt|nun|now|maintenant|désormais|neuer (?:besitzer|halter)|new owner|nouveau propriétaire)\b[: ]*"
    r"(?:bei |an |with |to |chez |à )?(?P<taker>\S.*)",
    re.IGNORECASE,
)
# what says yes in a column whose title tells of an exit, besides the words that tell of one anywhere
YES_ALONE = KNOWN_YES - {"et", "embryo", *(word.casefold() for word in listed(EXITS))}
# what may tell of a death behind a sale, and the words that do
WORD_OR_SIGN = re.compile(r"[^\W\d_]+|†|✝|\+\s*\d")
# so many different texts a column of words has at most
MOST_TEXTS = 2000
# so many such columns are looked at
MOST_COLUMNS = 20


def taker_of_owner(text: str) -> str:
    """Who has an animal whose owner is written as `verkauft an Meier`; empty where the text tells of no sale."""
    found = TAKER.search(text) or WITH_NOW.match(text)
    return found["taker"] if found else ""


def parted_at_death(text: str) -> tuple[str, str]:
    """A text that tells first of a sale, and then of a death: the one, and the other, which is empty where there is
    none."""
    sale = TAKER.search(text) or SOLD.match(text)
    words = WORD_OR_SIGN.finditer(text, sale.start("taker")) if sale else ()
    at = next((word.start() for word in words if plain(word[0]) in KNOWN_DEATHS or DEAD.search(word[0])), 0)
    return (text[:at].rstrip(" ,;(/–—-"), text[at:].rstrip(" )")) if at else (text, "")


def exits_of_living(rows: list[SheetRow], title: str, at: int) -> dict[int, str]:
    """By the places of rows what a column that tells which animals live says of exits, where that is another text."""
    if plain(title) not in OF_LIVING:
        return {}
    cells = [cell_of(row, at) for row in rows]
    said = {text: said_of(text, title) for text in {*cells}}
    return {place: said[text] for place, text in enumerate(cells) if said[text] != text}


def add_yes(exits: Exits, rows: list[SheetRow], title: str, at: int) -> None:
    """A yes in a column such as `Dead` says what its title does."""
    if not (names_exits_alone(title) and has_word(title, PLAIN_EXITS)):
        return
    for place, text in enumerate(column_of(rows, at)):
        if text.casefold() in YES_ALONE:
            exits.texts.setdefault(place, title)


class Said(NamedTuple):
    """What a text of a status says: what a cell of exits would say in its place; whether that tells of an exit, that
    the animal is still there, of another state, or no exit; whether it says in words that the animal lives, or more of
    an exit than that there was one; and whether it names who took it."""

    text: str
    tells: bool
    is_still_there: bool
    is_other_state: bool
    tells_none: bool
    lives: bool
    is_reason: bool
    has_taker: bool


class Statuses:
    """Takes what the status says where the column of exits says nothing, keeps it as a reason beside a day, and tells
    where they disagree."""

    def __init__(self, sheet: Sheet, columns: Mapping[str, int], unknown: Container[str], report: Report) -> None:
        self.sheet, self.unknown, self.report = sheet, unknown, report
        self.id, self.exit, self.status = (columns[one] for one in (Field.ID, Field.EXIT, Field.STATUS))
        self.titles = sheet.titles[self.exit], sheet.titles[self.status]
        self.is_of_states = plain(self.titles[1]) in KNOWN_STATES
        self.may_be_sales = not names_other_exits(self.titles[0])
        # the same texts stand in many cells
        self.said, self.says_exit = functools.cache(self.read), functools.cache(self.tells_exit)
        self.found, self.taken = Exits(), 0

    def find(self, rows: list[SheetRow]) -> Exits:
        for place, row in itertools.compress(enumerate(rows), column_of(rows, self.status)):
            if said := self.said(cell_of(row, self.status)):
                self.look(place, row, cell_of(row, self.exit), said)
        if self.taken:
            self.report.add(0, "", StatusRead(self.titles[1], self.titles[0], self.taken))
        for told in told_of_remarks(self.found.remarks):
            self.report.add(0, "", told)
        return self.found

    def read(self, status: str) -> Said | None:
        """Nothing for a text that says nothing."""
        text = said_of(status, self.titles[1])
        if not text or self.is_unknown(text):
            return None
        tells, tells_none = bool(state_exit(text)), lives(text)
        # a state such as `pet only` is no exit unless a word or a day says so
        is_other = self.is_of_states and is_other_state(text)
        is_there, has_taker = is_still_there(text), TAKER.search(text) is not None and not lives_besides(text)
        is_no_exit = tells_none or is_there and not tells_of_others(text)
        is_reason = text == status and not (is_no_exit or text.casefold() in KNOWN_YES)
        return Said(text, tells, is_there, is_other, tells_none, says_lives(text), is_reason, has_taker)

    def is_unknown(self, text: str) -> bool:
        return text in self.unknown and not DEAD.search(text)

    def tells_exit(self, exit: str) -> bool:
        return not self.is_unknown(exit) and not lives(exit)

    def look(self, place: int, row: SheetRow, exit: str, said: Said) -> None:
        says_exit = bool(exit) and self.says_exit(exit)
        if says_exit and said.tells and said.has_taker and self.may_be_sales:
            self.found.texts[place] = f"{said.text} {exit}"
        if says_exit and owner_change(said.text) and is_span(exit):
            self.found.texts[place] = f"{said.text} {exit}"
        elif says_exit and said.is_reason:
            self.found.reasons[row.line] = said.text
        elif says_exit and said.is_still_there:
            self.look_at_no_exit(place, row, exit, said.text)
        elif said.is_still_there or said.is_other_state:
            self.found.remarks.append(Remark(row.line, self.titles[1], said.text))
        elif not says_exit and not said.tells_none and (said.tells or not exit or self.is_unknown(exit)):
            self.take(place, row, exit, said.text)
        if says_exit and said.lives:
            self.tell(row, exit, True)

    def look_at_no_exit(self, place: int, row: SheetRow, exit: str, said: str) -> None:
        """A day of exits has a word beside it that tells of something else, as `ausgeliehen`: where that is why the
        animal left it is none; a state may be that of the time before."""
        if self.is_of_states or not is_span(exit):
            self.tell(row, exit, True)
        else:
            self.found.texts[place] = f"{said} {exit}"

    def take(self, place: int, row: SheetRow, exit: str, said: str) -> None:
        """The word of the status stands for an exit of which its column says nothing, or that there is none."""
        self.found.texts[place], self.found.titles[row.line] = said, self.titles[1]
        if not exit or self.is_unknown(exit):
            self.taken += 1
        else:
            self.tell(row, exit, False)

    def tell(self, row: SheetRow, exit: str, has_day: bool) -> None:
        found = StatusDisagrees(self.titles[0], exit, self.titles[1], cell_of(row, self.status), has_day)
        self.report.add(row.line, cell_of(row, self.id), found)


def tell_living_by_others(
    rows: list[SheetRow], sheet: Sheet, columns: Mapping[str, int], unknown: Container[str], report: Report
) -> None:
    """Other columns with a usual title for a status aren't read; where one says that an animal lives which has an exit,
    that is told."""
    read, exit_at = {*columns.values()}, columns[Field.EXIT]
    titles = enumerate(sheet.titles)
    for at in [at for at, title in titles if at not in read and plain(title) in KNOWN_STATUSES][:MOST_COLUMNS]:
        texts, title = {*sheet.column(at)} - {""}, sheet.titles[at]
        living = {one for one in texts if says_lives(said_of(one, title))} if len(texts) <= MOST_TEXTS else set[str]()
        for row in rows if living else ():
            exit, status = cell_of(row, exit_at), cell_of(row, at)
            if status in living and exit and not lives(exit) and (exit not in unknown or DEAD.search(exit)):
                found = StatusDisagrees(sheet.titles[exit_at], exit, title, status)
                report.add(row.line, cell_of(row, columns[Field.ID]), found)


def exits_said(
    rows: list[SheetRow], sheet: Sheet, columns: Mapping[str, int], unknown: Container[str], report: Report
) -> Exits:
    """What columns of words say of the exits of rows."""
    tell_living_by_others(rows, sheet, columns, unknown, report)
    at = columns[Field.EXIT]
    if Field.STATUS in columns:
        exits = Statuses(sheet, columns, unknown, report).find(rows)
    else:
        exits = Exits(exits_of_living(rows, sheet.titles[at], at))
    for of_reasons in reasons_beside(sheet.titles, columns):
        add_reasons(exits, rows, of_reasons, at, unknown)
    add_yes(exits, rows, sheet.titles[at], at)
    add_days_of_sales(exits, rows, sheet.titles, columns)
    add_sales_to(exits, rows, sheet, at, unknown)
    add_exit_days(exits, rows, sheet, columns, unknown, report)
    add_births_of_born_dead(exits, rows, columns)
    add_buyers(exits, rows, sheet, columns, unknown, report)
    return exits


def add_births_of_born_dead(exits: Exits, rows: list[SheetRow], columns: Mapping[str, int]) -> None:
    """Animals that were born dead have left on the day of their birth, where that is a day."""
    exit_at, birth_at = columns[Field.EXIT], columns.get(Field.BIRTH)
    for place, row in enumerate(rows if birth_at is not None else ()):
        exit = exits.texts.get(place) or cell_of(row, exit_at)
        birth = cell_of(row, birth_at) if exit and birth_at is not None and born_dead_word(exit) else ""
        if birth and is_span(birth) and not any(map(str.isdigit, exit)):
            exits.texts[place] = f"{exit} {birth}"


def add_days_of_sales(exits: Exits, rows: list[SheetRow], titles: Sequence[str], columns: Mapping[str, int]) -> None:
    """The day of a sale to somebody stands in the only other column such as `verkauft am`."""
    read, exit_at, owner_at = {*columns.values()}, columns[Field.EXIT], columns.get(Field.OWNER)
    of_days = [at for at, title in enumerate(titles) if at not in read and names_exits_alone(title)]
    of_days = [at for at in of_days if not names_other_exits(titles[at])]
    if len(of_days) != 1:
        return
    is_of_others = names_other_exits(titles[exit_at])
    for place, row in enumerate(rows):
        exit, day = exits.texts.get(place) or cell_of(row, exit_at), cell_of(row, of_days[0])
        said = exit or (cell_of(row, owner_at) if owner_at is not None else "")
        has_taker = TAKER.search(said) or SOLD.match(said) if exit else taker_of_owner(said)
        if is_span(day) and has_taker and not places_within(said):
            # a day alone would be one of another exit there
            exits.texts[place] = f"{said if is_of_others else exit} {day}".strip()


# what is over by then, as in `nach Kastration` and `prêt terminé`
OVER = re.compile(
    r"\b(?:nach|after|après|suite|zurück an|back to|beendet|ended|over|terminée?|finie?)\b|ende\b", re.IGNORECASE
)


def is_other_event(reason: str) -> bool:
    """Tells it of no exit, or of one that may be none, as a change of owners?"""
    return not OVER.search(reason) and (is_still_there(reason) or bool(owner_change(reason)))


def add_reasons(exits: Exits, rows: list[SheetRow], of_reasons: int, at: int, unknown: Container[str]) -> None:
    """What such a column says beside exits, which column ever tells of these."""
    says = functools.cache(lambda text: not lives(text) and (text not in unknown or DEAD.search(text) is not None))
    for place, row in enumerate(rows):
        reason = cell_of(row, of_reasons)
        exit = exits.texts.get(place) or cell_of(row, at)
        is_said = bool(reason) and says(reason) and says(exit)
        if is_said and is_other_event(reason) and not tells_of_others(reason) and is_span(exit):
            exits.texts[place] = f"{reason} {exit}"
        elif is_said:
            exits.reasons[row.line] = reason
