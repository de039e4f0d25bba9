"""Animals as pages show them: the rows of their page, in a line, with all that the book has of each, and drawn."""
from __future__ import annotations

from collections.abc import Mapping, Sequence
from dataclasses import replace
from typing import NamedTuple

from gudokeyi.domain.animals import SocietyRecord
from gudokeyi.domain.kinds import ExitReason, Role, Standing
from gudokeyi.domain.options import LIST, Described, Kind
from gudokeyi.domain.provenance import ExitSource
from gudokeyi.render.drawing import FONT, escape
from gudokeyi.render.languages import mark_of
from gudokeyi.render.page_language import PageLanguage, name_of
from gudokeyi.render.page_wording import PageWording
from gudokeyi.render.pedigree_pictures import Pedigree
from gudokeyi.services.animals import (
    SEX_SOURCES, AnimalRow, Coefficient, Relatives, column_of_breeders, former_ids, owners_of_dams, society_record_of,
)  # fmt: skip
from gudokeyi.services.facts import birth_of, exit_in_sheet, exit_of, owner_day_said
from gudokeyi.services.found_animals import Asked, Order
from gudokeyi.services.opening import Book
from gudokeyi.services.option_values import years, years_of
from gudokeyi.services.selection import Choice
from gudokeyi.web.paging import page_of

HALF_SIBS = {Role.SIRE: "Half sibs by the sire", Role.DAM: "Half sibs by the dam"}

# Animals as pages show them: in a line, and each with all that the book has of it.


class AnimalLine(NamedTuple):
    """An animal in a row of a table."""

    registration_number: str
    id: str
    name: str
    sex: str
    born: str
    owner: str
    exit: str
    percent: str
    is_inbred: bool


def line_of(book: Book, row: AnimalRow, coefficients: Mapping[str, Coefficient], words: PageLanguage) -> AnimalLine:
    coefficient = coefficients[row.registration_number]
    sex = words.marked(
        words.sex(row.registration_number[6]), mark_of(SEX_SOURCES[row.sex_source])
    )
    percent = words.percent(coefficient.percent if coefficient.is_inbred else "0")
    owner = book.owner_of(row.owner_code or 0)
    number, born = row.registration_number, said(birth_of(row), words)
    exit = said(exit_of(row), words)
    return AnimalLine(number, row.id, row.name, sex, born, owner, exit, percent, coefficient.is_inbred)


def said(value: object, words: PageLanguage) -> str:
    return str(PageWording(words).shown("", value))


class Litter(NamedTuple):
    """The offspring with one partner, who may be unknown."""

    partner: AnimalLine | None
    animals: list[AnimalLine]


class Ancestor(NamedTuple):
    """A parent in the tree of a pedigree, with its own; no line for an unknown one."""

    role: str
    line: AnimalLine | None
    parents: list[Ancestor]


class Offered(NamedTuple):
    """What the page of an animal offers: not what the register would refuse, nor a mating of an animal that has
    left."""

    mates: bool
    exit: bool
    transfer: bool

    @classmethod
    def of(cls, row: AnimalRow, animal: SocietyRecord) -> Offered:
        may_be_there = not row.departed and row.exit_source != ExitSource.UNKNOWN_DAY.value
        is_dam = row.registration_number[6] == Role.DAM.sex and not animal.castrated
        # the day of an exit that isn't known can still be filed
        return cls(is_dam and may_be_there, not row.departed, may_be_there)


class AnimalPageView(NamedTuple):
    """What the page of an animal has beside its pedigree and history."""

    line: AnimalLine
    facts: list[tuple[str, str]]
    fraction: str
    decimal: str
    parents: list[tuple[str, AnimalLine | None, str]]
    offspring: list[Litter]
    full_sibs: list[AnimalLine]
    half_sibs: list[tuple[str, list[AnimalLine]]]
    offered: Offered


class Shower:
    """Makes lines of rows."""

    def __init__(self, book: Book, coefficients: Mapping[str, Coefficient], words: PageLanguage) -> None:
        self.book, self.coefficients, self.words = book, coefficients, words

    def line(self, row: AnimalRow) -> AnimalLine:
        return line_of(self.book, row, self.coefficients, self.words)

    def lines(self, rows: Sequence[AnimalRow]) -> list[AnimalLine]:
        return [self.line(row) for row in rows]

    def shown(self, row: AnimalRow, relatives: Relatives) -> AnimalPageView:
        animal, coefficient = society_record_of(row), self.coefficients[row.registration_number]
        return AnimalPageView(
            self.line(row),
            self.facts(row, animal),
            coefficient.fraction,
            self.words.decimal(coefficient.decimal()),
            [self.parent(animal, role, relatives.parents[role]) for role in Role],
            [self.litter(number, rows) for number, rows in relatives.offspring.items()],
            self.lines(relatives.full_sibs),
            [(self.words.gettext(HALF_SIBS[role]), self.lines(relatives.half_sibs[role])) for role in Role],
            Offered.of(row, animal),
        )

    def facts(self, row: AnimalRow, animal: SocietyRecord) -> list[tuple[str, str]]:
        words, line = self.words, self.line(row)
        castrated, embryo = f", {words.gettext('castrated')}", f", {words.gettext('from a stored embryo')}"
        reason = f", {name_of(ExitReason(animal.exit_reason), words)}" if animal.exit_reason else ""
        reason += f" {words.gettext('(in the sheet: {})', written)}" if (written := exit_in_sheet(row)) else ""
        day = owner_day_said(self.book, row)
        since = f" {words.gettext('(since {})', said(day, words))}" if day else ""
        found = [
            (words.gettext("Number"), row.registration_number),
            (words.gettext("Sex"), line.sex + castrated * animal.castrated),
            (words.gettext("Born"), line.born + embryo * bool(row.embryo)),
            (words.gettext("Exit"), (line.exit or words.pgettext("no exit", "none")) + reason),
            (words.gettext("Owner"), f"{line.owner}{since}" if line.owner else words.gettext("not known")),
        ]
        if breeder := owners_of_dams(self.book, [row.registration_number])[row.registration_number]:
            # a column of the society's own stands below
            found += [(words.gettext("Breeder"), breeder)] * (column_of_breeders(self.book) is None)
        if former := former_ids(self.book, animal):
            found.append((words.gettext("Id before"), ", ".join(former)))
        if animal.standing is not Standing.ROW:
            found.append((words.gettext("In the book"), name_of(animal.standing, words)))
        return found

    def parent(self, animal: SocietyRecord, role: Role, row: AnimalRow | None) -> tuple[str, AnimalLine | None, str]:
        """The role, the parent, and what the sheet writes in its place."""
        return name_of(role, self.words), self.line(row) if row else None, animal.written(role)

    def ancestors(self, number: str, generations: int) -> list[Ancestor]:
        """The parents of an animal with theirs, so many generations in all; none of one whose parents are both
        unknown."""
        parents = {role: self.book.records[number].parent(role) for role in Role}
        if not generations or not any(parents.values()):
            return []
        return [self.ancestor(role, parent, generations - 1) for role, parent in parents.items()]

    def ancestor(self, role: Role, number: str | None, generations: int) -> Ancestor:
        row = self.book.row_of(number) if number else None
        further = self.ancestors(number, generations) if number else []
        return Ancestor(name_of(role, self.words), self.line(row) if row else None, further)

    def litter(self, number: str, rows: Sequence[AnimalRow]) -> Litter:
        partner = self.book.row_of(number) if number else None
        return Litter(self.line(partner) if partner else None, self.lines(rows))


# The rows of the page of animals: found by words and filters, sorted, and a page of them at a time.


def asked_by(given: Mapping[str, str]) -> Asked:
    """That of the fields of a form; a mistake where one can't be read."""
    order = given.get("order", "")
    return Asked(
        tuple(given.get("words", "").split()),
        Choice.of({one.attribute: chosen_in(given, one) for one in LIST.values()}),
        Order(order) if order in list(Order) else Order.BIRTH,
        given.get("down", "") == "1",
        page_of(given.get("page", "")),
        int(own) if (own := given.get("own", "")).isdecimal() and len(own) < 6 else 0,
        " ".join(given.get("own-value", "").split()),
    )


def chosen_in(given: Mapping[str, str], one: Described) -> object:
    """What the fields of a form say for an option of a list."""
    text = given.get(one.in_form, "")
    if one.kind is Kind.SPAN:
        return years(given.get("from", "").strip(), given.get("to", "").strip())
    if one.kind is Kind.SEX:
        return text if text in ("M", "F") else ""
    return text == "1" if one.kind is Kind.FLAG else " ".join(text.split())


def fields_for(choice: Choice, one: Described) -> dict[str, str]:
    """The fields of a form for what a choice has of an option."""
    value = getattr(choice, one.attribute)
    if one.kind is Kind.SPAN:
        return dict(zip(("from", "to"), years_of(value)))
    return {one.in_form: "1" * value if one.kind is Kind.FLAG else value}


def turned(asked: Asked, order: Order) -> Asked:
    """The same, sorted by a column: downwards where it is sorted by that upwards already."""
    return replace(asked, order=order, is_downwards=asked.order is order and not asked.is_downwards, page=1)


def fields_of(asked: Asked) -> dict[str, str]:
    """The fields of a form that asks for this."""
    fields = {"words": " ".join(asked.words)}
    for one in LIST.values():
        fields |= fields_for(asked.choice, one)
    fields |= {
        "order": asked.order.value * (asked.order is not Order.BIRTH), "down": "1" * asked.is_downwards,
        "page": str(asked.page) * (asked.page > 1), "own": str(asked.own) * bool(asked.own),
        "own-value": asked.own_value * bool(asked.own),
    }  # fmt: skip
    return {name: value for name, value in fields.items() if value}


# A pedigree drawn within a page.

# so much larger than on paper
LARGER = 1.1


def drawn_within(pedigree: Pedigree, title: str) -> str:
    """The first page of a pedigree as a picture, with a title for whoever doesn't see it. It is no wider than it needs
    to be: few ancestors aren't blown up."""
    width, height, parts = pedigree.page(0)
    return (
        f'<svg xmlns="http://www.w3.org/2000/svg" viewBox="0 0 {width:.0f} {height:.0f}" width="{width * LARGER:.0f}" role="group" '
        f'aria-label="{escape(title)}" font-family="{escape(FONT)}">\n' + "\n".join(parts) + "\n</svg>"
    )
