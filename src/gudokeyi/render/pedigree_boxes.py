"""The boxes of animals in a drawn pedigree, where each stands, and the ancestors that are on both sides."""
from __future__ import annotations

import itertools
import string
from collections.abc import Iterator, Sequence
from dataclasses import dataclass, field
from typing import NamedTuple

from gudokeyi.domain.animals import SocietyRecord
from gudokeyi.domain.kinds import Role
from gudokeyi.domain.pedigree_order import ancestors
from gudokeyi.render.drawing import (
    DAM, GREY, INBRED, INBRED_INK, INK, LINE, PAPER, SIRE, escape, fitted, fitted_id, text_at, width_of, year_of,
)  # fmt: skip
from gudokeyi.render.languages import Language, mark_of
from gudokeyi.store.book import Book
from gudokeyi.store.coefficients import Coefficient

# The ancestors that an animal has on its sire's and on its dam's side, each with a letter.


def common_ancestors(book: Book, number: str, drawn: Sequence[str]) -> dict[str, str]:
    """The letter of each animal of those drawn that is an ancestor on both sides, in their order."""
    if not drawn:
        return {}
    oldest = min(book.records[one].born for one in drawn)

    def parents(one: str) -> list[str]:
        """Those that may be drawn, or have ancestors that are."""
        record = book.records[one]
        animal = (record.sire, record.dam)
        return [parent for parent in animal if parent and book.records[parent].born >= oldest]

    sides = []
    for role in Role:
        parent = book.records[number].parent(role)
        sides.append(ancestors([parent], parents) | {parent} if parent else set[str]())
    both = sides[0] & sides[1]
    return dict(zip([one for one in dict.fromkeys(drawn) if one in both], letters()))


def letters() -> Iterator[str]:
    """A to Z, AA, AB and so on."""
    for length in itertools.count(1):
        for one in itertools.product(string.ascii_uppercase, repeat=length):
            yield "".join(one)


COMMON_NOTE = (
    "{}: an ancestor on the sire's and on the dam's side; the same letter is the same animal, and one that stands here "
    "once is further back on the other side."
)


def letters_named(found: dict[str, str]) -> str:
    """The letters in a sentence, as `A`, `A, B` or `A to D`."""
    names = list(found.values())
    return ", ".join(names) if len(names) < 4 else f"{names[0]}–{names[-1]}"


# The drawn tree of an animal's ancestors: where each stands on its page.


@dataclass(slots=True)
class Node:
    """An animal in its place in the drawing. `y` is the middle of its box and `span` the height of its part of the
    tree, both counted in rows."""

    number: str
    generation: int
    y: float = 0.0
    span: float = 1.0
    parents: list[Node] = field(default_factory=list)


def grow(book: Book, number: str, generation: int, most: int, top: float) -> tuple[Node, float]:
    """The node of an animal with those of its ancestors, from a row on; and the row below all of them."""
    node = Node(number, generation)
    record = book.records[number]
    if generation == most or not (record.sire or record.dam):
        node.y = top + 0.5
        return node, top + 1
    middles, first = [], top
    for parent in (record.sire, record.dam):
        if parent:
            child, below = grow(book, parent, generation + 1, most, top)
            node.parents.append(child)
            middles.append(child.y)
        else:
            # an unknown parent leaves half a row free
            below = top + 0.5
            middles.append(top + 0.25)
        top = below
    node.y = sum(middles) / 2
    # a box that is higher than its row stands in the middle of its part
    node.span = 2 * min(node.y - first, top - node.y)
    return node, top


def nodes_of(node: Node) -> list[Node]:
    return [node, *(one for parent in node.parents for one in nodes_of(parent))]


def depth_of(node: Node) -> int:
    return max(one.generation for one in nodes_of(node))


# The box of an animal in a drawn pedigree. Its text is cut to what fits, and never leaves it.

# boxes of so many pixels have three or two lines
THREE_LINES, TWO_LINES = 54.0, 28.0
PADDING = 8.0


class Place(NamedTuple):
    x: float
    y: float
    width: float
    height: float


class Drawn(NamedTuple):
    """An animal as its box shows it. `letter` is that of a common ancestor, `page` that on which it goes on; each is
    empty for none."""

    animal: SocietyRecord
    coefficient: Coefficient
    times: int
    letter: str
    page: str


class Box:
    def __init__(self, book: Book, drawn: Drawn, place: Place, language: Language) -> None:
        self.book, self.drawn, self.place, self.language = book, drawn, place, language
        self.percent = self.percent_shown()

    def picture(self) -> str:
        at = self.place
        height = at.height
        lines = self.three() if height >= THREE_LINES else self.two() if height >= TWO_LINES else self.one()
        return (
            f"<g><title>{escape(self.tip())}</title>{self.frame()}"
            f'<svg x="{at.x:.1f}" y="{at.y:.1f}" width="{at.width:.1f}" height="{height:.1f}">'
            f'{"".join(lines)}{self.badge()}</svg></g>'
        )

    def percent_shown(self) -> str:
        """The coefficient of one that is inbred. One line has room for the number alone, and for none where the page on
        which the animal goes on shows it."""
        coefficient, is_line = self.drawn.coefficient, self.place.height < TWO_LINES
        if not coefficient.is_inbred or (is_line and self.drawn.page):
            return ""
        return self.language.percent(coefficient.percent) if is_line else self.language.coefficient(coefficient)

    @property
    def round_by(self) -> float:
        return min(3.0 if self.drawn.animal.is_male else 14.0, self.place.height / 2)

    @property
    def inset(self) -> float:
        """A badge keeps away from a round corner."""
        has_badge = self.drawn.letter or self.drawn.page
        return 0.0 if self.drawn.animal.is_male or not has_badge else self.round_by * 0.6

    def frame(self) -> str:
        """A male has corners, a female is round; a common ancestor has a thick edge."""
        at, animal, letter = self.place, self.drawn.animal, self.drawn.letter
        is_inbred = self.drawn.coefficient.is_inbred
        fill, edge = (INBRED, INBRED_INK) if is_inbred else (SIRE if animal.is_male else DAM, LINE)
        edge, thick = (INK, 2.6) if letter else (edge, 2.0 if is_inbred else 1.2)
        return (
            f'<rect x="{at.x:.1f}" y="{at.y:.1f}" width="{at.width:.1f}" height="{at.height:.1f}" '
            f'rx="{self.round_by:.1f}" fill="{fill}" stroke="{edge}" stroke-width="{thick}"/>'
        )

    def tip(self) -> str:
        """What is told of it where the pointer rests."""
        animal = self.drawn.animal
        born = self.book.records[animal.registration_number].born
        day = self.language.marked(self.language.day(born), mark_of(animal.birth))
        name = f"{animal.id} {animal.name}".strip()
        born_on, coefficient = self.language.gettext("born {}", day), self.drawn.coefficient.fraction
        return f"{name}, {animal.registration_number}, {born_on}, F {coefficient}"

    def badge(self) -> str:
        """The letter of a common ancestor, and behind it where its ancestors are drawn."""
        parts, right = [], self.place.width - self.inset
        if self.drawn.letter:
            width = width_of(self.drawn.letter, 11, True) + 7
            right -= width
            parts.append(f'<rect x="{right:.1f}" y="0" width="{width:.1f}" height="15" fill="{INK}"/>')
            parts.append(text_at(right + width / 2, 11.5, self.drawn.letter, PAPER, 11, "middle", "bold"))
        if self.drawn.page:
            parts.append(text_at(right - 4, 12, f"→ {self.drawn.page}", INK, 10, "end", "bold"))
        return "".join(parts)

    @property
    def taken(self) -> float:
        """What the badge leaves no room for in the first line."""
        letter = width_of(self.drawn.letter, 11, True) + 7 if self.drawn.letter else 0.0
        return self.inset + letter + (width_of(f"→ {self.drawn.page}", 10, True) + 6 if self.drawn.page else 0.0)

    def text(self, what: str, y: float, size: float, less: float = 0.0) -> str:
        """A line from the left, so much shorter than the box."""
        return text_at(PADDING, y, fitted(what, self.place.width - 2 * PADDING - less, size), GREY, size)

    def id_line(self, y: float, size: float) -> str:
        id = fitted_id(self.drawn.animal.id, self.place.width - 2 * PADDING - self.taken, size, True)
        return text_at(PADDING, y, id, INK, size, weight="bold")

    def coefficient(self, y: float, size: float, less: float = 0.0) -> str:
        """The coefficient of one that is inbred, at the end of a line."""
        return text_at(self.place.width - PADDING - less, y, self.percent, INBRED_INK, size, "end", "bold")

    def room_for_percent(self, size: float) -> float:
        return width_of(self.percent, size, True) + 6 if self.percent else 0.0

    def facts(self) -> str:
        times = self.drawn.times
        drawn_times = [self.language.gettext("drawn {} times", times)] if times > 1 else []
        return ", ".join([year_of(self.book, self.drawn.animal, self.language), *drawn_times])

    def id_size(self, most: float, least: float, less: float = 0.0) -> float:
        """So large that the id fits, within bounds, in a line that is so much shorter."""
        room = self.place.width - 2 * PADDING - self.taken - less
        return max(least, min(most, most * room / max(width_of(self.drawn.animal.id, most, True), 1.0)))

    def three(self) -> list[str]:
        animal = self.drawn.animal
        middle, size = self.place.height / 2, self.id_size(14, 9)
        return [
            self.id_line(middle - 11, size),
            self.text(animal.name, middle + 6, 12, self.room_for_percent(12.5)),
            self.coefficient(middle + 6, 12.5),
            self.text(self.facts(), middle + 22, 12),
        ]

    def two(self) -> list[str]:
        animal = self.drawn.animal
        middle, size = self.place.height / 2, self.id_size(12, 8.5)
        facts = f"{animal.name}, {self.facts()}" if animal.name else self.facts()
        return [
            self.id_line(middle - 4, size),
            self.text(facts, middle + 10.5, 10, self.room_for_percent(10.5)),
            self.coefficient(middle + 10.5, 10.5),
        ]

    def one(self) -> list[str]:
        animal = self.drawn.animal
        y, less = self.place.height / 2 + 3.5, self.taken + self.room_for_percent(9)
        most = min(10.0, self.place.height * 0.62)
        size = self.id_size(most, min(most, 7.5), self.room_for_percent(9))
        id = fitted_id(animal.id, self.place.width - 2 * PADDING - less, size, True)
        used = width_of(id, size, True) + 5
        name = animal.name if id == animal.id else ""
        room = self.place.width - 2 * PADDING - less - used
        found = [text_at(PADDING, y, id, INK, size, weight="bold"), self.coefficient(y, 9, self.taken)]
        if room > 25:
            facts = f"{name}, {year_of(self.book, animal, self.language)}".removeprefix(", ")
            found.append(text_at(PADDING + used, y, fitted(facts, room, size * 0.92), GREY, size * 0.92))
        return found
