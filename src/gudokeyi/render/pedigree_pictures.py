"""A picture of an animal with its known ancestors, inbred ones and those on both sides marked: on one page, or for many
generations on several, each of which can be printed."""
from __future__ import annotations

import collections
import functools
import math
from collections.abc import Callable, Mapping

from gudokeyi.domain.animals import SocietyRecord
from gudokeyi.render.drawing import (
    FONT, GREY, INBRED, INBRED_INK, INK, LINE, PAPER, escape, fitted, in_two_lines, svg, text_at,
)  # fmt: skip
from gudokeyi.render.languages import Language
from gudokeyi.render.pedigree_boxes import (
    COMMON_NOTE, Box, Drawn, Node, Place, common_ancestors, depth_of, grow, letters_named, nodes_of,
)  # fmt: skip
from gudokeyi.store.book import Book
from gudokeyi.store.coefficients import Coefficient
from gudokeyi.store.queries import count_of_ancestors

# what is printed on a page of A4 in landscape format, in pixels of which an inch has 96
WIDTH, HEIGHT = 1046, 718
HEAD, FOOT, MARGIN = 64, 72, 24
COLUMN, BETWEEN, ROW, BOX_HEIGHT = 236.0, 36.0, 72.0, 62.0
# so many generations behind an animal stand on a page
ON_A_PAGE = 5
TREE_KEY = "inbred, with its coefficient; males have corners, females are round"
# how many ancestors are drawn, and how many aren't
ANCESTORS = "{} known ancestor", "{} known ancestors"
HIDDEN = "; {} more lies further back and isn't drawn", "; {} more lie further back and aren't drawn"


class Pedigree:
    """The pages of an animal's pedigree. `tops` are the animals with which they begin, itself the first, `most` how
    many generations each has at most."""

    def __init__(
        self, book: Book, animal: SocietyRecord, coefficients: Mapping[str, Coefficient], generations: int,
        language: Language, address: Callable[[str], str] | None = None,
    ) -> None:  # fmt: skip
        """`address` is that of an animal's page, to which its box leads."""
        self.address = address
        self.book, self.animal, self.coefficients, self.language = book, animal, coefficients, language
        whole = grow(book, animal.registration_number, 0, generations, 0.0)[0]
        nodes = nodes_of(whole)
        self.times = collections.Counter(node.number for node in nodes)
        pages = math.ceil(min(generations, depth_of(whole)) / ON_A_PAGE)
        self.most = generations if pages < 2 else math.ceil(generations / pages)
        # the letters begin on the first page
        in_order = sorted(nodes[1:], key=lambda node: node.generation > self.most)
        self.letters = common_ancestors(book, animal.registration_number, [node.number for node in in_order])
        last = [node for node in nodes if node.generation == self.most and node.parents]
        self.tops = list(dict.fromkeys([animal.registration_number, *(node.number for node in last)]))
        self.left = generations - self.most

    def text(self) -> str:
        """A picture where one page is enough, else a file of HTML with all of them."""
        if not self.is_long:
            width, height, parts = self.page(0)
            return svg(round(width), round(height), parts)
        pages = "".join(self.section(at) for at in range(len(self.tops)))
        title = escape(self.language.gettext("Pedigree of {}", self.animal.id))
        return (
            f'<!DOCTYPE html>\n<html lang="{self.language.name}" xmlns="http://www.w3.org/1999/xhtml">\n<head>\n'
            '<meta charset="utf-8"/>\n<meta name="viewport" content="width=device-width, initial-scale=1"/>\n'
            f"<title>{title}</title>\n<style>{STYLE}</style>\n</head>\n<body>\n{pages}</body>\n"
            "</html>\n"
        )

    @property
    def is_long(self) -> bool:
        return len(self.tops) > 1

    def section(self, at: int) -> str:
        width, height, parts = self.page(at)
        return (
            f'<section id="page-{at + 1}"><svg xmlns="http://www.w3.org/2000/svg" viewBox="0 0 {width:.0f} {height:.0f}" '
            f'font-family="{escape(FONT)}">\n' + "\n".join(parts) + "\n</svg></section>\n"
        )

    def page(self, at: int) -> tuple[float, float, list[str]]:
        """The width and height of a page, and what stands on it."""
        root, rows = grow(self.book, self.tops[at], 0, self.most if at == 0 else self.left, 0.0)
        nodes = nodes_of(root)
        columns = depth_of(root) + 1
        column = min(COLUMN, (WIDTH - 2 * MARGIN + BETWEEN) / columns)
        row = min(ROW, (HEIGHT - HEAD - FOOT) / rows)
        width, height = MARGIN * 2 + columns * column - BETWEEN, HEAD + rows * row + FOOT
        if self.is_long:
            height = float(HEIGHT)
        width = WIDTH if self.is_long else max(width, 620.0)
        places = {id(node): place_of(node, column, row) for node in nodes}
        parts = [link(places[id(node)], places[id(parent)]) for node in nodes for parent in node.parents]
        parts += [self.box(at, node, places[id(node)]) for node in nodes]
        return width, height, self.head(at, width, height, nodes) + parts

    def box(self, at: int, node: Node, place: Place) -> str:
        number = node.number
        goes_on = at == 0 and node.generation == self.most and number in self.tops
        page = str(self.tops.index(number) + 1) if goes_on else ""
        drawn = Drawn(
            self.book.by_number()[number],
            self.coefficients[number],
            self.times[number],
            self.letters.get(number, ""),
            page,
        )
        picture = Box(self.book, drawn, place, self.language).picture()
        if self.address is None or not node.generation:
            return picture
        return f'<a href="{escape(self.address(number))}">{picture}</a>'

    def head(self, at: int, width: float, height: float, nodes: list[Node]) -> list[str]:
        """The title, and below the tree what the marks mean."""
        gettext, top = self.language.gettext, self.book.by_number()[self.tops[at]]
        title = gettext("Pedigree of {}", top.id) + (f", {top.name}" if top.name else "")
        y, page = height - 46, gettext("page {} of {}", at + 1, len(self.tops)) if self.is_long else ""
        here = {self.letters[node.number]: node.number for node in nodes if node.number in self.letters}
        letters = {number: letter for letter, number in sorted(here.items(), key=lambda pair: (len(pair[0]), pair[0]))}
        common = gettext(COMMON_NOTE, letters_named(letters)) if letters else ""
        first, second = in_two_lines(common, width - 2 * MARGIN, 10)
        return [
            text_at(
                MARGIN, 36, fitted(title, width - 2 * MARGIN - 110 * self.is_long, 20, True), INK, 20, weight="bold"
            ),
            text_at(width - MARGIN, 36, page, GREY, 13, "end"),
            f'<rect x="{MARGIN}" y="{y - 11:.1f}" width="20" height="14" rx="3" fill="{INBRED}" stroke="{INBRED_INK}" '
            'stroke-width="2"/>',
            text_at(MARGIN + 28, y, gettext(TREE_KEY), GREY, 13),
            text_at(MARGIN, y + 18, self.note + ".", GREY, 13),
            text_at(MARGIN, y + 31, first, GREY, 10),
            text_at(MARGIN, y + 42, second, GREY, 10),
        ]

    @functools.cached_property
    def note(self) -> str:
        """How many ancestors are drawn, and how many aren't."""
        drawn = len(self.times) - 1
        hidden = count_of_ancestors(self.book, self.animal.registration_number) - drawn
        more = self.language.ngettext(*HIDDEN, hidden) if hidden else ""
        return self.language.ngettext(*ANCESTORS, drawn) + more


STYLE = f"""
@page {{ size: A4 landscape; margin: 10mm; }}
body {{ margin: 0; background: #e9ecef; -webkit-print-color-adjust: exact; print-color-adjust: exact; }}
section {{ width: 277mm; height: 190mm; margin: 8mm auto; background: {PAPER}; }}
svg {{ display: block; }}
section > svg {{ width: 100%; height: 100%; }}
@media screen and (max-width: 277mm) {{ section {{ width: auto; height: auto; margin: 0 0 8mm; overflow-x: auto; }}
  section > svg {{ width: 277mm; height: 190mm; }} }}
@media print {{ body {{ background: none; }} section {{ margin: 0; break-after: page; break-inside: avoid; }}
  section:last-child {{ break-after: auto; }} }}
"""


def place_of(node: Node, column: float, row: float) -> Place:
    height = min(BOX_HEIGHT, max(node.span, 1.0) * row - min(10.0, row * 0.14))
    return Place(MARGIN + node.generation * column, HEAD + node.y * row - height / 2, column - BETWEEN, height)


def link(child: Place, parent: Place) -> str:
    x = child.x + child.width
    middle = (x + parent.x) / 2
    return (
        f'<path d="M{x:.1f} '
        f'{child.y + child.height / 2:.1f}H{middle:.1f}V{parent.y + parent.height / 2:.1f}H{parent.x:.1f}" fill="none" '
        f'stroke="{LINE}" stroke-width="1.5"/>'
    )
