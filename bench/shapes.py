"""Drawn breeds of several shapes, which generate.py describes."""

from __future__ import annotations

import datetime
import random
from typing import Callable

EPOCH = datetime.date(1900, 1, 1)
LAST = (datetime.date(2199, 12, 31) - EPOCH).days


class Book:
    """Animals by their place, and the place of each parent that is known."""

    def __init__(self, limit: int) -> None:
        self.limit = limit
        self.day: list[int] = []
        self.sex: list[str] = []
        self.sire: list[int | None] = []
        self.dam: list[int | None] = []
        self.depth: list[int] = []

    def add(self, day: int, sex: str, sire: int | None = None, dam: int | None = None) -> int:
        lines = [self.depth[it] + 1 for it in (sire, dam) if it is not None]
        depth = max(lines, default=0)
        assert depth <= self.limit
        assert 0 <= day <= LAST
        for it in (sire, dam):
            assert it is None or self.day[it] < day
        self.day.append(day)
        self.sex.append(sex)
        self.sire.append(sire)
        self.dam.append(dam)
        self.depth.append(depth)
        return len(self.day) - 1

    def __len__(self) -> int:
        return len(self.day)


def overlapping(
    draw: random.Random,
    animals: int,
    limit: int,
    years: int,
    sires_a_year: int,
    dam_share: float,
    unknown: float,
    bought: float,
) -> Book:
    """Years of births: sires live 2 to 7 years, dams 2 to 9; a few sires have most of the calves."""
    book = Book(limit)
    a_year = max(4, animals // years)
    # by year
    used_males: list[list[int]] = []
    used_females: list[list[int]] = []
    for year in range(10_000):
        if len(book) >= animals:
            break
        sires = [it for made in used_males[max(0, year - 7) : max(0, year - 1)] for it in made]
        dams = [it for made in used_females[max(0, year - 9) : max(0, year - 1)] for it in made]
        born: dict[str, list[int]] = {"M": [], "F": []}
        for _ in range(min(a_year, animals - len(book))):
            sex = "F" if draw.random() < 0.5 else "M"
            day = 365 * year + draw.randrange(365)
            born[sex].append(book.add(day, sex, *mates(draw, book, sires, dams, unknown, bought)))
        draw.shuffle(born["M"])
        draw.shuffle(born["F"])
        used_males.append(born["M"][: max(1, sires_a_year)])
        used_females.append(born["F"][: max(1, int(len(born["F"]) * dam_share))])
    return book


def mates(
    draw: random.Random, book: Book, sires: list[int], dams: list[int], unknown: float, bought: float
) -> tuple[int | None, int | None]:
    """A sire and a dam of these, each of which may be unknown; both are, of an animal that is bought."""
    if not sires or not dams or draw.random() < bought:
        return None, None
    # The square favours the front of the pool, so a few sires are popular.
    sire: int | None = sires[int(len(sires) * draw.random() ** 2)]
    dam: int | None = dams[int(len(dams) * draw.random())]
    if draw.random() < unknown:
        sire = None
    if draw.random() < unknown:
        dam = None
    if book.limit <= max([book.depth[it] for it in (sire, dam) if it is not None], default=-1):
        # At the limit: an animal with unknown parents in its place.
        return None, None
    return sire, dam


def narrow(draw: random.Random, animals: int, limit: int, unknown: float) -> Book:
    return overlapping(draw, animals, limit, 150, 3, 0.5, unknown, 0.0)


def dairy(draw: random.Random, animals: int, limit: int, unknown: float) -> Book:
    return overlapping(draw, animals, limit, 60, 6, 0.6, unknown, 0.03)


def broad(draw: random.Random, animals: int, limit: int, unknown: float) -> Book:
    return overlapping(draw, animals, limit, 50, max(4, animals // 1000), 0.7, unknown, 0.05)


def fullsib(draw: random.Random, animals: int, limit: int, unknown: float) -> Book:
    book = Book(limit)
    levels = limit + 1
    pair: tuple[int | None, int | None] = (None, None)
    for level in range(levels):
        each = max(2, animals // levels + (level < animals % levels))
        here = []
        for place in range(each):
            sex = "M" if place == 0 else "F" if place == 1 else "MF"[place % 2]
            here.append(book.add(365 * level + draw.randrange(300), sex, *pair))
        m = draw.choice([it for it in here if book.sex[it] == "M"])
        f = draw.choice([it for it in here if book.sex[it] == "F"])
        pair = (m, f)
    return book


def deep(draw: random.Random, animals: int, limit: int, unknown: float) -> Book:
    book = Book(limit)
    levels = limit + 1
    before_m: list[int] = []
    before_f: list[int] = []
    for level in range(levels):
        each = max(8, animals // levels + (level < animals % levels))
        here_m, here_f = list[int](), list[int]()
        for place in range(each):
            sex = "M" if place == 0 else "F" if place == 1 else "MF"[draw.randrange(2)]
            sire = draw.choice(before_m) if before_m else None
            dam = draw.choice(before_f) if before_f else None
            if level and draw.random() < unknown:
                dam = None
            it = book.add(730 * level + draw.randrange(700), sex, sire, dam)
            (here_f if sex == "F" else here_m).append(it)
        draw.shuffle(here_m)
        draw.shuffle(here_f)
        before_m = here_m[: max(1, each // 20)]
        before_f = here_f[: max(1, each * 2 // 5)]
    return book


def pairs(draw: random.Random, animals: int, limit: int, unknown: float) -> Book:
    book = Book(limit)
    levels = min(20, limit + 1)
    sires: list[int] = []
    dams: list[int] = []
    for level in range(levels):
        each = max(4, animals // levels + (level < animals % levels))
        here_m, here_f = list[int](), list[int]()
        for place in range(each):
            sire = sires[place % len(sires)] if sires else None
            dam = dams[(place * 7 + 3) % len(dams)] if dams else None
            it = book.add(1000 * level + draw.randrange(900), "FM"[place % 2], sire, dam)
            (here_m if place % 2 else here_f).append(it)
        draw.shuffle(here_m)
        draw.shuffle(here_f)
        sires, dams = here_m, here_f
    return book


SHAPES: dict[str, Callable[[random.Random, int, int, float], Book]] = {
    it.__name__: it for it in (narrow, dairy, broad, fullsib, deep, pairs)
}
