"""Command files for the program to read."""
from __future__ import annotations

import random

from outside.runs import TOP

SAMPLES = [TOP / "examples" / name for name in ("first.csv", "ayrshire.csv")]
HEADER = "kind,animal,day,sire,dam,from,to\n"


def animal(sex: str, number: int) -> str:
    return f"HOLGBR{sex}{number:012}"


def founder(number: str) -> str:
    return f"birth,{number},2000-01-01,0,0,,1\n"


def birth(number: str, born: str, sire: str, dam: str) -> str:
    return f"birth,{number},{born},{sire},{dam},,1\n"


def males(count: int) -> str:
    """So many founders of one birth day."""
    return HEADER + "".join(founder(animal("M", one)) for one in range(1, count + 1))


def full_sibs(generations: int) -> str:
    """A male and a female in each generation, both of the pair before."""
    lines = [HEADER]
    for one in range(generations):
        sire, dam = (animal("M", 2 * one - 1), animal("F", 2 * one)) if one else ("0", "0")
        for number in animal("M", 2 * one + 1), animal("F", 2 * one + 2):
            lines.append(birth(number, f"{2000 + one}-01-01", sire, dam))
    return "".join(lines)


def drawn(seed: int) -> str:
    """Some forty births, whose parents are drawn among older animals or are unknown, and then a few corrections."""
    draw = random.Random(seed)
    days: dict[str, str] = {}
    text = HEADER

    def parent(sex: str, born: str) -> str:
        older = [it for it in days if it[6] == sex and days[it] < born]
        return draw.choice(older[-6:]) if older and draw.random() < 0.8 else "0"

    for one in range(1, 41):
        number = animal(draw.choice("MF"), one)
        born = f"{2000 + one // 4}-{draw.randint(1, 12):02}-01"
        text += birth(number, born, parent("M", born), parent("F", born))
        days[number] = born
    for number in draw.sample(list(days), 4):
        text += f"parents,{number},,{parent('M', days[number])},{parent('F', days[number])},,\n"
    return text


def couples(count: int, first: int, calves: int = 1) -> str:
    """So many bulls, each with a cow and so many calves of the two, numbered from `first` on."""
    text = ""
    for one in range(first, first + (2 + calves) * count, 2 + calves):
        sire, dam = animal("M", one), animal("F", one + 1)
        text += founder(sire) + founder(dam)
        for calf in range(one + 2, one + 2 + calves):
            text += birth(animal("M", calf), "2003-01-01", sire, dam)
    return text


def sire_lines(generations: int) -> str:
    """Two lines of sires, each a son of the one before: a line has the odd numbers, the other the even ones."""
    text = HEADER
    for one in range(1, 2 * generations + 1):
        text += birth(animal("M", one), f"{1950 + one}-01-01", animal("M", one - 2) if one > 2 else "", "")
    return text


def families(count: int, calves: int, grandcalves: int) -> str:
    """So many couples, each with calves of both sexes in turn, of which the first two have inbred calves."""
    text, width = HEADER, 2 + calves + grandcalves
    for one in range(1, 1 + width * count, width):
        sire, dam, son, daughter = animal("M", one), animal("F", one + 1), animal("M", one + 2), animal("F", one + 3)
        text += founder(sire) + founder(dam)
        for at in range(calves):
            text += birth(animal("MF"[at % 2], one + 2 + at), "2003-01-01", sire, dam)
        for at in range(grandcalves):
            text += birth(animal("F", one + 2 + calves + at), "2006-01-01", son, daughter)
    return text
