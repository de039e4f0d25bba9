"""What the program must print, by the herd book of `reference_book`."""
from __future__ import annotations

from fractions import Fraction

from reference_book import MOST_DEPTH, Animal, Book, Relationship, filed, first_of

__all__ = ["Book", "Relationship", "filed"]


def replies(text: str) -> str:
    answers = filed(text)[1]
    return "".join(f"{place},{f'refused,{code}' if code else 'accepted'}\n" for place, code in enumerate(answers, 1))


def percentage(value: Fraction) -> str:
    hundredths = (value * 20_000 + 1) // 2
    return f"{hundredths // 100}.{hundredths % 100:02}"


def inbreeding(text: str) -> str:
    return inbreeding_of(filed(text)[0])


def inbreeding_of(book: Book) -> str:
    entry = book.relationships()
    values = [(it, entry(book.animals[it].sire, book.animals[it].dam) / 2) for it in book.by_age()]
    return "".join(f"{number},{value},{percentage(value)}\n" for number, value in values)


def certificates(text: str, numbers: list[str]) -> str:
    return certificates_of(filed(text)[0], numbers)


def certificates_of(book: Book, numbers: list[str]) -> str:
    return "".join(certificate_of(book, number) for number in numbers)


def certificate_of(book: Book, number: str) -> str:
    animal = book.animals[number]
    value = book.relationships()(animal.sire, animal.dam) / 2
    lines = [
        f"animal {number}",
        f"sex {'male' if number[6] == 'M' else 'female'}",
        f"born {animal.birth}",
        f"herd {animal.herd}",
        f"since {animal.since}",
        f"left {animal.left or '-'}",
        f"inbreeding {value} {percentage(value)}",
    ]
    named: dict[str, str | None] = {"": number}
    for letters in ["S", "D", "SS", "SD", "DS", "DD"] + [a + b + c for a in "SD" for b in "SD" for c in "SD"]:
        child = book.animals.get(named[letters[:-1]] or "")
        named[letters] = (child.sire if letters[-1] == "S" else child.dam) if child else None
        lines.append(f"{letters} {named[letters] or 0}")
    return "\n".join(lines) + "\n"


def mating(text: str, dam: str, sires: list[str]) -> str:
    return mating_of(filed(text)[0], dam, sires)


def mating_of(book: Book, dam: str, sires: list[str]) -> str:
    entry = book.relationships()
    lines = []
    for sire in sires:
        fault = first_of([
            (1, sire not in book.animals),
            (2, dam not in book.animals),
            (3, sire[6] != "M"),
            (4, dam[6] != "F"),
        ])  # fmt: skip
        fault = fault or (5 if book.depth_with("calf", sire, dam) > MOST_DEPTH else None)
        if fault:
            lines.append(f"{sire},refused,{fault}\n")
        else:
            value = entry(sire, dam) / 2
            lines.append(f"{sire},{value},{percentage(value)}\n")
    return "".join(lines)


def relationships(text: str, numbers: list[str], others: list[str] | None = None) -> str:
    return relationships_of(filed(text)[0], numbers, others)


def relationships_of(book: Book, numbers: list[str], others: list[str] | None = None) -> str:
    """Of the numbers with the others, or with themselves and those after them."""
    entry = book.relationships()
    lines = [f"{it},refused,1\n" for it in [*numbers, *(others or [])] if it not in book.animals]
    firsts = [it for it in numbers if it in book.animals]
    for place, one in enumerate(firsts):
        partners = firsts[place:] if others is None else [it for it in others if it in book.animals]
        lines += [f"{one},{it},{entry(one, it)}\n" for it in partners]
    return "".join(lines)


def records(text: str, numbers: list[str]) -> str:
    return records_of(filed(text)[0], numbers)


def records_of(book: Book, numbers: list[str]) -> str:
    """Of the numbers as they are given, or where there are none of all, the oldest first."""
    return "".join(record_line(number, book.animals[number]) for number in numbers or book.by_age())


def record_line(number: str, animal: Animal) -> str:
    parents = [animal.sire or "0", animal.dam or "0"]
    days = [str(animal.since), str(animal.left or "-")]
    return ",".join([number, str(animal.birth), *parents, animal.herd, *days, "1" if animal.embryo else ""]) + "\n"


def inverse(text: str) -> str:
    return inverse_of(filed(text)[0])


def inverse_of(book: Book) -> str:
    entry, ranks = book.relationships(), book.ranks()
    lines = []
    for number in book.by_age():
        parents = [it for it in (book.animals[number].sire, book.animals[number].dam) if it]
        alpha = 1 / (1 - sum((entry(it, it) for it in parents), Fraction(0)) / 4)
        cells = [(number, number, alpha)]
        cells += [(number, it, -alpha / 2) for it in parents] + [(it, it, alpha / 4) for it in parents]
        if len(parents) == 2:
            older, younger = sorted(parents, key=ranks.__getitem__)
            cells.append((younger, older, alpha / 4))
        lines += [f"{number},{row},{column},{value}\n" for row, column, value in cells]
    return "".join(lines)


def clerks(text: str, desks: int = 2, base: int = 0) -> str:
    book, answers = filed(text)
    first = min(base, len(answers))
    answered = [len(range(desk, len(answers) - first, desks)) for desk in range(desks)]
    answered[0] += first
    lines = [f"desk {desk} answered {count}\n" for desk, count in enumerate(answered, 1)]
    return "".join(lines) + f"steps {len(answers)}\nanimals {len(book.animals)}\nseen {len(answers)}\n"
