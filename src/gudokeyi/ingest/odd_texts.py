"""Names that tell of an exit, ids that are several, and birth days that stand for nothing."""
from __future__ import annotations

import collections
import datetime
import functools
import re
from collections.abc import Collection, Iterable, Iterator, Mapping

from gudokeyi.domain.findings import Report
from gudokeyi.domain.kinds import Field
from gudokeyi.ingest.animals import SheetAnimal
from gudokeyi.ingest.findings.columns import SheetFinding
from gudokeyi.ingest.findings.odd_texts import (
    MOST_LINES, BirthOfBornDead, DeathInBirth, FirstDays, IdTellsOfExit, NameTellsOfExit, SexTellsOfExit, TwoIds,
)  # fmt: skip
from gudokeyi.ingest.texts import listed, shape

# Names that tell of an exit.


# words that are no names; those that are shortened, behind which a point stands; and those that may be a part of a name
# but in small letters at its end, or in brackets
SURE = listed(
    "verkauft, geschlachtet, gestorben, verstorben, verendet, eingeschläfert, euthanasiert, exportiert, "
    "notgeschlachtet, notgetötet, abgegangen, slaughtered, deceased, euthanised, euthanized, rehomed, vendu, vendue, "
    "abattu, abattue, décédé, décédée, euthanasié, euthanasiée, exporté, exportée"
)
SHORT = listed("verk, gest, verst, verend, geschl, schl, eingeschl, abg, abgeg, euth, décéd")
SMALL = listed(
    "tot, weg, verk, gest, eingeschl, euth, dead, died, sold, culled, exported, gone, rip, pts, mort, morte, dcd"
)
# letters that stand for words, in capitals at the end of a name; another name in capitals may begin with them
LETTERS = listed("RIP, PTS")
WITH_POINTS = "r.i.p"
SIGNS = ("†", "✝", "+")
DEATH_SIGNS = SIGNS[:2]
BEGINS_DEATHS = (*DEATH_SIGNS, "tot", "still", "born", "mort")
BORN_DEAD = re.compile(
    r"\b(?:tot\W?(?:geb\w*|geboren)|still\W?(?:born|birth)|born dead|morts?\W?née?s?|mortnée?)\b", re.IGNORECASE
)
# a cross before a day, in brackets or first of all, or a plus alone at the end
EXIT = re.compile(
    r"[†✝]|\+ ?(?=\d)|(?<= )\+$|\( ?\+|^\+ ?(?=[^\W\d_])|^(?:RIP[,:]? +(?=.*[a-zß-ÿ])|rip +(?=[A-ZÀ-Þ]))|"
    rf"(?i:\b(?:{'|'.join(SURE)})\b)|(?i:\b(?:{'|'.join(SHORT)})\.(?!\w))|"
    rf"(?i:[(\[] ?(?:{'|'.join(SMALL)})\b[^)\]]*[)\]])|(?i:\br\.i\.p\b)|"
    rf"(?<=[ ,;/–-])(?:{'|'.join((*SMALL, *LETTERS))})[.!]?(?: +[\d./-]+)?$"
)


# a sheet that is looked at again has the same names and words for sexes
@functools.lru_cache(2)
def names_with_exits(names: tuple[str, ...]) -> set[str]:
    """Those of many names that tell of an exit. Those alone are looked at that have one of the words within."""
    in_small = {name: name.lower() for name in names}
    together = "\n".join(in_small.values())
    words = [word for word in (*SIGNS, *SURE, *SHORT, *SMALL, WITH_POINTS) if word in together]
    likely = {name for word in words for name, small in in_small.items() if word in small and stands_in(small, word)}
    return {name for name in likely if EXIT.search(name)}


def stands_in(text: str, word: str) -> bool:
    """Does a word that a text has stand there whole?"""
    return word in SIGNS or re.search(rf"\b{re.escape(word)}\b", text) is not None


def tell_exits_in_names(animals: Mapping[str, SheetAnimal], names: Iterable[str], report: Report) -> None:
    """Of animals that count as living."""
    telling = names_with_exits(tuple(names))
    for animal in animals.values() if telling else ():
        if animal.name in telling and counts_as_living(animal):
            report.add(animal.line, animal.id, NameTellsOfExit(animal.name))


def exits_in_sexes(title: str, animals: Mapping[str, SheetAnimal], texts: Iterable[str]) -> list[SheetFinding]:
    """What is told of animals that count as living, and whose cell for the sex has one of these texts that tells of an
    exit too, as `Aue †`."""
    telling = names_with_exits(tuple(texts))
    those = [one for one in animals.values() if counts_as_living(one)] if telling else []
    found = [(text, one.line) for one in those if (text := one.cells.get(Field.SEX, "")) in telling and one.sex]
    return [SexTellsOfExit(title, len(found), *found[0])] if found else []


def tell_deaths_in_births(animals: Mapping[str, SheetAnimal], births: Collection[str], report: Report) -> None:
    """Of animals that count as living, and whose birth has a sign of a death, or says that they were born dead."""
    together = "\n".join(births).lower()
    if not any(begin in together for begin in BEGINS_DEATHS):
        return
    telling = {text for text in births if any(sign in text for sign in DEATH_SIGNS) or BORN_DEAD.search(text)}
    for animal in animals.values():
        if (text := animal.cells.get(Field.BIRTH, "")) in telling and counts_as_living(animal):
            kind = BirthOfBornDead if BORN_DEAD.search(text) else DeathInBirth
            report.add(animal.line, animal.id, kind(text))


def tell_exits_in_ids(animals: Mapping[str, SheetAnimal], marked: Mapping[int, str], report: Report) -> None:
    """Of ids that are read without a sign; `marked` has them as they are written, by their lines."""
    for animal in animals.values() if marked else ():
        if written := marked.get(animal.line):
            report.add(animal.line, animal.id, IdTellsOfExit(written, animal.id, counts_as_living(animal)))


def counts_as_living(animal: SheetAnimal) -> bool:
    return animal.left is None and not animal.exit_basis.day_is_unknown


# Birth days that stand for nothing.

FIRST_DAY = datetime.date(1900, 1, 1)


def first_days(animals: Mapping[str, SheetAnimal], births: Collection[str]) -> list[SheetFinding]:
    """What is told of animals that live and are born on the first day of a spreadsheet; `births` are all cells."""
    if not any("1900" in text for text in births):
        return []
    born = (one for one in animals.values() if one.birth.first == FIRST_DAY and one.has_day())
    lines = [animal.line for animal in born if counts_as_living(animal)]
    return [FirstDays(len(lines), tuple(lines[:MOST_LINES]))] if lines else []


# Ids that are several.

# an id in which others stand is so much longer than most, and so many ids show how they are written
LONGER, SOME = 1.6, 200
BETWEEN = re.compile(
    r"\s*[;,|&+\n()\[\]]\s*|\s+[/–-]\s+|\s+(?:und|u\.|and|et|bzw\.?|oder|or|ou)\s+|"
    r"\s*\b(?:alt|neu|ex|früher|vorher|ehem|old|new|formerly|ancien|ancienne|anc)\b[:. ]*",
    re.IGNORECASE,
)
SLASH = re.compile(r"\s*/\s*")
# a number of a year, as `3/12` for the third animal of 2012; and an id that has the animal's name behind it
OF_YEAR = r"\d{1,4}/(?:\d\d|(?:19|20)\d\d)"
YEAR_AND_NAME = re.compile(OF_YEAR + r"/[^\W\d_][^/\d]*")


def several_ids(ids: Collection[str]) -> dict[str, tuple[str, ...]]:
    """The ids that have several within, which are written as others are."""
    lengths = collections.Counter(map(len, ids))
    usual = max(lengths, key=lambda length: lengths[length], default=0)
    if len(ids) < 2 or max(lengths) < LONGER * usual:
        return {}
    long = [id for id in ids if len(id) >= LONGER * usual and not YEAR_AND_NAME.fullmatch(id)]
    others = (id for id in ids if len(id) < LONGER * usual)
    shapes = {shape(id) for id, _ in zip(others, range(SOME))}
    found = {id: next((its for its in parts_of(id, shapes) if len(its) > 1), ()) for id in long}
    return {id: its for id, its in found.items() if its}


def parts_of(id: str, shapes: Collection[str]) -> Iterator[tuple[str, ...]]:
    """Its parts that are written as other ids are: between signs and words, and also between slashes."""
    parts = BETWEEN.split(id)
    for those in parts, [one for part in parts for one in SLASH.split(part)]:
        yield tuple(dict.fromkeys(one for one in those if any(map(str.isdigit, one)) and shape(one) in shapes))


# a second id of which the last digits alone stand behind the first, as `DE104+105`; and what all of these have
WITH_ANOTHER = re.compile(
    r"(?P<first>(?:.*[^\d\n])?(?P<number>\d+)) ?(?:[+&;,]| (?:und|u\.|and|et)(?= )) ?(?P<other>\d+)", re.IGNORECASE
)
ANOTHER = ("+", "&", ";", ",", " und ", " u. ", " and ", " et ")


NO_DIGITS = str.maketrans("", "", "0123456789")


def having(marks: Iterable[str], texts: Collection[str]) -> list[str]:
    """Those of many texts that have one of some marks, in small letters and without digits. Few sheets have any; most
    ids are alike but for their digits."""
    without_digits = "\n".join({*"\n".join(texts).lower().translate(NO_DIGITS).split("\n")})
    there = [mark for mark in marks if mark in without_digits]
    return [text for text in texts if any(mark in text.lower() for mark in there)] if there else []


def ids_with_another(ids: Collection[str]) -> dict[str, tuple[str, ...]]:
    """The ids that have the end of another one behind them, and are written as others are without it."""
    likely = having(ANOTHER, ids)
    found = {id: one for id in likely if (one := WITH_ANOTHER.fullmatch(id)) and len(one["other"]) <= len(one["number"])}
    shapes = {shape(id) for id, _ in zip((id for id in ids if id not in found), range(SOME))} if found else set()
    both = {id: (one["first"], one["first"][: -len(one["other"])] + one["other"]) for id, one in found.items()}
    return {id: its for id, its in both.items() if shape(its[0]) in shapes}


@functools.lru_cache(1)
def all_several_ids(ids: tuple[str, ...]) -> dict[str, tuple[str, ...]]:
    return ids_with_another(ids) | several_ids(ids)


def tell_several_ids(animals: Mapping[str, SheetAnimal], known: Collection[str], report: Report) -> set[str]:
    """Answers the ids of those that are told; the book hasn't these."""
    found = {id: its for id, its in all_several_ids(tuple(animals)).items() if id not in known}
    for id, its in found.items():
        report.add(animals[id].line, id, TwoIds(its))
    return {*found}
