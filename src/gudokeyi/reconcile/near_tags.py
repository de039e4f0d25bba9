"""Ids that a text may mean that is a part of one, or one that is written in another form: with the number of a country
for its letters or without both, with fewer zeros, by its last digits, or beside another in one cell."""
from __future__ import annotations

import collections
import functools
import itertools
import re
from collections.abc import Callable, Iterable, Sequence

from gudokeyi.ingest.odd_texts import several_ids
from gudokeyi.ingest.spellings import latin

# countries by their numbers in tags of animals
COUNTRIES = {
    "040": "at", "056": "be", "100": "bg", "124": "ca", "191": "hr", "203": "cz", "208": "dk", "233": "ee", "246": "fi",
    "250": "fr", "276": "de", "300": "gr", "348": "hu", "352": "is", "372": "ie", "380": "it", "428": "lv", "438": "li",
    "440": "lt", "442": "lu", "528": "nl", "554": "nz", "578": "no", "616": "pl", "620": "pt", "642": "ro", "703": "sk",
    "705": "si", "724": "es", "752": "se", "756": "ch", "826": "gb", "840": "us",
}  # fmt: skip
# stands in no id
BETWEEN = "\0"
NO_BONES = re.compile(r"[^\w\0]+|_+")
# letters of a country before a number, and its number before a longer one
COUNTRY = re.compile(rf"(?<=\0)(?:[a-z]{{2}}(?=\d{{6}})|(?:{'|'.join(COUNTRIES)})(?=\d{{10,}}\0))")
# so many digits of a number show which one it is, and so many at most stand for a whole one of so many at least
LEAST, MOST, WHOLE = 4, 6, 8
# a whole number in groups or without, behind the letters of a country or without them
TAG = re.compile(rf"(?:[A-Za-z]{{2}}[\s.:/_-]*)?\d(?:[\s.:/_-]*\d){{{WHOLE - 1},}}", re.ASCII)
# more than one of so many that are new aren't few
FEW = 10
NO_DIGITS = re.compile(r"[^\d\0]+")


# the letters of its country and the rest of an id
Form = tuple[str, str]


def compared(ids: Sequence[str]) -> list[Form]:
    """The letters of its country and the rest of each, without signs and in small letters; all are looked at as one
    text."""
    together = BETWEEN + NO_BONES.sub("", latin(BETWEEN.join(ids)).casefold()) + BETWEEN
    whole, rest = (text[1:-1].split(BETWEEN) for text in (together, COUNTRY.sub("", together)))
    if not len(ids) == len(whole) == len(rest):
        return [one for id in ids for one in compared([id.replace(BETWEEN, " ")])]
    countries = (one.removesuffix(other) for one, other in zip(whole, rest))
    return [(COUNTRIES.get(country, country), other) for country, other in zip(countries, rest)]


def ids_by_digits(texts: Iterable[str], ids: Sequence[str]) -> dict[str, str]:
    """By each of some texts that is a whole tag the only id that has its digits, where it is one too, and of no other
    country."""
    tags = {text: NO_DIGITS.sub("", text) for text in texts if TAG.fullmatch(text)}
    found: dict[str, list[str]] = {digits: [] for digits in tags.values()}
    together = NO_DIGITS.sub("", BETWEEN.join(ids)).split(BETWEEN) if found else []
    for id, digits in zip(ids, together if len(together) == len(ids) else ()):
        if digits in found:
            found[digits].append(id)
    return {text: found[digits][0] for text, digits in tags.items() if are_one_tag(text, found[digits])}


def are_one_tag(text: str, ids: Sequence[str]) -> bool:
    """Is there one id alone, and is it that text but for signs, and for the letters of the country, which one may
    lack?"""
    if len(ids) != 1 or not TAG.fullmatch(ids[0]):
        return False
    (country, rest), (other, other_rest) = compared([text, *ids])
    return rest == other_rest and (not country or not other or country == other)


class TagsEver:
    """The ids of all animals that were there at some look, by these forms. Each is found where it is asked for."""

    def __init__(self, ids: Iterable[str]) -> None:
        self.ids = [*ids]
        self.ends = dict[int, Places]()

    def take(self, new: Sequence[str]) -> None:
        """Takes ids that are new into all that was found of the others."""
        first, built, forms = len(self.ids), self.__dict__, compared(new) if "forms" in self.__dict__ else []
        self.ids += new
        if forms:
            self.forms += forms
        for name, key_of in KEYS_OF.items():
            if name in built:
                add_places(built[name], key_of, forms, first)
        for length, ends in self.ends.items():
            add_places(ends, functools.partial(end_of, length), forms, first)
        if "by_part" in built:
            add_parts(self.by_part, new, first)

    @functools.cached_property
    def forms(self) -> list[Form]:
        return compared(self.ids)

    @functools.cached_property
    def by_rest(self) -> Places:
        return self.by(rest_of)

    @functools.cached_property
    def by_bones(self) -> Places:
        return self.by(bones_of)

    def by_end(self, length: int) -> Places:
        if length not in self.ends:
            self.ends[length] = self.by(functools.partial(end_of, length))
        return self.ends[length]

    def by(self, key_of: Callable[[str], str]) -> Places:
        return add_places(collections.defaultdict(list), key_of, self.forms, 0)

    @functools.cached_property
    def by_part(self) -> Places:
        """Those of which several stand in one cell."""
        return add_parts(collections.defaultdict(list), self.ids, 0)


# the places of ids by what is compared of them
Places = dict[str, list[int]]


def rest_of(rest: str) -> str:
    return rest


def bones_of(rest: str) -> str:
    return rest.replace("0", "")


def end_of(length: int, rest: str) -> str:
    return rest[-length:] if len(rest) >= WHOLE else ""


# the indexes of `TagsEver` that have all ids, with what is compared in them
KEYS_OF: dict[str, Callable[[str], str]] = {"by_rest": rest_of, "by_bones": bones_of}


def add_places(found: Places, key_of: Callable[[str], str], forms: Iterable[Form], first: int) -> Places:
    """Adds ids by their forms; the first has this place."""
    for at, (_, rest) in enumerate(forms, first):
        found[key_of(rest)].append(at)
    return found


def add_parts(found: Places, ids: Sequence[str], first: int) -> Places:
    """Adds those of some ids that are several by each of these."""
    several = several_ids(ids)
    places = {id: at for at, id in enumerate(ids, first) if id in several}
    for id, parts in several.items():
        for _, rest in compared(parts):
            found[rest].append(places[id])
    return found


class NearTags:
    """The ids of the animals that are there, by these forms."""

    def __init__(self, ids: Sequence[str], ever: TagsEver | None = None) -> None:
        self.ids, self.ever = ids, ever or TagsEver(ids)

    def of_others(self, ids: Sequence[str]) -> NearTags | None:
        """The same of other ids, of which few are new; none where these are many."""
        new = [*itertools.filterfalse({*self.ever.ids}.__contains__, ids)]
        if FEW * len(new) > len(ids):
            return None
        self.ever.take(new)
        return NearTags(ids, self.ever)

    @functools.cached_property
    def are_there(self) -> set[str]:
        return {*self.ids}

    @functools.cached_property
    def usual_length(self) -> int:
        forms = itertools.compress(self.ever.forms, map(self.are_there.__contains__, self.ever.ids))
        lengths = collections.Counter(len(rest) for _, rest in forms)
        return max(lengths, key=lengths.__getitem__, default=0)

    def near(self, text: str) -> set[str]:
        """The ids that a text may mean, by the surest of these ways that finds one."""
        [(country, rest)] = compared([text])
        if len(rest) < LEAST or not any(map(str.isdigit, rest)):
            return set()
        ids, forms = self.ever.ids, self.ever.forms
        for found in self.ways(rest):
            likely = {ids[at] for at in found if not country or forms[at][0] in ("", country)} & self.are_there
            if likely - {text}:
                return likely - {text}
        return set()

    def ways(self, rest: str) -> Iterable[Iterable[int]]:
        """The places of ids that have the same rest; which have it among others; which have it but for zeros; and
        which end with it."""
        ever = self.ever
        yield ever.by_rest.get(rest, ())
        yield ever.by_part.get(rest, ())
        bones = bones_of(rest)
        yield [at for at in ever.by_bones.get(bones, ()) if len(ever.forms[at][1]) != len(rest)] * (len(bones) >= LEAST)
        if rest.isdigit() and len(rest) <= MOST and self.usual_length >= WHOLE:
            yield ever.by_end(len(rest)).get(rest, ())
