"""Which animals a text may mean by its letters: by their names, by parts of these, or by ids that are nearly written
so. What is compared of names and ids is found once for all looks at a sheet, whichever animals are there."""
from __future__ import annotations

import bisect
import collections
import functools
import itertools
from collections.abc import Callable, Iterable, Iterator, Mapping, Sequence

from gudokeyi.domain.spelling import as_digits, closest, folded, folded_all
from gudokeyi.ingest.texts import without_accents
from gudokeyi.reconcile.bare_names import bare_all
from gudokeyi.reconcile.near_names import DIGITS, LEAST_LETTERS, MOST_WORDS, parts_of

# shorter texts are often alike
SHORT = 5
# how much alike two names are, of which one may stand for the other, and by how many letters their lengths differ
ALIKE, LONGER = 0.8, 2
# of so many animals at most that weren't there before names are added: else all are looked at anew
ADDED = 0.1
# a look asks about the animals that are there three times: those of two looks are known
MOST_ASKED = 6

# ids by what is compared of the animals' names, or of themselves
Ids = dict[str, list[str]]
KeysOf = Callable[[Sequence[str]], list[str]]
# names with their forms
Forms = list[tuple[str, str]]


class NamesEver:
    """The ids and names of all animals that were there at some look, by what is compared of them. Each is found where
    it is asked for."""

    def __init__(self) -> None:
        self.names: dict[str, str] = {}
        # by their letters and digits in their order, those of each length that was asked for
        self.lengths = dict[int, collections.defaultdict[str, list[str]]]()
        # those that were asked about last, and are among them
        self.asked: list[tuple[Sequence[str], Sequence[str]]] = []

    def has(self, ids: Sequence[str], names: Sequence[str]) -> bool:
        """Are these among them, or few of them new or with another name than before?"""
        if (ids, names) in self.asked:
            return True
        are_there = self.has_or_takes(ids, names)
        if are_there:
            self.asked = [*self.asked[1 - MOST_ASKED :], (ids, names)]
        return are_there

    def has_or_takes(self, ids: Sequence[str], names: Sequence[str]) -> bool:
        """The same of any; the few are taken."""
        before = [*map(self.names.get, ids)]
        if before == [*names]:
            return True
        new = {id: name for id, name, known in zip(ids, names, before) if known is not name and known != name}
        if len(new) > ADDED * len(ids):
            return False
        self.take(new)
        return True

    def take(self, new: Mapping[str, str]) -> None:
        """Takes animals that are new, or have these names now."""
        built, former = self.__dict__, {id: self.names[id] for id in new if id in self.names}
        self.names |= new
        self.asked = []
        for index, keys_of in KEYS_OF.items():
            if index in built:
                take_out(built[index], keys_of, former)
                add_to(built[index], keys_of, new)
        if "of_ids" in built:
            fresh = [id for id in new if id not in former]
            add_each(self.of_ids, folded_all(fresh), fresh)
        self.take_letters(folded_all([*new, *new.values()]))
        # names that nobody has any more stand for nobody
        self.take_names([*filter(None, new.values())])

    def take_names(self, names: Sequence[str]) -> None:
        """Takes names into what is kept of all of them, where anything is."""
        built = self.__dict__
        if "accented" in built:
            add_accented(self.accented, names)
        if "letters" in built:
            self.letters = letters_in([self.letters, *folded_all(names)])
        if "forms" in built:
            for kept, more in zip(self.forms, forms_of(names)):
                kept += more
                kept.sort()

    @functools.cached_property
    def named(self) -> Ids:
        """The ids by names in small letters."""
        return add_to(collections.defaultdict(list), casefolded_all, self.names)

    @functools.cached_property
    def accented(self) -> dict[str, list[str]]:
        """Names in small letters with accents, by those without."""
        return add_accented(collections.defaultdict(list), self.named)

    @functools.cached_property
    def of_names(self) -> Ids:
        """The ids by letters and digits of names."""
        return add_to(collections.defaultdict(list), folded_all, self.names)

    @functools.cached_property
    def of_ids(self) -> Ids:
        """The ids by their own letters and digits."""
        return add_each(collections.defaultdict(list), folded_all([*self.names]), self.names)

    @functools.cached_property
    def of_bare_names(self) -> Ids:
        """The ids by names without titles, letters and remarks."""
        return add_to(collections.defaultdict(list), bare_all, self.names)

    def of_letters(self, length: int) -> dict[str, list[str]]:
        """The letters and digits of names and ids of a length, by them in their order."""
        if length not in self.lengths:
            self.lengths[length] = with_letters(length, dict.fromkeys(itertools.chain(self.of_names, self.of_ids)))
        return self.lengths[length]

    def take_letters(self, keys: Iterable[str]) -> None:
        """Takes names and ids into what is kept of all of some lengths."""
        for key in keys:
            of_length = self.lengths.get(len(key))
            if of_length is not None and key not in (alike := of_length["".join(sorted(key))]):
                alike.append(key)

    @functools.cached_property
    def letters(self) -> str:
        """All that stand in names, but for digits."""
        return letters_in(self.of_names)

    @functools.cached_property
    def forms(self) -> tuple[Forms, Forms]:
        """The names of several words with the forms with which their parts begin and end alike, as `as_digits` has
        them, in the order of these; and the same in the order of the forms from behind."""
        return forms_of([*dict.fromkeys(self.names.values())])

    def with_form(self, form: str) -> list[str]:
        """The names of several words whose form begins or ends with one."""
        ahead, behind = self.forms
        return [*dict.fromkeys([*beginning_with(form, ahead), *beginning_with(form[::-1], behind)])]


def with_letters(length: int, keys: Iterable[str]) -> collections.defaultdict[str, list[str]]:
    """Those of a length by their letters and digits in their order."""
    found = collections.defaultdict[str, list[str]](list)
    for key in keys:
        if len(key) == length:
            found["".join(sorted(key))].append(key)
    return found


def beginning_with(form: str, names: Forms) -> list[str]:
    """Those of some names, in the order of their forms, whose form begins with one."""
    behind = range(bisect.bisect_left(names, (form,)), len(names))
    found = itertools.takewhile(lambda one: one[0].startswith(form), map(names.__getitem__, behind))
    return [name for _, name in found]


def with_letter_otherwise(text: str, letters: str) -> Iterator[str]:
    """What a text becomes where one letter of it is another one of these, is left out, or stands besides; its digits
    stay. It doesn't become itself."""
    for at in range(len(text) + 1):
        before, behind = text[:at], text[at:]
        yield from (before + letter + behind for letter in letters)
        if behind and not behind[0].isdigit():
            yield before + behind[1:]
            yield from (before + letter + behind[1:] for letter in letters if letter != behind[0])


def add_to(found: Ids, keys_of: KeysOf, names: Mapping[str, str]) -> Ids:
    """Adds animals by what is compared of their names."""
    named = {id: name for id, name in names.items() if name}
    return add_each(found, keys_of([*named.values()]), named)


def add_each(found: Ids, keys: Iterable[str], ids: Iterable[str]) -> Ids:
    for key, id in zip(keys, ids):
        found[key].append(id)
    return found


def take_out(found: Ids, keys_of: KeysOf, names: Mapping[str, str]) -> None:
    """Takes out animals that were added with these names."""
    named = {id: name for id, name in names.items() if name}
    for key, id in zip(keys_of([*named.values()]), named):
        found[key].remove(id)


def casefolded_all(names: Sequence[str]) -> list[str]:
    return [*map(str.casefold, names)]


# the indexes of `NamesEver` with what is compared in them
KEYS_OF: dict[str, KeysOf] = {"named": casefolded_all, "of_names": folded_all, "of_bare_names": bare_all}


def add_accented(found: dict[str, list[str]], names: Iterable[str]) -> dict[str, list[str]]:
    for name in dict.fromkeys(map(str.casefold, itertools.filterfalse(str.isascii, names))):
        if (key := without_accents(name)) != name and name not in found[key]:
            found[key].append(name)
    return found


def letters_in(names: Iterable[str]) -> str:
    return "".join(sorted({one for name in names for one in name if not one.isdigit()}))


def forms_of(names: Iterable[str]) -> tuple[Forms, Forms]:
    several = [name for name in names if " " in name]
    words = (name if name.count(" ") < MOST_WORDS else " ".join(name.split()[:MOST_WORDS]) for name in several)
    forms = [*map(as_digits, folded_all([*words]))]
    return sorted(zip(forms, several)), sorted((form[::-1], name) for form, name in zip(forms, several))


class IdsByName:
    """The animals that are there, each with its name, in their order."""

    def __init__(self, ids: Sequence[str], names: Sequence[str], ever: NamesEver | None = None) -> None:
        self.ids, self.names = ids, names
        self.ever = ever if ever and ever.has(ids, names) else NamesEver()
        if self.ever is not ever:
            self.ever.names = dict(zip(ids, names))

    @functools.cached_property
    def places(self) -> dict[str, int]:
        return dict(zip(self.ids, itertools.count()))

    def there(self, ids: Iterable[str]) -> list[str]:
        """Those of some ids that are there, in their order."""
        return sorted(filter(self.places.__contains__, ids), key=self.places.__getitem__)

    def same(self, name: str) -> list[str]:
        """The ids of a name, or else of those that are it but for accents, which capitals often lack."""
        key, named = name.casefold(), self.ever.named
        if found := self.there(named.get(key, ())):
            return found
        bare = without_accents(key)
        alike = [self.there(named.get(one, ())) for one in (bare, *self.ever.accented.get(bare, ()))]
        in_order = sorted([ids for ids in alike if ids], key=lambda ids: self.places[ids[0]])
        return [*itertools.chain.from_iterable(in_order)]

    # -- by letters and digits, whatever stands between them

    def of_key(self, key: str) -> str:
        """The id that has such letters, or of which the name has: of several the last; empty where there is none."""
        for by_key in self.ever.of_ids, self.ever.of_names:
            if found := self.there(by_key.get(key, ())):
                return found[-1]
        return ""

    def meant(self, text: str) -> str:
        """The id of the name that has the letters and digits of a text, but for signs and blanks in the same order,
        also with the letter O for 0, or I or l for 1; or, where it isn't short, with two of them swapped; empty where
        there is none. An id counts before a name."""
        key = folded(text)
        if not key or (found := self.of_key(key)):
            return found if key else ""
        if len(key) < SHORT:
            return ""
        names = self.ever.of_letters(len(key)).get("".join(sorted(key)), ())
        # two that are swapped leave all before or all behind them, and cost one place
        half = len(key) // 2
        likely = [name for name in names if name[:half] == key[:half] or name[half + 1 :] == key[half + 1 :]]
        near = closest(key, [*filter(self.of_key, likely)], 1, 1 - 1.5 / len(key))
        return self.of_key(near[0]) if near else ""

    def swapped(self, text: str) -> list[str]:
        """The ids of the names that a short text becomes where two that stand side by side are swapped."""
        key = folded(text)
        swapped = (key[:at] + key[at + 1] + key[at] + key[at + 2 :] for at in range(len(key) - 1))
        return [*filter(None, map(self.of_key, filter(key.__ne__, dict.fromkeys(swapped))))]

    # -- by parts of names

    def near(self, text: str, also_nearly: bool) -> set[str]:
        """The ids of those whose name is a part of a text, or the other way round, or else is nearly this text."""
        found = {id for part in parts_of(text) for id in self.there(self.ever.of_names.get(part, ()))}
        return found or self.with_part(text) or (self.nearly(text) if also_nearly else set())

    def with_part(self, text: str) -> set[str]:
        """The ids of those whose name begins or ends with the words of a text. Few names are looked at closer."""
        key = folded(text)
        likely = self.ever.with_form(as_digits(key)) if key else ()
        return {id for name in likely if key in parts_of(name) for id in self.there(self.ever.named[name.casefold()])}

    def bare(self, text: str) -> set[str]:
        """The ids of those whose name is this text but for titles, letters and remarks."""
        [key] = bare_all([text])
        is_name = sum(map(str.isalpha, key)) >= LEAST_LETTERS
        return {*self.there(self.ever.of_bare_names.get(key, ()))} if is_name else set()

    def nearly(self, text: str) -> set[str]:
        """Two with other digits are other animals."""
        key = folded(text)
        if sum(map(str.isalpha, key)) < LEAST_LETTERS:
            return set()
        near = closest(key, [*self.of_same_digits(key)], 1, ALIKE)
        return {*self.there(self.ever.of_names[near[0]])} if near else set()

    def with_one_letter(self, text: str) -> set[str]:
        """The ids of the names that a text becomes where one letter of it is another, is left out or stands besides;
        none of a short text, nor with another digit."""
        key = folded(text)
        if len(key) < SHORT:
            return set()
        digits = DIGITS.findall(key)
        near = filter(self.ever.of_names.__contains__, with_letter_otherwise(key, self.ever.letters))
        return {id for one in near if DIGITS.findall(one) == digits for id in self.there(self.ever.of_names[one])}

    def of_same_digits(self, key: str) -> Iterator[str]:
        digits = DIGITS.findall(key)
        for name, ids in self.ever.of_names.items():
            is_likely = abs(len(name) - len(key)) <= LONGER and name[:1] == key[:1]
            if is_likely and DIGITS.findall(name) == digits and any(map(self.places.__contains__, ids)):
                yield name
