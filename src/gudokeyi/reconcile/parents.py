"""Parents that have no row: found by their names, as in the last sheet, or added as founders; and those that animals
lost, each tried again."""
from __future__ import annotations

import collections
import functools
import itertools
from collections.abc import Collection, Container, Mapping, Sequence, Set

from gudokeyi.domain.findings import Finding, Report
from gudokeyi.domain.kinds import Field, Role, Standing
from gudokeyi.domain.pedigree_order import ancestors
from gudokeyi.domain.requests import MOST_IN_ID
from gudokeyi.ingest.animals import (
    CELLS_OF, DAM_OF, LINE_OF, NAME_OF, OWNER_OF, SIRE_OF, Link, SheetAnimal, links_outside,
)  # fmt: skip
from gudokeyi.ingest.days_for_ids import DaysForIds, is_day
from gudokeyi.ingest.findings.cells import TextTooLong
from gudokeyi.ingest.texts import nearly, plain, without_accents
from gudokeyi.ingest.titles import NAMING_PARENTS
from gudokeyi.ingest.words import KNOWN_NO_PARENTS, has_word
from gudokeyi.reconcile.findings.parents import (
    AddedAsParent, FoundByDigits, FoundByName, FoundByNearId, FoundInBook, FoundWithin,
)  # fmt: skip
from gudokeyi.reconcile.findings.unknown_parents import (
    LikeNoId, MayBeUnknown, MoreMayBeUnknown, NameOfAnimals, TitleAsParent,
)  # fmt: skip
from gudokeyi.reconcile.ids_by_name import IdsByName
from gudokeyi.reconcile.last_found import Kept, LastFound
from gudokeyi.reconcile.near_names import DAY, DIGITS, have_digits, is_animal_of, is_like_word, words_of
from gudokeyi.reconcile.near_tags import NearTags, ids_by_digits
from gudokeyi.reconcile.next_book import NextBook
from gudokeyi.store.book import Book

# Parents that have no row: found by their names, or added as founders; and which animal a text may mean.

# of so many links a parent without a row that is a sire and a dam is told
MANY = 3
# in a sheet a text without a digit is told where so many animals have it as a parent, and so many texts are
SEVERAL, MOST_WORDS = 2, 20
# so few parents without a row may be short ids in which two letters are swapped
FEW = 5
# and so few may be names with more or less than these
FEW_NAMED = 50
# one in so many offspring of a name may be one that its animal can't have
FEW_OF_NAME = 2
FIELDS = {Role.SIRE: Field.SIRE, Role.DAM: Field.DAM}
PARENT_OF = {Field.SIRE: SIRE_OF, Field.DAM: DAM_OF}


class Names:
    """Finds parents by their names, and tells which animals may be meant by a text that is no id."""

    def __init__(
        self, animals: dict[str, SheetAnimal], report: Report, last: LastFound, with_id: Set[str],
        before: Names | None = None,
    ) -> None:  # fmt: skip
        """`with_id` are the ids that were given, and `before` those of whom `animals` are the ones that stay."""
        self.animals, self.report, self.last, self.with_id, self.before = animals, report, last, with_id, before
        # those who have a text in another column
        self.elsewhere: Mapping[str, Collection[str]] = {}

    @functools.cached_property
    def by_name(self) -> IdsByName:
        return self.last.by_name([*self.animals], [*map(NAME_OF, self.animals.values())])

    @functools.cached_property
    def given_ids(self) -> list[str]:
        return [*filter(self.with_id.__contains__, self.animals)]

    @functools.cached_property
    def of_given(self) -> IdsByName:
        """The same of the animals whose ids were given."""
        ids, by_name = self.given_ids, self.by_name
        if ids == by_name.ids:
            return by_name
        by = ids, by_name.names, by_name.ever
        return self.last.of(Kept.GIVEN_NAMES, by, lambda: IdsByName(ids, self.names_of(ids), by_name.ever))

    def names_of(self, ids: Sequence[str]) -> list[str]:
        return [self.animals[id].name for id in ids]

    @functools.cached_property
    def tags(self) -> NearTags:
        ids = self.given_ids

        def again(_: object, found: NearTags) -> NearTags | None:
            return found.of_others(ids)

        return self.last.of(Kept.NEAR_TAGS, (ids,), lambda: NearTags(ids), again)

    @functools.cached_property
    def days(self) -> DaysForIds:
        return self.last.of(Kept.DAYS_FOR_IDS, (self.given_ids,), lambda: DaysForIds(self.given_ids))

    def same(self, name: str) -> list[str]:
        """The ids of the animals of a name; of those that stay too these are sought among all."""
        return (self.before or self).by_name.same(name)

    def with_name(self, name: str) -> list[str]:
        """The ids of the animals of a name with the same accents."""
        return self.by_name.there(self.by_name.ever.named.get(name.casefold(), ()))

    def find_parents(self, lacking: dict[str, SheetAnimal], next_book: NextBook, with_id: Collection[str]) -> None:
        """A parent that is none of the ids that were given, but the name of one animal alone, or of one of its sex, is
        taken for that one where it can be it. What is the parent in the book stays it, whatever other animals have its
        name. `lacking` are the rows that name a parent without one."""
        book, ids = next_book.book, next_book.in_book.ids
        links = links_outside(lacking.values(), with_id)
        links = [(offspring, role, text) for offspring, role, text in links if self.same(text)]
        others = self.of_others(links, next_book.animals)
        for offspring, role, text in links:
            in_book = book.society_records.get(offspring.id)
            former = ids.get(book.records[in_book.registration_number].parent(role)) if in_book else None
            meant = [one for one in self.possible(offspring, role, text) if one.id == former]
            those = [] if meant or (role, text.casefold()) in others else self.others(offspring, role, text)
            if len(those) == 1:
                # where it can't be the parent the program refuses it, and that is told
                meant = those
            if meant:
                offspring.set_parent(role, meant[0].id)
                self.report.add(offspring.line, offspring.id, FoundByName(role, text, meant[0].id))

    def of_others(self, links: Sequence[Link], rows: Mapping[str, SheetAnimal]) -> set[tuple[Role, str]]:
        """The names that may be those of other animals, each with its role: where one can't be the parent of some
        offspring there may be another animal of its name, which may be that of all; but of few beside many others the
        cell is what may be wrong."""
        can, cannot = collections.Counter[tuple[Role, str]](), collections.Counter[tuple[Role, str]]()
        own = set[tuple[Role, str]]()
        for offspring, role, text in links:
            if not self.others(offspring, role, text):
                own.add((role, text.casefold()))
            (can if self.possible(offspring, role, text) else cannot)[role, text.casefold()] += 1
        # those whose parent is known from the book
        for role in {role for role, _ in cannot}:
            names = {text: {*self.same(text)} for of, text in cannot if of is role}
            for row in rows.values():
                text = row.cells.get(FIELDS[role], "").casefold()
                can[role, text] += text in names and row.parent(role) in names[text]
        return own | {name for name, count in cannot.items() if FEW_OF_NAME * count > can[name]}

    def possible(self, offspring: SheetAnimal, role: Role, name: str) -> list[SheetAnimal]:
        return [one for one in self.others(offspring, role, name) if can_be(one, role, offspring)]

    def others(self, offspring: SheetAnimal, role: Role, name: str) -> list[SheetAnimal]:
        """The animals of a name that such a parent may be, but for the offspring itself."""
        named = map(self.animals.get, self.same(name))
        return of_sex([one for one in named if one is not None and one is not offspring], role)

    def add_parents(self) -> None:
        """A founder for each parent without a row."""
        links = self.without_row
        progeny = collections.Counter(parent for _, _, parent in links)
        for animal, role, parent in links:
            if parent not in self.animals and len(parent) > MOST_IN_ID:
                # a name that no animal has is no id
                animal.set_parent(role, "")
                self.report.add(animal.line, animal.id, TextTooLong(FIELDS[role], len(parent), MOST_IN_ID))
                continue
            if parent not in self.animals:
                found = AddedAsParent(role, animal.id, progeny[parent] - 1, *self.meant(animal, role, parent))
                self.report.add(animal.line, parent, found)
                self.animals[parent] = SheetAnimal(parent)
            one = self.animals[parent]
            one.named_in = one.named_in or animal.line

    @functools.cached_property
    def without_row(self) -> list[Link]:
        """The parents without a row, each with its offspring."""
        animals, with_row = self.animals.values(), self.ids_of_rows
        sires, dams = [*map(SIRE_OF, animals)], [*map(DAM_OF, animals)]
        return self.last.parents_outside(Kept.PARENTS_WITHOUT_ROW, sires, dams, with_row).links(animals)

    @functools.cached_property
    def ids_of_rows(self) -> list[str]:
        return [*itertools.compress(self.animals, map(LINE_OF, self.animals.values()))]

    @functools.cached_property
    def lacking(self) -> set[str]:
        return {*itertools.filterfalse(self.animals.__contains__, (parent for _, _, parent in self.without_row))}

    def advise_unknown(self, is_pedigree: bool, unknown: Container[str] = ()) -> None:
        """A parent without a row that several animals have may be a word for an unknown one: one that is both a sire
        and a dam, or, in a sheet, a text without a digit; and so may be one that is written like no id there, or a
        title. What is `unknown` was said to be one already."""
        titles = set[str]() if is_pedigree else self.titles(unknown)
        progeny = collections.defaultdict[str, dict[Role, int]](lambda: {Role.SIRE: 0, Role.DAM: 0})
        children = collections.defaultdict[str, set[str]](set)
        for offspring, role, parent in self.without_row:
            progeny[parent][role] += 1
            children[parent].add(offspring.id)
        told = []
        for parent, counts in progeny.items():
            is_both = counts[Role.SIRE] and counts[Role.DAM]
            if is_pedigree:
                may_be = is_both and sum(counts.values()) >= MANY
            else:
                may_be = len(children[parent]) >= SEVERAL and (is_both or not any(map(str.isdigit, parent)))
            kind = TitleAsParent if parent in titles else MayBeUnknown if may_be else LikeNoId
            is_odd = not is_pedigree and (parent in titles or not may_be and self.is_like_no_id(parent))
            if (may_be or is_odd) and "," not in parent:
                told.append((parent not in titles, -sum(counts.values()), parent, counts, kind))
        for _, _, parent, counts, kind in sorted(told, key=lambda one: one[:3])[:MOST_WORDS]:
            roles = [role for role in Role if counts[role]]
            named = [] if is_pedigree else self.named(parent, roles) or self.likely(parent)
            values = parent, counts[Role.SIRE], counts[Role.DAM]
            self.report.add(0, "", NameOfAnimals(*values, tuple(named)) if named else kind(*values))
        if len(told) > MOST_WORDS:
            self.report.add(0, "", MoreMayBeUnknown(len(told) - MOST_WORDS))

    def titles(self, unknown: Container[str]) -> set[str]:
        """The parents without a row that are called as columns of parents are, and whose ids nobody gave."""
        texts = {parent for _, _, parent in self.without_row} - self.with_id
        return {one for one in texts if not DIGITS.search(one) and plain(one) in NAMING_PARENTS and one not in unknown}

    def is_like_no_id(self, parent: str) -> bool:
        """Where ids have digits: is it in doubt, as `Max ?`, or a short word, or one behind an abbreviation, a day, an
        animal of an owner, or a text without a digit where parents have some, and means no animal by its name?"""
        if parent not in self.lacking or not self.have_digits:
            return False
        if parent.endswith("?"):
            return True
        is_odd = is_like_word(parent) or is_animal_of(parent, self.owners) or ((DAY.fullmatch(parent) or is_day(parent)) and not self.have_days)
        is_odd = is_odd or not any(map(str.isdigit, parent)) and self.parents_have_digits
        if not is_odd:
            return False
        return not any(next(self.meant(one, role, parent) for one, role, text in self.without_row if text == parent))

    def named(self, parent: str, roles: Sequence[Role]) -> list[str]:
        """The animals that have the text of a parent without a row as their name, and may be one of these roles."""
        those = [self.animals[id] for id in self.same(parent) if id in self.animals and id != parent]
        likely = {one.id for role in roles for one in of_sex(those, role)}
        return [one.id for one in those if one.id in likely]

    def likely(self, parent: str) -> list[str]:
        """The only animal that the text of a parent without a row may mean, unless words say that it means none."""
        if has_word(parent, KNOWN_NO_PARENTS):
            return []
        found = {self.meant(one, role, text)[0] for one, role, text in self.without_row if text == parent}
        return [*found] if len(found) == 1 and "" not in found else []

    @functools.cached_property
    def have_digits(self) -> bool:
        return self.last.of(Kept.HAVE_DIGITS, (self.ids_of_rows,), lambda: have_digits(self.ids_of_rows))

    @functools.cached_property
    def owners(self) -> Collection[frozenset[str]]:
        """The words of their names."""
        return {*map(words_of, {*map(OWNER_OF, self.animals.values())} - {""})}

    @functools.cached_property
    def have_days(self) -> bool:
        """Is any id written as a day is?"""
        return any(map(DAY.fullmatch, self.ids_of_rows)) or any(map(is_day, self.ids_of_rows))

    @functools.cached_property
    def parents_have_digits(self) -> bool:
        """Have nearly all parents one as the rows name them?"""
        rows = [animal for animal in self.animals.values() if animal.line]
        named = ((field, [*map(CELLS_OF, itertools.compress(rows, map(of, rows)))]) for field, of in PARENT_OF.items())
        return have_digits([cells.get(field, "") for field, all_cells in named for cells in all_cells])

    def meant(self, offspring: SheetAnimal, role: Role, text: str) -> tuple[str, tuple[str, ...]]:
        """Which id may be meant by a text that is none, or several that have it as their name. Where few parents lack a
        row, a short text may also be one that can be the parent, two of whose letters are swapped, or the only one
        whose name is near it."""
        ids = [one.id for one in self.others(offspring, role, text)]
        if len(ids) > 1:
            return "", tuple(ids)
        by_name = self.of_given
        alike = ids[0] if ids else by_name.meant(text.removesuffix(".0")) or by_name.meant(text)
        for likely in (self.elsewhere_of, self.tags.near, by_name.bare) if not alike else ():
            alike = alike or self.only_possible(likely(text), role, offspring)
        for days in self.days.near(text) if not alike else ():
            alike = alike or self.only_possible(days, role, offspring)
        if not alike and len(self.lacking) <= FEW:
            swapped = by_name.swapped(text)
            alike = next((id for id in swapped if can_be(self.animals[id], role, offspring)), "")
        if not alike and len(self.lacking) <= FEW_NAMED:
            near = by_name.near(text, len(self.lacking) <= FEW) or by_name.with_one_letter(text)
            alike = self.only_possible(near, role, offspring)
        return (alike if alike != offspring.id else ""), ()

    def elsewhere_of(self, text: str) -> Collection[str]:
        return self.elsewhere.get(text, ())

    def only_possible(self, ids: Collection[str], role: Role, offspring: SheetAnimal) -> str:
        """The only one of some animals that can be the parent; empty for none."""
        possible = [id for id in ids if id != offspring.id and can_be(self.animals[id], role, offspring)]
        return possible[0] if len(possible) == 1 else ""


def join_spellings(lacking: Mapping[str, SheetAnimal], next_book: NextBook, with_id: Set[str]) -> None:
    """Texts of parents without a row that differ in capitals alone mean one animal, as the first is written, or one
    that the book has. `lacking` are the rows that name a parent without one, and `with_id` the ids that were given."""
    animals, first = next_book.animals, dict[tuple[Role, str], str]()
    added = {id.casefold(): id for id in itertools.filterfalse(with_id.__contains__, animals)}
    for offspring, role, text in links_outside(lacking.values(), with_id):
        of_book = added.get(text.casefold(), "")
        if of_book and (text in animals or not can_be(animals[of_book], role, offspring)):
            continue
        one = first.setdefault((role, text.casefold()), of_book or text)
        if one != text:
            offspring.set_parent(role, one)
            next_book.report.add(offspring.line, offspring.id, FoundByNearId(role, text, one))


def may_be_unknown(report: Report) -> list[Finding]:
    """What was told of words that may mean an unknown parent: these may be why a file can't be taken."""
    findings = [entry.finding for entry in report.entries]
    return [one for one in findings if isinstance(one, (MayBeUnknown, MoreMayBeUnknown))]


def of_sex(animals: list[SheetAnimal], role: Role) -> list[SheetAnimal]:
    """Of several animals of a name those of the sex of a parent, where all their sexes are known; all where none has
    it."""
    if len(animals) < 2 or not all(one.sex for one in animals):
        return animals
    return [one for one in animals if one.sex == role.sex] or animals


def can_be(parent: SheetAnimal, role: Role, offspring: SheetAnimal) -> bool:
    """Do its sex and its birth leave open that it is an offspring's parent?"""
    return parent.sex in ("", role.sex) and parent.birth.first < offspring.birth.last


# Parents whose cells are as in the last sheet: who was meant by a name then is meant by it now.


def keep_parents_named(
    next_book: NextBook, lacking: dict[str, SheetAnimal], animals: dict[str, SheetAnimal]
) -> None:
    """A text that is no animal's id, and by which the book has a parent, means this one where it can be it, whatever
    it is called now. `lacking` are the rows that name a parent without one; `animals` are those of the sheet and of the
    book."""
    book = next_book.book
    for offspring, role, text in links_outside(lacking.values(), next_book.animals) if book.society_records else ():
        in_book = book.society_records.get(offspring.id)
        if in_book is None or in_book.written(role) != text or is_id(book, text):
            continue
        parent = animals.get(next_book.id_of(book.records[in_book.registration_number].parent(role)))
        if parent and can_be(parent, role, offspring):
            offspring.set_parent(role, parent.id)
            next_book.report.add(offspring.line, offspring.id, found(parent, role, text))


def is_id(book: Book, text: str) -> bool:
    """Is it the id of an animal of the book, which somebody gave to it?"""
    return text in book.society_records and book.society_records[text].standing is not Standing.PARENT


def found(parent: SheetAnimal, role: Role, text: str) -> Finding:
    """By what a text means the parent."""
    if nearly(parent.id) == nearly(text):
        return FoundByNearId(role, text, parent.id)
    if ids_by_digits([text], [parent.id]):
        return FoundByDigits(role, text, parent.id)
    if nearly(parent.id) in nearly(text):
        return FoundWithin(role, text, parent.id)
    is_name = without_accents(parent.name.casefold()) == without_accents(text.casefold())
    return FoundByName(role, text, parent.id) if is_name else FoundInBook(role, text, parent.id)


# Parents that animals without a row lost, since a sheet made them impossible: each is tried again, and comes back once
# that is mended. Nothing is told where it can't be yet, as no row says it.

OTHER = {Role.SIRE: Role.DAM, Role.DAM: Role.SIRE}


def try_parents_again(
    next_book: NextBook, without_row: Mapping[str, SheetAnimal], animals: Mapping[str, SheetAnimal]
) -> None:
    """Gives each animal without a row the parents that were left out and that it can have now. `animals` are those of
    the sheet and of the book."""
    tried = Tried(next_book, animals)
    for id, offspring in without_row.items():
        in_book = next_book.book.society_records[id]
        left_out = [role for role in Role if in_book.written(role) and not offspring.parent(role)]
        for role in left_out:
            parent = animals.get(next_book.meanings.parent(id, in_book.written(role), role))
            if parent and tried.is_possible(parent, role, offspring):
                offspring.set_parent(role, parent.id)
                next_book.tried.add((id, role))


class Tried:
    """Which parents animals can have, so that no other link is left out for one that is tried."""

    def __init__(self, next_book: NextBook, animals: Mapping[str, SheetAnimal]) -> None:
        self.is_pedigree, self.animals = next_book.is_pedigree, animals

    @functools.cached_property
    def parents(self) -> dict[Role, set[str]]:
        return {role: {animal.parent(role) for animal in self.animals.values()} for role in Role}

    def is_possible(self, parent: SheetAnimal, role: Role, offspring: SheetAnimal) -> bool:
        if not can_be(parent, role, offspring) or has_left(parent, role, offspring):
            return False
        if not parent.sex and parent.id in self.parents[OTHER[role]]:
            return False
        if self.is_pedigree and not self.have_sexes(parent, role, offspring):
            return False
        return parent is not offspring and offspring.id not in ancestors([parent.id], self.parents_of)

    def have_sexes(self, parent: SheetAnimal, role: Role, offspring: SheetAnimal) -> bool:
        """Are no sexes invented for it, which others may not fit?"""
        mate = self.animals.get(offspring.parent(OTHER[role]))
        return bool(parent.sex and (mate is None or mate.sex))

    def parents_of(self, id: str) -> list[str]:
        return self.animals[id].parent_ids() if id in self.animals else []


def has_left(parent: SheetAnimal, role: Role, offspring: SheetAnimal) -> bool:
    """Is it a dam that left before the birth?"""
    return role is Role.DAM and not offspring.embryo and parent.left is not None and parent.left < offspring.birth.first


def take_back(next_book: NextBook) -> bool:
    """Takes back all parents that are tried again; answers whether there were any."""
    links, next_book.tried = next_book.tried, set()
    those = [(animal, role) for id, role in links if (animal := next_book.animals.get(id))]
    for animal, role in those:
        animal.set_parent(role, "")
    return bool(those)
