"""An animal's certificate as a page for the printer, with the pedigree drawn."""
from __future__ import annotations

import base64
import datetime
import functools
import itertools
from collections.abc import Callable, Iterator, Mapping, Sequence
from types import MappingProxyType
from typing import NamedTuple

from gudokeyi.domain.animals import SocietyRecord
from gudokeyi.domain.kinds import Role
from gudokeyi.domain.settings import Picture, Setting
from gudokeyi.reconcile.owner_day_known import owner_day_known
from gudokeyi.render.drawing import DAM, FONT, GREY, INBRED, INBRED_INK, INK, LINE, PAPER, SIRE, rendered
from gudokeyi.render.languages import MARKS, Language, Mark, mark_of
from gudokeyi.render.own_values import own_said
from gudokeyi.render.pedigree_boxes import COMMON_NOTE, common_ancestors, letters_named
from gudokeyi.render.seals import seal_view
from gudokeyi.services.animals import breeders_of, column_of_breeders
from gudokeyi.services.certificates import GENERATIONS, MOST_GENERATIONS, Certified, coefficient_in
from gudokeyi.services.own_columns import certified_values
from gudokeyi.services.seals import LastSealed
from gudokeyi.services.settings import letters_said, settings_of
from gudokeyi.store.book import Book

# those that have a word of their own
RELATIONS = {
    "S": "Sire", "D": "Dam", "SS": "Sire's sire", "SD": "Sire's dam", "DS": "Dam's sire", "DD": "Dam's dam",
}  # fmt: skip
# what stands at the end of a page
NOTE = "An unknown parent counts as unrelated to all animals. Coefficients are Wright's, computed exactly."
OF_PROGRAM = (
    "Numbers, sexes, days, parents and coefficients are lines of the proved program herdbook; all else is what the "
    "society wrote."
)
SEALED = (
    "Whoever has this certificate's file checks it under the seal, as the society published it: the code has all 64 "
    "digits."
)
BREEDER = "The breeder is who owned the dam at the birth, by the society's book."
MARK_NOTES = {
    Mark.INFERRED: (
        "(inferred): not known for certain; inferred from the year, the parents, the offspring or a name when the "
        "sheet was taken."
    ),
    Mark.IN_SHEET: "(in the sheet: ..): this animal can't be the parent, and was left out.",
    Mark.INVENTED: "(invented): the pedigree has neither birth days nor sexes; these were invented.",
}
# what each generation is called in the style
CALLED = ("one", "two", "three", "four", "five")
# the colours and letters of all pages and pictures, as the style names them
STYLE_VALUES = {
    "font": FONT, "ink": INK, "grey": GREY, "line": LINE, "paper": PAPER, "sire": SIRE, "dam": DAM, "inbred": INBRED,
    "inbred-ink": INBRED_INK,
}  # fmt: skip


class DrawnAnimal(NamedTuple):
    """An ancestor as its cell shows it. What an animal hasn't is empty."""

    id: str
    name: str
    born: str
    percent: str
    is_inbred: bool
    # of one that is an ancestor on both sides
    letter: str


class Cell(NamedTuple):
    """A cell of the drawn pedigree: an animal, or else what is told of an unknown one."""

    generation: str
    rows: int
    role: Role
    relation: str
    animal: DrawnAnimal | None
    unknown: str


class CertificateView(NamedTuple):
    """What stands on the page of an animal."""

    id: str
    name: str
    percent: str
    fraction: str
    decimal: str
    facts: list[tuple[str, str]]
    lines: list[list[Cell]]
    notes: list[str]
    # was it in the book whose seal is shown?
    is_sealed: bool
    # the address of its file, empty where the page has none
    file: str


class PrintedPicture(NamedTuple):
    """The society's picture: its address, or all of it as one, and its width and height in points."""

    address: str
    width: int
    height: int

    @classmethod
    def within(cls, picture: Picture | None) -> PrintedPicture | None:
        """One that the page has itself, so that its file is enough."""
        if picture is None:
            return None
        file = base64.b64encode(picture.file).decode()
        return cls(f"data:{picture.media_type};base64,{file}", picture.width, picture.height)


class Society(NamedTuple):
    """What a society says of itself: the breed is that of the numbers that begin with these letters."""

    name: str
    address: str
    breed: str
    letters: str
    picture: PrintedPicture | None

    @classmethod
    def of(cls, book: Book, picture: PrintedPicture | None) -> Society:
        said = settings_of(book)
        name, address, breed = (said[one] for one in (Setting.NAME, Setting.ADDRESS, Setting.BREED_NAME))
        return cls(name, address, breed, letters_said(book)[0], picture)

    def breed_of(self, number: str) -> str:
        """What the breed of an animal is called, or else its letters."""
        letters = number[: len(self.letters)]
        return self.breed if self.breed and letters == self.letters else letters


class Issue(NamedTuple):
    """What is the same on all certificates that are issued at once: the society, the day, the seal that was published
    last, if one was, and how many generations are drawn. An empty title is the usual one. `address_of` answers the
    address of the file of an animal by its number, where the page is shown in a browser."""

    title: str
    society: Society
    day: datetime.date
    sealed: LastSealed | None = None
    address_of: Callable[[str], str] | None = None
    generations: int = GENERATIONS
    # the addresses of the same with as many generations, likewise
    others: Mapping[int, str] = MappingProxyType({})


class Certificate:
    """What a certificate is made of: the program's lines of an animal and its ancestors, and beside these what the
    society calls them, and who bred the animal."""

    def __init__(
        self, book: Book, animal: SocietyRecord, breeder: str, certified: Certified, language: Language, issue: Issue
    ) -> None:
        self.book, self.animal, self.breeder, self.certified = book, animal, breeder, certified
        self.language, self.issue = language, issue
        self.names = book.by_number()
        self.told = certified.facts(animal.registration_number)
        # by the letters of each that is known
        self.ancestors = certified.ancestors(animal.registration_number, issue.generations)
        self.lines = lines_of(issue.generations)
        self.letters = [letters for line in self.lines for letters in line]
        drawn = [self.ancestors[letters] for letters in self.letters if letters in self.ancestors]
        self.common = common_ancestors(book, animal.registration_number, drawn)

    def shown(self) -> CertificateView:
        own, issue, number = coefficient_in(self.told), self.issue, self.animal.registration_number
        return CertificateView(
            self.animal.id,
            self.animal.name,
            self.language.percent(own.percent),
            own.fraction,
            self.language.decimal(own.decimal()),
            self.facts(),
            [[self.cell(letters) for letters in line] for line in self.lines],
            self.notes(),
            self.is_sealed,
            issue.address_of(number) if issue.address_of else "",
        )

    @property
    def is_sealed(self) -> bool:
        sealed = self.issue.sealed
        return sealed is not None and self.animal.registration_number in sealed.numbers

    def facts(self) -> list[tuple[str, str]]:
        """The animal's record. The owner has no name where the sheet gave none."""
        told, gettext = self.told, self.language.gettext
        if told["left"] != "-":
            left = self.day(told["left"], mark_of(self.animal.exit))
        else:
            left = gettext("has left, day unknown") if self.animal.exit.day_is_unknown else gettext("has not left")
        since = self.day(told["since"], mark_of(self.animal.owner_day)) if self.knows_owner_day else ""
        sex = gettext("male") if told["sex"] == "male" else gettext("female")
        return [
            (gettext("Number"), told["animal"]),
            (gettext("Sex"), self.language.marked(sex, mark_of(self.animal.sex))),
            (gettext("Born"), self.day(told["born"], mark_of(self.animal.birth))),
            (gettext("Left"), left),
            *self.bred(),
            (gettext("Owner"), self.book.owner_of(int(told["herd"])) or gettext("not known")),
            (gettext("Owner since"), since or gettext("not known")),
            *self.own_facts,
        ]

    def bred(self) -> list[tuple[str, str]]:
        """The breed and who bred the animal, unless the society has a column of its own for it."""
        gettext = self.language.gettext
        breed = gettext("Breed"), self.issue.society.breed_of(self.told["animal"])
        return [breed, *[(gettext("Breeder"), self.breeder or gettext("not known"))] * self.finds_breeder]

    @functools.cached_property
    def finds_breeder(self) -> bool:
        return all(title.casefold() != self.language.gettext("Breeder").casefold() for title, _ in self.own_facts)

    @functools.cached_property
    def own_facts(self) -> list[tuple[str, str]]:
        """The values of the society's own columns that stand on certificates."""
        values = certified_values(self.book, self.animal)
        return [(one.column.title, own_said(one.column.kind, one.value, self.language)) for one in values]

    @functools.cached_property
    def knows_owner_day(self) -> bool:
        from_owner = self.book.records[self.animal.registration_number].from_owner
        return owner_day_known(self.book, self.animal, from_owner, self.told["since"])

    def day(self, day: object, mark: Mark | None = None) -> str:
        return self.language.marked(self.language.day(day), mark)

    def cell(self, letters: str) -> Cell:
        number, role, written = self.ancestors.get(letters), role_of(letters), self.written(letters)
        relation = self.language.gettext(RELATIONS[letters]) if letters in RELATIONS else ""
        generation, rows = CALLED[len(letters) - 1], 1 << (self.issue.generations - len(letters))
        if number:
            return Cell(generation, rows, role, relation, self.drawn(number, bool(written), len(letters)), "")
        in_sheet = f" ({self.language.gettext(MARKS[Mark.IN_SHEET], written)})" if written else ""
        unknown = self.language.pgettext(f"unknown {role}", "unknown")
        return Cell(generation, rows, role, relation, None, unknown + in_sheet)

    def drawn(self, number: str, is_written_otherwise: bool, generation: int) -> DrawnAnimal:
        animal, told = self.names[number], self.certified.facts(number)
        coefficient = coefficient_in(told)
        id = self.language.marked(animal.id, Mark.INFERRED if is_written_otherwise else None)
        born = self.born(told["born"], mark_of(animal.birth), generation)
        percent, letter = self.language.coefficient(coefficient), self.common.get(number, "")
        return DrawnAnimal(id, animal.name, born, percent, coefficient.is_inbred, letter)

    def born(self, day: str, mark: Mark | None, generation: int) -> str:
        """The birth day of an ancestor. Where there is less room a marked one has its year alone, and the furthest of
        five generations have the year, where it has no mark."""
        is_most = self.issue.generations == MOST_GENERATIONS
        if is_most and generation > GENERATIONS:
            return day[:4] * (mark is None)
        has_room = generation < GENERATIONS + (not is_most)
        return self.day(day, mark) if mark is None or has_room else self.language.marked(day[:4], mark)

    def written(self, letters: str) -> str:
        """What the sheet writes for an ancestor, where that isn't its id or it is left out."""
        # the animal of which it is a parent
        offspring = self.ancestors.get(letters[:-1], "") if letters[:-1] else self.told["animal"]
        return self.names[offspring].written(role_of(letters)) if offspring else ""

    def notes(self) -> list[str]:
        """What stands at the end: each mark that the page has is explained."""
        ancestors = [self.names[number] for number in self.ancestors.values()]
        marks = {mark_of(one.birth) for one in (self.animal, *ancestors)}
        marks |= {mark_of(self.animal.exit), mark_of(self.animal.sex)}
        marks |= {mark_of(self.animal.owner_day)} if self.knows_owner_day else set()
        written = [letters for letters in self.letters if self.written(letters)]
        marks |= {Mark.INFERRED if letters in self.ancestors else Mark.IN_SHEET for letters in written}
        gettext = self.language.gettext
        common = [gettext(COMMON_NOTE, letters_named(self.common))] * bool(self.common)
        told = (gettext(MARK_NOTES[mark]) for mark in Mark if mark in marks)
        bred = [gettext(BREEDER)] * (self.finds_breeder and bool(self.breeder) and column_of_breeders(self.book) is None)
        sealed = [gettext(SEALED)] * self.is_sealed
        return [gettext(NOTE), gettext(OF_PROGRAM), *sealed, *bred, *common, *told]


def certificates_page(
    book: Book, animals: Sequence[SocietyRecord], certified: Certified, language: Language, issue: Issue
) -> str:
    """A page for each of the animals, in a file."""
    gettext = language.gettext
    title = issue.title or gettext("Certificate of pedigree")
    one = animals[0].id if len(animals) == 1 else gettext("{} certificates", len(animals))
    return rendered(
        "certificate.html",
        language=language.name, look=STYLE_VALUES, _=gettext, title=title, heading=f"{title}: {one}",
        society=issue.society, issued=gettext("Issued on {}", language.day(issue.day)),
        seal=seal_view(issue.sealed.published, language) if issue.sealed else None,
        generations=issue.generations, others=issue.others,
        pages=views(book, animals, certified, language, issue),
    )  # fmt: skip


def views(
    book: Book, animals: Sequence[SocietyRecord], certified: Certified, language: Language, issue: Issue
) -> Iterator[CertificateView]:
    """What stands on each page, made as the page is: those of many animals aren't there all at once."""
    breeders = breeders_of(book, [animal.registration_number for animal in animals])
    return (
        Certificate(book, animal, breeders[animal.registration_number], certified, language, issue).shown()
        for animal in animals
    )


def lines_of(generations: int) -> list[list[str]]:
    """The letters of the ancestors, line by line of the drawn pedigree: each stands in the line where it begins."""
    last = ["".join(letters) for letters in itertools.product("SD", repeat=generations)]
    counts = range(1, generations + 1)
    return [[letters[:count] for count in counts if set(letters[count:]) <= {"S"}] for letters in last]


def role_of(letters: str) -> Role:
    return Role.SIRE if letters[-1] == "S" else Role.DAM
