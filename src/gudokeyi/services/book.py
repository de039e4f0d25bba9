"""A book as a program has it: every question and every command by a method, with values for answers."""
from __future__ import annotations

import contextlib
import datetime
import os
import pathlib
from collections.abc import Collection, Iterator, Sequence
from dataclasses import replace
from typing import TYPE_CHECKING

from gudokeyi.domain.animals import SocietyRecord
from gudokeyi.domain.changes import Change
from gudokeyi.domain.kinds import Role
from gudokeyi.domain.messages import Mistake
from gudokeyi.domain.seals import PublishedSeal, Seal
from gudokeyi.domain.settings import Setting
from gudokeyi.services.library_values import (
    Animal, BreedState, Certificate, Filed, Imported, Kinship, Mating, MatingAdvice, MatingPlan, PlannedMating,
    Restored,
)  # fmt: skip
from gudokeyi.services.book_program import BookProgram
from gudokeyi.services.library_answers import animals_of, breed_state, imported_value, ways_of
from gudokeyi.services.library_commands import Command, filed_command
from gudokeyi.services.opening import export, take_over, there_to_change
from gudokeyi.services.search import find
from gudokeyi.services.selection import Choice, chosen
from gudokeyi.services.tables import Table
from gudokeyi.store.book import Book as StoredBook
from gudokeyi.store.coefficients import Coefficient
from gudokeyi.store.conditions import among
from gudokeyi.store.history import all_changes
from gudokeyi.store.settings import change_settings, settings_of
from gudokeyi.store.transactions import no_book, reading, up_to_date

if TYPE_CHECKING:
    from gudokeyi.services.matings import Advice
    from gudokeyi.reconcile.import_options import ImportOptions
    from gudokeyi.services.plans import PlanRules
    from gudokeyi.services.seals import SealedCertificate


class Book:
    """The herd book of a folder.

    A book is opened by `Book.open(folder)`, and stays open for one command after the other: it holds no lock and no
    file. Each question is answered of the book as it is at that moment, whoever changes it meanwhile, and each command
    waits until nobody else changes it.
    Where there is no book in the folder it is an empty one: it has no animals and no changes, and an import begins it.

    An animal is named by its id, its registration number or its name; `AnimalNotFound` says what may be meant. What
    can't be done is a `Mistake`, or one of its kinds, with sentences that say what to do. Nothing is changed then. """

    def __init__(self, folder: pathlib.Path, program: BookProgram) -> None:
        self.folder, self.program = folder, program

    @classmethod
    def open(cls, folder: str | os.PathLike[str], program: BookProgram | None = None) -> Book:
        """The book of a folder, which needn't be there yet.

        The program `herdbook` is that of the environment's variable HERDBOOK, else that of the installation. It is
        looked for once something is asked of it; `ProgramFailed` says then that there is none. Raises `BookUnusable`
        where the file in the folder is no book that can be read. """
        book = cls(pathlib.Path(folder), program or BookProgram())
        with book._stored():
            return book

    @contextlib.contextmanager
    def _stored(self) -> Iterator[StoredBook]:
        """The book as its database has it now, for use cases: within this nothing of it changes."""
        take_over(self.folder, self.program)
        up_to_date(self.folder)
        with reading(self.folder) as connection:
            yield StoredBook(self.folder, connection)

    # -- questions

    @property
    def is_empty(self) -> bool:
        """Has it no animals?"""
        with self._stored() as stored:
            return not stored.all_rows

    def list(
        self, living: bool = False, sex: str = "", owner: str = "",
        born: tuple[datetime.date, datetime.date] | None = None,
    ) -> tuple[Animal, ...]:  # fmt: skip
        """The animals in age order; with `living` those that live and that the society has a row for, with `sex` males
        (M) or females (F), with `owner` those of an owner, and with `born` those born in these days, both included: of
        an inferred birth day at least the year has to be known.

        Raises `OwnerNotFound`, and `BookNotWhole` where an animal has no coefficient.
        """
        with self._stored() as stored:
            return animals_of(stored, chosen(stored, Choice(living, sex, owner, born)))

    def find(self, *texts: str) -> tuple[Animal, ...]:
        """The animals that have each of these texts in id, name, number or owner, in age order; none where none has."""
        from gudokeyi.services.search import condition_of_words

        with self._stored() as stored:
            return animals_of(stored, stored.rows(condition_of_words(stored, texts), in_age_order=True))

    def animal(self, word: str) -> Animal:
        """An animal by its id, its number or its name. Raises `AnimalNotFound` or `AnimalAmbiguous`."""
        with self._stored() as stored:
            return animals_of(stored, [stored.row(find(stored, word, may_be_file=False))])[0]

    def coefficient(self, word: str) -> Coefficient:
        """An animal's coefficient of inbreeding, from 0 to 1, as the program `herdbook` computed it of all its known
        ancestors. An unknown parent counts as unrelated. Raises `AnimalNotFound`."""
        return self.animal(word).coefficient

    def certificate(self, word: str) -> Certificate:
        """An animal with three generations of ancestors, once the program has said that the kept coefficients are its
        own. Raises `AnimalNotFound`, and `BookNotWhole` where they aren't."""
        from gudokeyi.services.certificates import GENERATIONS, ancestors_in, begin_certificates, certified_animal
        from gudokeyi.services.verification import refuse_to_certify

        with self._stored() as stored:
            number = find(stored, word, may_be_file=False).registration_number
            certified = begin_certificates(stored, self.program, [number])
            refuse_to_certify(stored, self.program)
            numbers = {"": number} | ancestors_in(certified.facts(number))
            rows = animals_of(stored, stored.rows(among([*numbers.values()])))
            animals = {one.registration_number: certified_animal(stored, one, certified) for one in rows}
            ways = (way for count in range(1, GENERATIONS + 1) for way in ways_of(count))
            return Certificate(animals[number], {way: animals.get(numbers.get(way, "")) for way in ways})

    def seal(self) -> Seal:
        """The seal of the book as it is now, with its commands and animals."""
        from gudokeyi.services.seals import seal_of

        with self._stored() as stored:
            return seal_of(stored, self.program)

    def published_seals(self) -> tuple[PublishedSeal, ...]:
        """The seals that were published, the first published first."""
        from gudokeyi.services.seals import published_seals

        with self._stored() as stored:
            return tuple(published_seals(stored))

    def sealed_certificate(self, word: str, of_now: bool = False) -> SealedCertificate:
        """A certificate that anyone can check who has the seal: under the one that was published last, or where none
        was, or with `of_now`, under that of the book as it is now. Raises `AnimalNotFound`, and `ProgramFailed` where
        the book of the published seal doesn't have the animal."""
        from gudokeyi.services.seals import sealed_certificate

        with self._stored() as stored:
            return sealed_certificate(stored, self.program, find(stored, word, may_be_file=False), of_now)

    def mating(self, dam: str, sires: Collection[str] = (), with_left: bool = False) -> MatingAdvice:
        """The coefficient of inbreeding that an offspring of a dam would have with each of the sires, or where none is
        named with each male that lives, that the society has a row for and that isn't castrated; with `with_left` with
        those that left too. The program computes each.

        Raises `AnimalNotFound`, and `MatingImpossible` where the dam is none, or there is no sire.
        """
        from gudokeyi.services.advising import advise

        with self._stored() as stored:
            dam_found = find(stored, dam, may_be_file=False)
            sires_found = [find(stored, sire, may_be_file=False) for sire in sires]
            return mating_advice(dam_found, advise(stored, self.program, dam_found, sires_found, with_left))

    def breed(
        self, born: tuple[datetime.date, datetime.date] | None = None, owner: str = "",
        among: Collection[str] | None = None,
    ) -> BreedState:  # fmt: skip
        """The state of the breed: inbreeding, kinship, founders, ancestors, generations and effective size of a
        reference population. These are the living animals that the society has a row for; or those born in some days,
        both included; or the living ones of an owner; or some animals that are named.

        Raises `OwnerNotFound` and `AnimalNotFound`, and a `Mistake` where there are no such animals.
        """
        from gudokeyi.services import breed_pedigree

        with self._stored() as stored:
            breed = breed_pedigree.breed_of(stored)
            if among is not None:
                ranks = breed_pedigree.among(breed, [find(stored, word, may_be_file=False) for word in among])
            elif owner:
                ranks = breed_pedigree.owned_by(breed, owner)
            else:
                ranks = breed_pedigree.born_between(breed, *born) if born else breed_pedigree.living(breed)
            if not ranks:
                raise Mistake("the book has none of these animals: name others")
            return breed_state(breed, ranks)

    def plan(
        self, dams: Collection[str] | None = None, sires: Collection[str] | None = None, rules: PlanRules | None = None
    ) -> MatingPlan:
        """A plan of matings: for each dam the sire, so that the mean coefficient of the offspring is least. Where none
        are named it is of all living females and males that may be mated. `rules` are bounds; what they leave open is
        assumed of the book, and said. The program computes the coefficient of each pair.

        Raises `AnimalNotFound`, and `MatingImpossible` where there is no dam or no sire. It needs networkx.
        """
        from gudokeyi.services.plans import PlanRules, best_plan, prepared

        with self._stored() as stored:
            named = {
                role: None if words is None else [find(stored, word, may_be_file=False) for word in words]
                for role, words in ((Role.DAM, dams), (Role.SIRE, sires))
            }
            among = prepared(stored, rules or PlanRules(), named)
            found = best_plan(stored, self.program, among.dams, among.sires, among.rules)
            plan, ids, pairs = found.plan, stored.ids, found.pairs.coefficients
            matings = tuple(
                PlannedMating(ids[one.dam], ids[one.sire], Coefficient(*pairs[one.dam, one.sire]))
                for one in plan.matings
            )
            unmated = {ids[dam]: why for dam, why in plan.unmated.items()}
            return MatingPlan(
                matings, unmated, plan.mean, plan.allowed, plan.mean_of_allowed, tuple(map(str, among.assumed))
            )

    def kinships(self, some: Sequence[str], others: Sequence[str] | None = None) -> tuple[Kinship, ...]:
        """The relationships of all pairs of some animals, each with itself too; or else of each of them with each of
        the others. They are entries of the numerator relationship matrix, from 0 to 2; the program computes them.
        Raises `AnimalNotFound`."""
        from gudokeyi.services.relationships import each_once

        with self._stored() as stored:
            first, second = (
                None if words is None else each_once([find(stored, word, may_be_file=False) for word in words])
                for words in (some, others)
            )
            return kinships_of(stored, self.program, first, second) if first else ()

    def history(self) -> tuple[Change, ...]:
        """All changes of the book, the first one first; a number stands for a change as long as the book lasts."""
        with self._stored() as stored:
            return tuple(all_changes(stored.connection))

    def settings(self) -> dict[Setting, str]:
        """What the society says of itself; empty where it says nothing."""
        with self._stored() as stored:
            return settings_of(stored)

    def export(self, keep: Collection[str] | None = None) -> Table:
        """The whole pedigree in age order, by the society's ids: a sheet that can be imported again, with inferred days
        and sexes behind it. With `keep` only these animals and all their ancestors. `Table.text` is its CSV."""
        from gudokeyi.services.exports import export_table

        with self._stored() as stored:
            kept = None if keep is None else [find(stored, word, may_be_file=False) for word in keep]
            return export_table(stored, kept)

    def verify(self) -> None:
        """Sees whether the file is whole, and whether replies, state and coefficients are the program's. Raises
        `BookNotWhole` with each fault."""
        from gudokeyi.services.verification import verify

        with self._stored() as stored:
            verify(stored, self.program)

    # -- commands

    def file(self, command: Command) -> Filed:
        """Files a birth, other parents, a transfer or an exit as a change of its own. The program accepts or refuses
        it; refused it stands in the history, and no animal changes.

        Raises `NoBook` where there is none yet, `AnimalNotFound`, `OwnerNotFound`, and `InvalidValue` for a day after
        today or a text that is too long: nothing is filed then.
        """
        from gudokeyi.services.filing import file

        with there_to_change(self.folder, self.program) as stored:
            one = filed_command(stored, command)
            change, refusal = file(stored, self.program, one)
            notes = (*stored.notes, *export(self.folder))
        findings = (one.refused(refusal),) if refusal else one.findings
        return Filed(change, one.animal.id, one.animal.registration_number, refusal, findings, notes)

    def import_sheet(
        self, path: str | os.PathLike[str], options: ImportOptions | None = None, preview: bool = False
    ) -> Imported:
        """Imports a society's sheet, CSV or .xlsx, as one change; begins the book where there is none. With `preview`
        it is seen what that would make, and nothing is written.

        Raises `ImportRefused` with what keeps the sheet from being taken.
        """
        return self._imported(path, options, preview, is_pedigree=False)

    def import_pedigree(
        self, path: str | os.PathLike[str], options: ImportOptions | None = None, preview: bool = False
    ) -> Imported:
        """The same of a geneticist's pedigree: a text with `id sire dam` in each line, or with these among its titles.
        Days and sexes that it doesn't give are invented so that parents are older than their offspring."""
        return self._imported(path, options, preview, is_pedigree=True)

    def _imported(
        self, path: str | os.PathLike[str], options: ImportOptions | None, preview: bool, is_pedigree: bool
    ) -> Imported:
        """What an import of either kind makes."""
        from gudokeyi.services.imports import Import, ImportOptions

        wished = replace(options or ImportOptions(), book=self.folder, preview=preview)
        return imported_value(*Import(pathlib.Path(path), wished, is_pedigree).made(self.program))

    def undo(self, to: int | None = None) -> Change:
        """Brings back the state after a change, 0 for the empty book, or where none is named that before the last
        change that changed something: as a new change, by which nothing is lost. Raises `NoBook`, and a `Mistake` where
        that is the state of now."""
        from gudokeyi.services.undoing import undo

        with there_to_change(self.folder, self.program) as stored:
            change = undo(stored, self.program, to)
            export(self.folder)
        return change

    def publish_seal(self) -> PublishedSeal:
        """Keeps the seal of the book as it is now as one that is published today; where it was already that line stays.
        It is no change of the history. Raises `NoBook`, and `BookNotWhole`."""
        from gudokeyi.services.seal_publishing import publish_seal

        take_over(self.folder, self.program)
        return publish_seal(self.folder, self.program)

    def change_settings(self, given: dict[Setting, str]) -> None:
        """Keeps what the society says of itself; an empty text takes back what it said. Raises `NoBook`, and
        `InvalidValue`."""
        change_settings(self.folder, given)

    def backup(self, path: str | os.PathLike[str], replaces: bool = False) -> None:
        """Writes the whole book with its history to a file, while others work. Raises a `Mistake` where the file is
        there already, and isn't to be replaced."""
        from gudokeyi.services.restoring import backup

        with self._stored() as stored:
            if not stored.is_there:
                raise no_book(self.folder)
            backup(stored, pathlib.Path(path), replaces)

    def restore(self, path: str | os.PathLike[str], anyway: bool = False) -> Restored:
        """Makes the book of a backup that of the folder. Where there is a book already that is a `Mistake`, or with
        `anyway` it goes to the folder `old` before."""
        from gudokeyi.services.restoring import restore

        change = restore(self.folder, pathlib.Path(path), self.program, anyway)
        return Restored(change, tuple(export(self.folder)))


def kinships_of(
    stored: StoredBook, program: BookProgram, some: Sequence[SocietyRecord], others: Sequence[SocietyRecord] | None
) -> tuple[Kinship, ...]:
    """The relationships of all pairs of some animals, or else of each of them with each of the others."""
    from fractions import Fraction

    from gudokeyi.services.relationships import related

    ids = stored.ids
    pairs = related(stored, program, list(some), None if others is None else list(others))
    return tuple(Kinship(ids[one], ids[other], Fraction(value)) for one, other, value in pairs)


def mating_advice(dam: SocietyRecord, advice: Advice) -> MatingAdvice:
    """The advice for a dam."""
    matings = tuple(
        Mating(str(id), str(number), str(name), Coefficient(str(fraction), str(percent)))
        for id, name, number, _, fraction, _, percent in advice.table.rows
    )
    passed = advice.sires
    return MatingAdvice(
        dam.id, matings, dict(advice.faults), tuple(passed.castrated), tuple(passed.without_row), passed.left
    )
