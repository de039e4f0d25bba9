"""The breed's measures and the plan of matings, which are made in a process beside the server."""
from __future__ import annotations

import datetime
import pathlib
from collections.abc import Sequence
from dataclasses import dataclass
from fractions import Fraction

from gudokeyi.domain.changes import Mark
from gudokeyi.domain.messages import Mistake
from gudokeyi.domain.requests import WebFault
from gudokeyi.domain.settings import LANGUAGES
from gudokeyi.render.breed_pages import BreedWords, breed_part
from gudokeyi.services import breed_pedigree
from gudokeyi.services.breed_pedigree import Breed, breed_of, mean_kinships_of, state_of_breed
from gudokeyi.services.cache import mark_of
from gudokeyi.services.opening import Book, only_read
from gudokeyi.web.served_book import ServedBook
from gudokeyi.web.work_places import BREED as BREED
from gudokeyi.web.workers import Job, Stage, Tell

@dataclass(frozen=True)
class Whom:
    """The reference population: the living animals, those of an owner, or those that were born in some years."""

    owner: str = ""
    born: tuple[datetime.date, datetime.date] | None = None


@dataclass(frozen=True)
class Measured:
    """The measures as a part of a page in each language, and each animal's mean kinship with the living ones where
    these are the population; all of the book with a mark."""

    mark: Mark
    parts: dict[str, str]
    mean_kinships: dict[str, Fraction]


def measures_of(served: ServedBook, book: Book, whom: Whom) -> Job:
    """The work on the measures of the book as it is now, which is begun where it wasn't."""
    # of a book that others change all the time it is done of one state after the other
    under_way = served.jobs.under_way(BREED, whom)
    return under_way or served.jobs.of((BREED, mark_of(book), whom), measured, (served.folder, whom))


def measured(folder: pathlib.Path, whom: Whom, tell: Tell) -> Measured:
    with only_read(folder) as book:
        breed = breed_of(book)
        population = population_of(breed, whom)
        if not population:
            raise Mistake(WebFault.NONE_OF_THESE.said())
        state = state_of_breed(breed, population, tell)
        parts = {name: breed_part(state, breed, name, said_of(whom, BreedWords(name))) for name in LANGUAGES}
        # of others nobody asks for it, and it is long
        return Measured(mark_of(book), parts, mean_kinships_of(breed, population) if whom == Whom() else {})


def population_of(breed: Breed, whom: Whom) -> Sequence[int]:
    if whom.owner:
        return breed_pedigree.owned_by(breed, whom.owner)
    if whom.born:
        return breed_pedigree.born_between(breed, *whom.born)
    return breed_pedigree.living(breed)


def said_of(whom: Whom, words: BreedWords) -> str:
    """Who the population is, as the word `breed` says it."""
    if whom.owner:
        return words.of_owner(whom.owner)
    return words.of_born(*whom.born) if whom.born else words.of_living()


def kinship_of(served: ServedBook, book: Book, number: str) -> Fraction | None:
    """An animal's mean kinship with the living ones; none where that isn't computed yet."""
    job = served.jobs.found((BREED, mark_of(book), Whom()))
    if job is None or job.stage is not Stage.DONE:
        return None
    assert isinstance(job.value, Measured)
    return job.value.mean_kinships.get(number)
