"""The tables of a breed's state, as files of CSV for programs: ids as they were read, decimals, and beside them the
fractions."""
from __future__ import annotations

import csv
import io
from collections.abc import Iterable, Sequence
from fractions import Fraction

from gudokeyi.domain.decimals import decimal
from gudokeyi.genetics.breed_state import Parents, State, Year
from gudokeyi.genetics.founders import Contribution
from gudokeyi.genetics.generations import maccluer_indices
from gudokeyi.genetics.measures import Measure
from gudokeyi.genetics.pedigree import COEFFICIENT_BITS
from gudokeyi.services.breed_pedigree import Breed

Cell = str | int
Table = tuple[Sequence[str], Iterable[Sequence[Cell]]]


def files_of(state: State, breed: Breed) -> dict[str, bytes]:
    """The text of each file, by its name."""
    tables: dict[str, Table] = {
        "measures.csv": measures_table(state.measures.values()),
        "years.csv": years_table(state.years),
        "completeness.csv": completeness_table(state),
        "intervals.csv": intervals_table(state),
        "founders.csv": contributions_table(state.founders, breed, by_share=True),
        "ancestors.csv": contributions_table(state.ancestors.ancestors, breed),
        "animals.csv": animals_table(state, breed),
    }
    return {name: text_of(titles, rows) for name, (titles, rows) in tables.items()}


def text_of(titles: Sequence[str], rows: Iterable[Sequence[Cell]]) -> bytes:
    text = io.StringIO()
    writer = csv.writer(text, lineterminator="\n")
    writer.writerow(titles)
    writer.writerows(rows)
    return text.getvalue().encode()


def measures_table(measures: Iterable[Measure]) -> Table:
    """A measure that can't be had has no value."""
    rows = []
    for measure in measures:
        value = measure.exact if measure.exact is not None else measure.value
        exact = "" if measure.exact is None else str(measure.exact)
        rows.append((measure.name.value, "" if value is None else decimal(value), exact))
    return ("measure", "value", "exact"), rows


def years_table(years: Iterable[Year]) -> Table:
    titles = (
        "year", "animals", "sires", "mean_offspring_of_a_sire", "most_of_a_sire", "dams", "mean_offspring_of_a_dam",
        "most_of_a_dam", "inbred", "mean_inbreeding", "mean_inbreeding_exact", "mean_kinship", "mean_kinship_exact",
    )  # fmt: skip
    rows = [
        (
            year.year, year.animals, *cells_of(year.sires), *cells_of(year.dams), year.inbred,
            decimal(year.mean_inbreeding), str(year.mean_inbreeding), decimal(year.mean_kinship),
            str(year.mean_kinship),
        )
        for year in years
    ]  # fmt: skip
    return titles, rows


def cells_of(parents: Parents) -> tuple[Cell, ...]:
    return parents.in_use, "" if parents.mean is None else decimal(parents.mean), parents.most


def completeness_table(state: State) -> Table:
    rows = [(at, decimal(share), str(share)) for at, share in enumerate(state.completeness, 1)]
    return ("generation", "known", "exact"), rows


def intervals_table(state: State) -> Table:
    rows = [
        (path.value, one.pairs, "" if one.years is None else decimal(one.years), str(one.years or ""))
        for path, one in state.intervals.items()
    ]
    return ("path", "pairs", "years", "exact"), rows


def contributions_table(contributions: Iterable[Contribution], breed: Breed, by_share: bool = False) -> Table:
    """The greatest first. An unknown parent is named by its offspring."""
    rows: list[Sequence[Cell]] = []
    so_far = Fraction(0)
    for one in sorted(contributions, key=lambda one: -one.share) if by_share else contributions:
        so_far += one.share
        animal = breed.rows[one.rank]
        who = "unknown parent of" if one.is_parent_of else ""
        rows.append((animal.id, who, decimal(one.share), str(one.share), decimal(so_far)))
    return ("id", "is", "contribution", "exact", "contribution_so_far"), rows


def animals_table(state: State, breed: Breed) -> Table:
    """The animals of the population by their mean kinship, the least first."""
    titles = (
        "id", "name", "number", "sex", "birth", "coefficient", "mean_kinship", "mean_kinship_exact",
        "equivalent_generations", "full_generations", "greatest_generations", "maccluer_index",
    )  # fmt: skip
    indices, generations = maccluer_indices(state.pedigree), state.generations
    rows = []
    for rank, kinship in state.mean_kinships:
        animal = breed.animal(rank)
        coefficient = Fraction(state.pedigree.coefficients[rank], 1 << COEFFICIENT_BITS)
        rows.append(
            (
                animal.id, animal.name, animal.registration_number, animal.registration_number[6],
                f"{breed.born(rank)}{animal.birth.mark()}", str(coefficient), decimal(kinship), str(kinship),
                decimal(generations.equivalent(rank)), generations.full[rank], generations.greatest[rank],
                decimal(indices[rank]),
            )
        )  # fmt: skip
    return titles, rows
