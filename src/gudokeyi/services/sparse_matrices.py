"""The inverse of the numerator relationship matrix as a sparse matrix of SciPy, with the ids of its rows and
columns."""
from __future__ import annotations

from dataclasses import dataclass
from typing import Any

import numpy as np
import numpy.typing as npt
from scipy import sparse

from gudokeyi.genetics.lineage import Lineage
from gudokeyi.genetics.pedigree import UNKNOWN


@dataclass(frozen=True)
class SparseMatrix:
    """A matrix of SciPy in compressed rows. Row and column k are of the animal `ids[k]`."""

    ids: list[str]
    matrix: Any


def inverse_of(ids: list[str], lineage: Lineage, variances: npt.NDArray[np.float64]) -> SparseMatrix:
    """(I - P)' D^-1 (I - P): P has the half of each known parent, and D the Mendelian sampling variances."""
    less = less_parents(lineage)
    return SparseMatrix(ids, (less.T @ sparse.diags(1 / variances) @ less).tocsr())


def half_inverse_of(ids: list[str], lineage: Lineage, variances: npt.NDArray[np.float64]) -> SparseMatrix:
    """The root of D^-1, times I - P."""
    return SparseMatrix(ids, (sparse.diags(1 / np.sqrt(variances)) @ less_parents(lineage)).tocsr())


def less_parents(lineage: Lineage) -> Any:
    """I - P: of a selfed animal both halves are added up."""
    count = len(lineage)
    places = np.arange(count)
    with_sire, with_dam = (np.flatnonzero(parents != UNKNOWN) for parents in (lineage.sires, lineage.dams))
    rows = np.concatenate([places, with_sire, with_dam])
    columns = np.concatenate([places, lineage.sires[with_sire], lineage.dams[with_dam]])
    values = np.concatenate([np.ones(count), np.full(len(with_sire) + len(with_dam), -0.5)])
    return sparse.csr_matrix((values, (rows, columns)), shape=(count, count))
