"""What is written of a pedigree by itself: its coefficients in the order of its lines, relationships, measures, and the
inverse as a file."""
from __future__ import annotations

import collections
import io
import pathlib
from collections.abc import Iterable, Iterator, Sequence
from fractions import Fraction
from typing import TYPE_CHECKING

import numpy as np

from gudokeyi.domain.cells import column_for_spreadsheets, csv_text
from gudokeyi.domain.decimals import UNIT as UNIT_OF_DECIMALS
from gudokeyi.domain.decimals import decimal, decimal_of_text
from gudokeyi.domain.messages import Mistake
from gudokeyi.services.pedigrees import UNIT, Pairs, Pedigree
from gudokeyi.services.tables import RELATIONSHIP_COLUMNS, Cell, Kind, Table

if TYPE_CHECKING:
    from gudokeyi.genetics.measures import Measure
    from gudokeyi.services.sparse_matrices import SparseMatrix

INBREEDING_TITLES = ("id", "coefficient", "decimal", "percent")
# so many rows are written at a time
AT_ONCE = 50_000


def inbreeding_text(pedigree: Pedigree) -> Iterator[str]:
    """The coefficient of each animal as the program writes it, with its decimal, in pieces."""
    answer = pedigree.asked(["inbreeding"])
    ends = np.flatnonzero(np.frombuffer(answer, np.uint8) == ord("\n"))
    starts = np.append(0, ends[:-1] + 1)
    if not pedigree.is_in_order:
        starts, ends = starts[pedigree.numbers], ends[pedigree.numbers]
    yield csv_text(INBREEDING_TITLES, [()] * len(INBREEDING_TITLES))
    for first in range(0, len(pedigree), AT_ONCE):
        some = slice(first, first + AT_ONCE)
        lines = [answer[start:end] for start, end in zip(starts[some].tolist(), ends[some].tolist())]
        cells = b",".join(lines).decode().split(",")
        ids, coefficients = column_for_spreadsheets(pedigree.ids[some]), cells[1::3]
        yield csv_text((), [ids, coefficients, decimals_of(coefficients), cells[2::3]])


# a double from 0 to 1 is nearer to its number than this part of the last place
NEAR_A_HALF = 1e-4


def decimals_of(fractions: Sequence[str]) -> list[str]:
    """The decimals of very many fractions from 0 to 1, whose denominators are powers of two: those of the doubles
    beside them, but where such a one may be on the other side of where the last place is rounded."""
    places = [place for place, fraction in enumerate(fractions) if "/" in fraction]
    parts = "/".join([fractions[place] for place in places]).split("/")
    count, denominators = len(places), parts[1::2]
    of_denominator = {one: float(one) for one in {*denominators}}
    above = np.fromiter(map(float, parts[: 2 * count : 2]), np.float64, count)
    below = np.fromiter(map(of_denominator.__getitem__, denominators), np.float64, count)
    scaled = above / below * UNIT_OF_DECIMALS
    nearest = np.floor(scaled + 0.5).astype(np.int64)
    is_sure = (np.abs(scaled % 1 - 0.5) >= NEAR_A_HALF) & (nearest > 0) & (nearest < UNIT_OF_DECIMALS)
    texts = ("0.%010d " * count % tuple(nearest.tolist())).split()
    found = [*fractions]
    for place, text, sure in zip(places, texts, is_sure.tolist()):
        found[place] = text.rstrip("0") if sure else decimal_of_text(fractions[place])
    return found


def relationship_table(pairs: Pairs, is_of_same: bool) -> Table:
    """A row for each pair: of the same animals one of each two, an animal with itself too."""
    rows: list[tuple[Cell, ...]] = []
    for at, (id, entries) in enumerate(zip(pairs.ids, pairs.units)):
        first = at if is_of_same else 0
        for other, units in zip(pairs.others[first:], entries[first:]):
            entry, kinship = Fraction(units, UNIT), Fraction(units, 2 * UNIT)
            rows.append((id, other, str(entry), decimal(entry), str(kinship), decimal(kinship)))
    return Table.of_rows(RELATIONSHIP_COLUMNS, rows)


def relationship_matrix(pairs: Pairs, halved: bool) -> Table:
    unit = 2 * UNIT if halved else UNIT
    rows: list[tuple[Cell, ...]] = [
        (id, *(decimal(Fraction(units, unit)) for units in entries)) for id, entries in zip(pairs.ids, pairs.units)
    ]
    return Table.of_rows([("id", Kind.TEXT), *((id, Kind.DECIMAL) for id in pairs.others)], rows)


def measure_table(measures: Iterable[Measure]) -> Table:
    """Each measure with its decimal and, where there is one, its fraction; or why it can't be had."""
    columns = (("measure", Kind.PLAIN), ("value", Kind.DECIMAL), ("exact", Kind.PLAIN), ("why_not", Kind.TEXT))
    rows = [
        (
            measure.name.value, "" if measure.value is None else decimal(measure.exact or measure.value),
            "" if measure.exact is None else str(measure.exact), measure.lack.value if measure.lack else "",
        )
        for measure in measures
    ]  # fmt: skip
    return Table.of_rows(columns, rows)


def inverse_elements(pedigree: Pedigree) -> dict[tuple[int, int], Fraction]:
    """The elements of the inverse, summed up of what the program says that each animal adds, by the places of row and
    column, the row never before the column."""
    found: dict[tuple[int, int], Fraction] = collections.defaultdict(Fraction)
    place = pedigree.order.tolist()
    for line in pedigree.asked(["inverse"]).decode().splitlines():
        _, row, column, value = line.split(",")
        one, other = place[int(row) - 1], place[int(column) - 1]
        found[max(one, other), min(one, other)] += Fraction(value)
    return found


def matrix_files(found: SparseMatrix, path: pathlib.Path) -> dict[pathlib.Path, bytes]:
    """The file of a symmetric matrix, as MatrixMarket (its lower triangle) or as SciPy writes it, and beside it the ids
    of its rows, one a line."""
    from scipy import io as matrix_io
    from scipy import sparse

    file = io.BytesIO()
    if path.suffix == ".npz":
        sparse.save_npz(file, found.matrix)
    elif path.suffix == ".mtx":
        matrix_io.mmwrite(
            file, sparse.tril(found.matrix), "the inverse of the numerator relationship matrix, its lower triangle",
            precision=17, symmetry="general",
        )  # fmt: skip
    else:
        raise Mistake(f"{path} is to be a matrix: name a file that ends with .mtx or .npz")
    text = file.getvalue()
    if path.suffix == ".mtx":
        text = text.replace(b"coordinate real general", b"coordinate real symmetric", 1)
    return {path: text, path.with_name(path.name + ".ids"): "".join(f"{id}\n" for id in found.ids).encode()}
