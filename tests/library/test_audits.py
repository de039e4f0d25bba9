"""Another program's numbers: those that are right, and wrong ones made as programs make them."""
from __future__ import annotations

import pathlib
from collections.abc import Callable
from fractions import Fraction

import numpy as np
import pytest

import gudokeyi
from gudokeyi.render.audits import audit_lines
from gudokeyi.services.audits import Kind, Reason, Told, audit
from gudokeyi.services.pedigree_tables import inverse_elements
from reference_pedigree import Pedigree as Reference
from reference_pedigree import drawn

REFERENCE = next(one for one in map(drawn, range(100)) if len(one.parents) == 30)
IDS = [f"a{at}" for at in range(30)]


@pytest.fixture(autouse=True)
def by_program(program: str, monkeypatch: pytest.MonkeyPatch) -> None:
    monkeypatch.setenv("HERDBOOK", program)


def pedigree_of(reference: Reference, ids: list[str]) -> gudokeyi.Pedigree:
    names = [*ids, "0"]
    sires, dams = ([names[-1 if it is None else it] for it in parents] for parents in zip(*reference.parents))
    return gudokeyi.Pedigree(ids, sires, dams)


def half_known_cut() -> Reference:
    return Reference(tuple(pair if None not in pair else (None, None) for pair in REFERENCE.parents))


def selfed_cut() -> Reference:
    return Reference(tuple((sire, None if sire == dam else dam) for sire, dam in REFERENCE.parents))


def both_roles_cut() -> Reference:
    sires = {sire for sire, _ in REFERENCE.parents}
    return Reference(tuple((sire, None if dam in sires else dam) for sire, dam in REFERENCE.parents))


WRONG: dict[Reason, Callable[[], list[Fraction]]] = {
    Reason.HUNDREDTHS: lambda: [100 * one for one in REFERENCE.coefficients()],
    Reason.PLUS_ONE: lambda: [1 + one for one in REFERENCE.coefficients()],
    Reason.MIXED: lambda: sorted(REFERENCE.coefficients()),
    Reason.HALF_KNOWN: lambda: half_known_cut().coefficients(),
    Reason.SELFED: lambda: selfed_cut().coefficients(),
    Reason.BOTH_ROLES: lambda: both_roles_cut().coefficients(),
    Reason.GENERATIONS: lambda: [within(place, 2) for place in range(30)],
    Reason.FOUNDERS: lambda: with_related_founders(Fraction(1, 10)),
}


def within(place: int, most: int) -> Fraction:
    """By ancestors of so many generations."""
    has_parents, new = set[int](), {place}
    for _ in range(most):
        has_parents |= new
        new = {it for one in new for it in REFERENCE.parents[one] if it is not None}
    cut = Reference(tuple(pair if at in has_parents else (None, None) for at, pair in enumerate(REFERENCE.parents)))
    return cut.coefficients()[place]


def with_related_founders(of_founders: Fraction) -> list[Fraction]:
    """The tabular method, in which unknown parents are related to each other and to all animals without a known one."""
    table: list[list[Fraction]] = []
    for at, pair in enumerate(REFERENCE.parents):
        rows = [[of_founders] * at if it is None else table[it] for it in pair]
        row = [(rows[0][other] + rows[1][other]) / 2 for other in range(at)]
        sire, dam = pair
        between = of_founders if sire is None or dam is None else table[sire][dam]
        for other in range(at):
            table[other].append(row[other])
        table.append([*row, 1 + between / 2])
    return [row[at] - 1 for at, row in enumerate(table)]


def written(path: pathlib.Path, values: list[Fraction]) -> pathlib.Path:
    lines = [f"{id},{float(value):.12f}" for id, value in zip(IDS, values)]
    path.write_text("\n".join(["id,F", *lines]) + "\n")
    return path


@pytest.mark.parametrize("reason", WRONG)
def test_reasons(tmp_path: pathlib.Path, reason: Reason) -> None:
    values = WRONG[reason]()
    exact = REFERENCE.coefficients()
    found = audit(pedigree_of(REFERENCE, IDS), written(tmp_path / "f.csv", values), None)
    differing = [entry.ids[0] for entry in found.entries[Kind.OTHER]]
    assert differing == [id for id, one, other in zip(IDS, values, exact) if one != other] != []
    assert reason in [one for one, _, _ in found.reasons]
    assert f"{len(differing)} differ{'s' * (len(differing) == 1)}; the first: {differing[0]} in line" in "\n".join(
        audit_lines(found)
    )


def test_one_that_no_reason_explains(tmp_path: pathlib.Path) -> None:
    """One coefficient alone that is too large tells nothing of unknown parents."""
    values = REFERENCE.coefficients()
    values[20] += Fraction(1, 10)
    found = audit(pedigree_of(REFERENCE, IDS), written(tmp_path / "f.csv", values), None)
    assert len(found.entries[Kind.OTHER]) == 1 and not found.reasons
    assert "nothing that is looked for explains them" in "\n".join(audit_lines(found))


@pytest.mark.parametrize(("apart", "kind"), [
    (2.0**-53, Kind.SAME), (2.0**-30, Kind.SINGLE_PRECISION), (2.0**-18, Kind.OTHER),
])  # fmt: skip
def test_rounding_of_numbers_about_one(tmp_path: pathlib.Path, apart: float, kind: Kind) -> None:
    """Programs have F as 1 + F less 1, so small coefficients are as far from the exact ones as large ones."""
    lines = [f"{id},{float(value) + apart!r}\n" for id, value in zip(IDS, REFERENCE.coefficients())]
    (tmp_path / "f.csv").write_text("".join(lines))
    found = audit(pedigree_of(REFERENCE, IDS), tmp_path / "f.csv", None)
    assert [entry.ids[0] for entry in found.entries[kind]] == IDS


def test_order(tmp_path: pathlib.Path) -> None:
    """A program that goes through the lines once cuts parents that come later."""
    order = [*range(15, 30), *range(15)]
    names = [*IDS, "0"]
    pairs = [REFERENCE.parents[at] for at in order]
    sires, dams = ([names[-1 if it is None else it] for it in parents] for parents in zip(*pairs))
    pedigree = gudokeyi.Pedigree([IDS[at] for at in order], sires, dams)
    before = {at: {None, *order[: order.index(at)]} for at in order}
    cut = Reference(tuple(
        (sire if sire in before[at] else None, dam if dam in before[at] else None)
        for at, (sire, dam) in enumerate(REFERENCE.parents)
    ))  # fmt: skip
    found = audit(pedigree, written(tmp_path / "f.csv", cut.coefficients()), None)
    assert found.differs and Reason.BEHIND in [one for one, _, _ in found.reasons]


def test_right_ones(tmp_path: pathlib.Path) -> None:
    """Rounded as they are written, in single precision, and what is on one side alone."""
    pedigree, exact = pedigree_of(REFERENCE, IDS), REFERENCE.coefficients()
    file = tmp_path / "f.txt"
    file.write_text("".join(f"{id} {float(value):.4f}\n" for id, value in zip(IDS, exact)) + "x 0.5\n")
    found = audit(pedigree, file, None)
    assert not found.differs and found.absent == ["x"] and len(found.entries[Kind.SAME]) == 30
    tenths = [Fraction(float(np.float32(0.1) * np.float32(value) * np.float32(10))) for value in exact]
    file.write_text("".join(f"{id};{float(value)!r}\n" for id, value in zip(IDS[1:], tenths[1:])))
    found = audit(pedigree, file, None)
    assert not found.differs and found.untold == ["a0"]


WRONG_FILES = [
    ("a0,0\na1,a2,0\n", "line 2 has 3 cells, and the first with a number 2: write as many in each"),
    ("%%MatrixMarket matrix coordinate real symmetric\n1 1 1\n1 1 1.0\n", "numbers of rows, which are no ids: write"),
]


@pytest.mark.parametrize(("text", "told"), WRONG_FILES)
def test_refused_files(tmp_path: pathlib.Path, text: str, told: str) -> None:
    (tmp_path / "f.csv").write_text(text)
    with pytest.raises(gudokeyi.Mistake, match=told):
        audit(pedigree_of(REFERENCE, IDS), tmp_path / "f.csv", None)


@pytest.mark.parametrize(("what", "factor", "wanted"), [
    (Told.KINSHIP, Fraction(1), Reason.DOUBLED), (Told.RELATIONSHIP, Fraction(1, 2), Reason.HALVED),
])  # fmt: skip
def test_kinships_for_relationships(tmp_path: pathlib.Path, what: Told, factor: Fraction, wanted: Reason) -> None:
    lines = [f"{IDS[at]},{IDS[at]},{float(factor * REFERENCE.relationships[at][at])!r}\n" for at in range(30)]
    (tmp_path / "a.csv").write_text("".join(lines))
    found = audit(pedigree_of(REFERENCE, IDS), tmp_path / "a.csv", what)
    assert found.reasons == [(wanted, 30, "")]


@pytest.mark.parametrize("what", (Told.RELATIONSHIP, Told.KINSHIP, Told.INVERSE))
def test_pairs(tmp_path: pathlib.Path, what: Told) -> None:
    pedigree, table = pedigree_of(REFERENCE, IDS), REFERENCE.relationships
    values = {
        (at, other): table[at][other] / (2 if what is Told.KINSHIP else 1) for at in range(30) for other in range(30)
    }
    if what is Told.INVERSE:
        values = {pair[::-1]: value for pair, value in inverse_elements(pedigree).items()}
        dense = pedigree.inverse().matrix.toarray()
        assert all(dense[pair] == pytest.approx(float(value), rel=1e-9) for pair, value in values.items())
    wrong = next(iter(values))
    lines = [f"{IDS[at]}\t{IDS[other]}\t{float(value)!r}" for (at, other), value in values.items()]
    lines[0] = f"{IDS[wrong[0]]}\t{IDS[wrong[1]]}\t17.5"
    (tmp_path / "a.tsv").write_text("\n".join(lines) + "\n")
    found = audit(pedigree, tmp_path / "a.tsv", what)
    assert [entry.line for entry in found.entries[Kind.OTHER]] == [1]
    assert len(found.entries[Kind.SAME]) == len(values) - 1
