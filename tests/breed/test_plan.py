"""Plans of matings beside all plans one by one, and beside SciPy's solution of the same problem."""
from __future__ import annotations

import itertools
import random
from fractions import Fraction

import pytest

from gudokeyi.genetics.plans import Pair, Plan, Rules, Unmated, plan_of

Coefficients = dict[Pair, Fraction]


def drawn_coefficients(seed: int, dams: int, sires: int) -> tuple[list[str], list[str], Coefficients]:
    """Coefficients of close values, some of them equal, some pairs refused."""
    draw = random.Random(seed)
    names = [f"D{at}" for at in range(dams)], [f"S{at}" for at in range(sires)]
    found = {
        pair: Fraction(draw.randrange(16), 64) + Fraction(draw.randrange(3), 2**60)
        for pair in itertools.product(*names)
        if draw.random() > 0.1
    }
    return *names, found


def best_of_all(dams: list[str], sires: list[str], coefficients: Coefficients, rules: Rules) -> tuple[int, Fraction]:
    """How many dams can be mated, and the least sum then, by trying each plan."""
    best = 0, Fraction(0)
    for choice in itertools.product([None, *sires], repeat=len(dams)):
        pairs = [(dam, sire) for dam, sire in zip(dams, choice) if sire is not None]
        most = rules.most_for_a_sire or len(dams)
        if any(choice.count(sire) > most for sire in sires) or any(pair not in coefficients for pair in pairs):
            continue
        total = sum((coefficients[pair] for pair in pairs), Fraction(0))
        if rules.at_most is not None and any(coefficients[pair] > rules.at_most for pair in pairs):
            continue
        best = max(best, (len(pairs), -total))
    return best[0], -best[1]


RULES = [Rules(), Rules(2), Rules(1), Rules(2, Fraction(1, 8)), Rules(None, Fraction(0))]


@pytest.mark.parametrize("seed", range(4))
@pytest.mark.parametrize("rules", RULES)
def test_best_of_all_plans(seed: int, rules: Rules) -> None:
    dams, sires, coefficients = drawn_coefficients(seed, 5, 3)
    plan = plan_of(dams, sires, coefficients, rules, {})
    total = sum((mating.coefficient for mating in plan.matings), Fraction(0))
    assert (len(plan.matings), total) == best_of_all(dams, sires, coefficients, rules)
    assert_keeps(plan, dams, coefficients, rules)


def assert_keeps(plan: Plan, dams: list[str], coefficients: Coefficients, rules: Rules) -> None:
    """The plan keeps the rules, and each dam is mated once or told."""
    used = [mating.sire for mating in plan.matings]
    assert all(used.count(sire) <= (rules.most_for_a_sire or len(dams)) for sire in used)
    assert all(mating.coefficient == coefficients[mating.dam, mating.sire] for mating in plan.matings)
    assert sorted([*(mating.dam for mating in plan.matings), *plan.unmated]) == sorted(dams)
    allowed = [one for one in coefficients.values() if rules.at_most is None or one <= rules.at_most]
    assert plan.mean_of_allowed == (sum(allowed, Fraction(0)) / len(allowed) if allowed else None)


def test_beside_scipy() -> None:
    """The same least sum by the assignment of dams to places, each sire with as many places as it may have dams."""
    import numpy
    from scipy.optimize import linear_sum_assignment

    dams, sires, most = [f"D{at}" for at in range(120)], [f"S{at}" for at in range(10)], 15
    draw = random.Random(5)
    # in units of 2^-40, so that sums of doubles are exact
    coefficients = {pair: Fraction(draw.randrange(2**38), 2**40) for pair in itertools.product(dams, sires)}
    plan = plan_of(dams, sires, coefficients, Rules(most), {})
    costs = numpy.array([[float(coefficients[dam, sire]) for sire in sires for _ in range(most)] for dam in dams])
    rows, places = linear_sum_assignment(costs)
    assert len(plan.matings) == len(dams)
    assert float(sum(mating.coefficient for mating in plan.matings)) == costs[rows, places].sum()


def test_why_a_dam_has_no_sire() -> None:
    low, high = Fraction(0), Fraction(1, 4)
    coefficients = {("A", "S"): low, ("B", "S"): low + Fraction(1, 64), ("C", "S"): high}
    plan = plan_of(["A", "B", "C", "D"], ["S"], coefficients, Rules(1, Fraction(1, 16)), {})
    assert [(mating.dam, mating.sire) for mating in plan.matings] == [("A", "S")]
    assert plan.unmated == {"B": Unmated.NO_ROOM, "C": Unmated.ABOVE, "D": Unmated.REFUSED}


def test_weight_on_mean_kinship() -> None:
    """A sire that is less related to the breed is taken, where the weight outweighs the calf's coefficient."""
    coefficients = {("A", "S"): Fraction(1, 32), ("A", "T"): Fraction(2, 32)}
    kinships = {"S": Fraction(3, 16), "T": Fraction(1, 16)}
    chosen = [
        plan_of(["A"], ["S", "T"], coefficients, Rules(kinship_weight=Fraction(weight)), kinships).matings[0].sire
        for weight in ("0", "1/5", "1/3", "1")
    ]
    assert chosen == ["S", "S", "T", "T"]


def test_nobody_can_be_mated() -> None:
    plan = plan_of(["A"], ["S"], {}, Rules(), {})
    assert plan.matings == [] and plan.mean is None and plan.unmated == {"A": Unmated.REFUSED}
