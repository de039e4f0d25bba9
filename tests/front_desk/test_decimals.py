"""How exact numbers are rounded where they are shown."""
from __future__ import annotations

import decimal
import random
from fractions import Fraction

import pytest

from gudokeyi.domain.decimals import decimal as shown, fixed, percent
from gudokeyi.services.exports import scaled
from gudokeyi.store.coefficients import UNIT_BITS, decimals_of_units, of_offspring


@pytest.mark.parametrize(("value", "text"), [
    (Fraction(1, 2**11), "0.0004882813"), (Fraction(-1, 2**11), "-0.0004882813"), (Fraction(3, 2**11), "0.0014648438"),
    (Fraction(-1, 10**12), "0"), (Fraction(2, 3), "0.6666666667"), (10, "10"), (0.125, "0.125"), (-0.5, "-0.5"),
])  # fmt: skip
def test_decimal(value: Fraction | float, text: str) -> None:
    """Halves are rounded away from 0, and no nought stands at the end."""
    assert shown(value) == text


@pytest.mark.parametrize("seed", range(3))
def test_beside_decimals_of_python(seed: int) -> None:
    draw = random.Random(seed)
    decimal.getcontext().prec = 90
    for _ in range(500):
        value = Fraction(draw.randrange(-(2**70), 2**70), 2 ** draw.randrange(121))
        exact = decimal.Decimal(value.numerator) / value.denominator
        for places in 2, 3:
            unit = decimal.Decimal(10) ** -places
            wanted = exact.quantize(unit, decimal.ROUND_HALF_UP), (exact * 100).quantize(unit, decimal.ROUND_HALF_UP)
            assert tuple(map(decimal.Decimal, (fixed(value, places), percent(value, places)))) == wanted


@pytest.mark.parametrize(("relationship", "coefficient"), [
    ("0", ("0", "0.00")), ("1", ("1/2", "50.00")), ("2", ("1", "100.00")), ("1/16", ("1/32", "3.13")),
    ("11/16", ("11/32", "34.38")),
])  # fmt: skip
def test_calf(relationship: str, coefficient: tuple[str, str]) -> None:
    """Half of the parents' relationship in lowest terms, with the percentage that the program writes."""
    assert of_offspring(relationship) == coefficient


def test_decimals_of_units() -> None:
    """Of many they are those of each: halves are rounded away from 0, also up to a whole."""
    draw, whole = random.Random(9), 1 << UNIT_BITS
    units = [0, 1, whole // 2**11, 3 * whole // 2**11, whole // 8, whole - 1, whole, whole // (2 * 10**10) + 1]
    units += [draw.randrange(2 ** draw.randrange(1, UNIT_BITS)) for _ in range(500)]
    assert decimals_of_units(units) == [shown(Fraction(one, whole)) for one in units]


def test_elements_of_the_inverse() -> None:
    """Whole numbers of their unit, to the nearest."""
    assert scaled("2/3") == 2 * scaled("1/3") + 1 and scaled("-1/2") == -(1 << 95)
