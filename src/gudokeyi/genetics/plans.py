"""A plan of matings: for each dam the sire, so that the mean coefficient of the offspring is least and none is above a
bound."""
from __future__ import annotations

import enum
import math
from collections.abc import Mapping, Sequence
from dataclasses import dataclass
from fractions import Fraction

# A bound of a plan of matings: a number, none, or the one that is usual for the book.


class Assume(enum.Enum):
    """A bound that is left to the book."""

    USUAL = "usual"


# none is no bound
Bound = int | None | Assume


# The transport problem by networkx, which has no types: no other module names it.

SINK = "sink"


@dataclass(frozen=True)
class Flow:
    """Each sender sends one to a receiver that it has a cost with; a receiver takes so many at most. Costs are
    whole."""

    senders: Sequence[str]
    receivers: Sequence[str]
    costs: Mapping[tuple[str, str], int]
    most: int


def cheapest_flow(flow: Flow) -> dict[str, str]:
    """To whom each sender sends, where as many as can be send, and the sum of the costs is least."""
    import networkx

    network = networkx.DiGraph()
    # to send nothing costs more than anything that it could save
    nothing = 1 + 2 * len(flow.senders) * max((abs(cost) for cost in flow.costs.values()), default=0)
    network.add_node(SINK, demand=len(flow.senders))
    for sender in flow.senders:
        network.add_node(("sender", sender), demand=-1)
        network.add_edge(("sender", sender), SINK, weight=nothing)
    for receiver in flow.receivers:
        network.add_edge(("receiver", receiver), SINK, capacity=flow.most, weight=0)
    for (sender, receiver), cost in flow.costs.items():
        network.add_edge(("sender", sender), ("receiver", receiver), weight=cost)
    _, sent = networkx.network_simplex(network)
    return {
        sender: receiver[1]
        for sender in flow.senders
        for receiver, amount in sent["sender", sender].items()
        if amount and receiver != SINK
    }


# A plan of matings: for each dam the sire, so that the mean coefficient of the offspring is least. That is a transport
# problem: each dam sends one offspring, each sire takes so many. It is solved in whole numbers by the network simplex
# method (networkx), so that the plan is the best that there is.

# a dam's and a sire's number, or any other names of the two
Pair = tuple[str, str]


@dataclass(frozen=True)
class Rules:
    """What a plan has to keep to: so many dams for a sire at most, and no offspring above a coefficient. A sire's mean
    kinship with the breed counts as so much of a coefficient."""

    most_for_a_sire: int | None = None
    at_most: Fraction | None = None
    kinship_weight: Fraction = Fraction(0)


class Unmated(enum.Enum):
    """Why a dam has no sire."""

    REFUSED = "the program refuses a mating with each of the sires"
    ABOVE = "each offspring that isn't refused would be above the coefficient allowed"
    NO_ROOM = "the sires that it may be mated to have as many dams as they may"


@dataclass(frozen=True)
class Mating:
    dam: str
    sire: str
    coefficient: Fraction


@dataclass(frozen=True)
class Plan:
    """The matings in the order of the dams, who has no sire, how many pairs are allowed, and their mean."""

    matings: list[Mating]
    unmated: dict[str, Unmated]
    allowed: int
    mean_of_allowed: Fraction | None

    @property
    def mean(self) -> Fraction | None:
        coefficients = [mating.coefficient for mating in self.matings]
        return sum(coefficients, Fraction(0)) / len(coefficients) if coefficients else None


def plan_of(
    dams: Sequence[str],
    sires: Sequence[str],
    coefficients: Mapping[Pair, Fraction],
    rules: Rules,
    mean_kinships: Mapping[str, Fraction],
) -> Plan:
    """The best plan by the coefficients of all pairs that aren't refused: first of all as many dams as can be are
    mated, then the sum of their offspring's coefficients is least."""
    allowed = {
        pair: coefficient
        for pair, coefficient in coefficients.items()
        if rules.at_most is None or coefficient <= rules.at_most
    }
    most = len(dams) if rules.most_for_a_sire is None else rules.most_for_a_sire
    costs = whole_costs(allowed, rules.kinship_weight, mean_kinships)
    chosen = cheapest_flow(Flow(dams, sires, costs, most))
    matings = [Mating(dam, chosen[dam], allowed[dam, chosen[dam]]) for dam in dams if dam in chosen]
    mean = sum(allowed.values(), Fraction(0)) / len(allowed) if allowed else None
    unmated = why_unmated([dam for dam in dams if dam not in chosen], coefficients, allowed)
    return Plan(matings, unmated, len(allowed), mean)


def whole_costs(
    allowed: Mapping[Pair, Fraction], weight: Fraction, mean_kinships: Mapping[str, Fraction]
) -> dict[Pair, int]:
    """The costs in a unit in which all of them are whole."""
    costs = {
        pair: coefficient + (weight * mean_kinships[pair[1]] if weight else 0) for pair, coefficient in allowed.items()
    }
    unit = math.lcm(*{cost.denominator for cost in costs.values()})
    return {pair: cost.numerator * (unit // cost.denominator) for pair, cost in costs.items()}


def why_unmated(
    unmated: list[str], coefficients: Mapping[Pair, Fraction], allowed: Mapping[Pair, Fraction]
) -> dict[str, Unmated]:
    with_any, with_allowed = ({dam for dam, _ in pairs} for pairs in (coefficients, allowed))
    return {
        dam: Unmated.NO_ROOM if dam in with_allowed else Unmated.ABOVE if dam in with_any else Unmated.REFUSED
        for dam in unmated
    }
