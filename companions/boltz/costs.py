"""What a run will cost: visits of nodes, turns, and how often a number stays undecided.

These are estimates in floating point from the program's bounds of the generating functions.
"""
from __future__ import annotations

from dataclasses import dataclass
from decimal import Decimal, localcontext
from math import exp, lgamma, log
from typing import Sequence

from boltz.oracle import DIGITS, Values
from boltz.tables import Node, Spec

MOST_BITS = 60
MOST_OPTIONS = 100_000  # of a collection, when widths are summed


@dataclass(frozen=True)
class Costs:
    """Of an attempt that isn't given up: expected visits, turns, and numbers left undecided."""

    visits: dict[int, float]
    turns: float
    undecided: float


def node_values(spec: Spec, x: Decimal, classes: Sequence[Decimal]) -> list[Decimal]:
    """The value of each node, given those of the classes."""
    values: list[Decimal] = []
    with localcontext() as context:
        context.prec = DIGITS
        for node in spec.nodes:
            values.append(node_value(node, x, classes, values))
    return values


def node_value(
    node: Node, x: Decimal, classes: Sequence[Decimal], values: Sequence[Decimal]
) -> Decimal:
    """The value of a node, given those of its parts."""
    if node.kind in ("E", "Z"):
        return Decimal(1) if node.kind == "E" else x
    if node.kind == "class":
        return classes[node.target]
    parts = [values[part] for part in node.parts]
    if node.kind == "union":
        return sum(parts, Decimal(0))
    if node.kind == "product":
        result = Decimal(1)
        for part in parts:
            result *= part
        return result
    return collection_value(node.kind, parts[0], node.low, node.high)


def collection_value(kind: str, part: Decimal, low: int, high: int | None) -> Decimal:
    """The value of the collections of `low` to `high` parts."""
    if high is not None:
        return sum((term(kind, part, count) for count in range(low, high + 1)), Decimal(0))
    if kind == "Seq":
        return part**low / (1 - part) if low else 1 / (1 - part)
    every = part.exp() if kind == "Set" else -(1 - part).ln()
    return every - sum(
        (term(kind, part, count) for count in range(int(kind == "Cyc"), low)), Decimal(0)
    )


def term(kind: str, part: Decimal, count: int) -> Decimal:
    """The value of the collections of exactly `count` parts."""
    value = Decimal(1)
    for i in range(1, count + 1):
        value *= part
        if kind == "Set":
            value /= i
    return value / count if kind == "Cyc" else value


def part_weights(node: Node, part: float) -> list[tuple[int, float]]:
    """The numbers of parts of a collection and their weights, until these stop mattering."""
    weights, total = [], 0.0
    high = MOST_OPTIONS if node.high is None else node.high
    power = 0.0
    for count in range(node.low, high + 1):
        if part > 0:
            power = count * log(part) - (lgamma(count + 1) if node.kind == "Set" else 0.0)
        weight = (1.0 if count == 0 else 0.0) if part <= 0 else exp(power)
        weight = weight / count if node.kind == "Cyc" else weight
        weights.append((count, weight))
        total += weight
        if weight < total * 2.0**-MOST_BITS and count > part:
            break
    return weights


def expected_visits(spec: Spec, values: Sequence[float]) -> dict[int, float]:
    """How often each node is visited in an attempt."""
    rates = [references(spec, values, number) for number in range(len(spec.names))]
    entered = solve([rate[0] for rate in rates])
    visits: dict[int, float] = {}
    for number, (_, inside) in enumerate(rates):
        for node, rate in inside.items():
            visits[node] = rate * entered[number]
    return visits


def references(
    spec: Spec, values: Sequence[float], number: int
) -> tuple[list[float], dict[int, float]]:
    """In one visit of a class's body: how often each class is named, and each node is visited."""
    named = [0.0] * len(spec.names)
    inside: dict[int, float] = {}
    stack = [(spec.bodies[number], 1.0)]
    while stack:
        at, rate = stack.pop()
        inside[at] = rate
        node = spec.nodes[at]
        if node.kind == "class":
            named[node.target] += rate
        elif node.kind == "union":
            stack.extend((part, rate * values[part] / values[at]) for part in node.parts)
        elif node.kind == "product":
            stack.extend((part, rate) for part in node.parts)
        elif node.is_counted:
            weights = part_weights(node, values[node.parts[0]])
            total = sum(weight for _, weight in weights)
            mean = sum(count * weight for count, weight in weights) / total
            stack.append((node.parts[0], rate * mean))
    return named, inside


def solve(named: list[list[float]]) -> list[float]:
    """How often each class is entered: 1 for the root, and for each naming of it."""
    size = len(named)
    rows = [
        [float(i == j) - named[j][i] for j in range(size)] + [float(i == 0)] for i in range(size)
    ]
    for i in range(size):
        best = max(range(i, size), key=lambda r: abs(rows[r][i]))
        rows[i], rows[best] = rows[best], rows[i]
        for r in range(size):
            if r != i and rows[r][i]:
                factor = rows[r][i] / rows[i][i]
                rows[r] = [a - factor * b for a, b in zip(rows[r], rows[i])]
    return [rows[i][size] / rows[i][i] for i in range(size)]


def option_weights(node: Node, values: Sequence[Decimal]) -> list[float]:
    """The weights of a node's options, in order."""
    if node.kind == "union":
        return [float(values[part]) for part in node.parts]
    return [weight for _, weight in part_weights(node, float(values[node.parts[0]]))]


def undecided_share(node: Node, lo: Sequence[Decimal], hi: Sequence[Decimal], unit: float) -> float:
    """The share of the numbers at a union or collection that 60 bits leave undecided.

    A threshold between two options leaves the stretch open in which the bounds of level 6 allow it,
    and two of the narrowest cells. Stretches of options that are narrower than they are taken once.
    """
    least, most = float(lo[node.number]), float(hi[node.number])
    if least == 0:
        return 1.0
    low = high = share = 0.0
    pairs = list(zip(option_weights(node, lo), option_weights(node, hi)))
    for under, over in pairs[:-1] if node.kind == "union" else pairs:
        low, high = low + under, high + over + unit
        width = min(1.0, high / least) - min(1.0, low / most) + 2.0 ** (1 - MOST_BITS)
        share += min(width, over / least + 2.0 ** (1 - MOST_BITS))
    return min(1.0, share)


def costs(spec: Spec, values: Values, fraction: int) -> Costs:
    """The costs of an attempt at the x of the values."""
    x = Decimal(values.x.numerator) / Decimal(values.x.denominator)
    lo = node_values(spec, x, [value.lo for value in values.classes])
    hi = node_values(spec, x, [value.hi for value in values.classes])
    visits = expected_visits(spec, [float(value) for value in hi])
    unit = 2.0**-fraction
    choices = [node for node in spec.nodes if node.kind == "union" or node.is_counted]
    undecided = sum(visits[node.number] * undecided_share(node, lo, hi, unit) for node in choices)
    return Costs(visits, 1 + spec.labelled + sum(visits.values()), undecided)
