"""The law of sizes: the weights of the objects of each size, as floating-point numbers.

An object of size n has weight x^n, in labelled mode x^n / n!. These numbers are estimates, to be
set beside what the program draws; nothing here is an enclosure.
"""
from __future__ import annotations

from graphlib import CycleError, TopologicalSorter
from math import factorial
from operator import mul
from typing import Callable

from boltz.tables import Node, Spec

Series = list[float]
Step = Callable[[int], None]


def size_weights(spec: Spec, x: float, most: int) -> Series:
    """The total weight of the root's objects of each size from 0 to `most`."""
    weights = Weights(spec, x, most)
    steps = [weights.steps[number] for number in weights.order()]
    for size in range(most + 1):
        for step in steps:
            step(size)
    return weights.series[weights.at[spec.bodies[0]]]


class Weights:
    """A series for each node, and for some numbers between nodes; and the steps that find their
    entries.

    A step needs other entries of the same size only where what is beside them has an object of
    size 0. In a specification that is well founded the steps have an order in which each finds what
    it needs.
    """

    def __init__(self, spec: Spec, x: float, most: int):
        self.spec, self.x, self.most = spec, x, most
        self.series: list[Series] = []
        self.zero: list[bool] = []  # whether the entry for size 0 may be other than 0
        self.steps: dict[int, Step] = {}
        self.needs: dict[int, list[int]] = {}
        _, zero = spec.inhabited()
        for node in spec.nodes:
            self.empty(zero[node.number])
        self.at = [spec.resolve(node.number)[0].number for node in spec.nodes]
        for node in spec.nodes:
            if node.kind != "class":
                self.compile(node)

    def empty(self, zero: bool) -> int:
        """The number of a new series."""
        self.series.append([0.0] * (self.most + 1))
        self.zero.append(zero)
        return len(self.series) - 1

    def order(self) -> list[int]:
        """The series with steps, each after those whose entries of the same size it needs."""
        try:
            found = TopologicalSorter(self.needs).static_order()
            return [number for number in found if number in self.steps]
        except CycleError:
            raise ValueError("the specification isn't well founded") from None

    def add(self, out: int, needs: list[int], step: Step) -> int:
        """The step that finds the entries of a series; its number."""
        self.steps[out], self.needs[out] = step, needs
        return out

    def compile(self, node: Node) -> None:
        """Adds the steps of a node."""
        out, parts = node.number, [self.at[part] for part in node.parts]
        if node.kind in ("E", "Z"):
            size = int(node.kind == "Z")
            if size <= self.most:
                self.series[out][size] = self.x if size else 1.0
        elif node.kind == "union":
            self.sum(out, [(1.0, part) for part in parts])
        elif node.kind == "product":
            for part in parts[1:-1]:
                parts[0] = self.times(
                    parts[0], part, self.empty(self.zero[parts[0]] and self.zero[part])
                )
            self.times(parts[0], parts[-1], out)
        else:
            self.collect(node, parts[0], out)

    def sum(self, out: int, terms: list[tuple[float, int]]) -> int:
        """A sum of series, each with a factor."""
        target, chosen = self.series[out], [(factor, self.series[part]) for factor, part in terms]

        def step(n: int) -> None:
            target[n] = sum(factor * part[n] for factor, part in chosen)

        return self.add(out, [part for _, part in terms], step)

    def times(self, a: int, b: int, out: int) -> int:
        """A product of two series."""
        left, right, target = self.series[a], self.series[b], self.series[out]

        def step(n: int) -> None:
            target[n] = sum(map(mul, left[: n + 1], right[n::-1]))

        return self.add(out, [a] * self.zero[b] + [b] * self.zero[a], step)

    def collect(self, node: Node, part: int, out: int) -> None:
        """The collections of a node: a sum of powers, or all from the least number of parts on."""
        if node.high is not None:
            powers = self.powers(part, node.high)
            chosen = range(node.low, node.high + 1)
            self.sum(out, [(1.0 / divisor(node.kind, j), powers[j]) for j in chosen])
        elif node.kind == "Seq":
            self.sequences(part, node.low, out)
        elif node.kind == "Cyc":
            beside = self.sequences(part, node.low - 1, self.empty(node.low == 1))
            self.integral(self.slopes(part), beside, out)
        else:
            slopes, longer = self.slopes(part), out if node.low == 0 else self.empty(True)
            self.series[longer][0] = 1.0
            self.integral(slopes, longer, longer)
            for count in range(1, node.low + 1):
                target = out if count == node.low else self.empty(False)
                longer = self.integral(slopes, longer, target)

    def sequences(self, part: int, low: int, out: int) -> int:
        """The sequences of `low` parts or more: the power times 1 / (1 - part)."""
        every = self.empty(True)
        values, target = self.series[part], self.series[every]

        def step(n: int) -> None:
            target[n] = sum(map(mul, values[1 : n + 1], target[n - 1 :: -1])) if n else 1.0

        self.add(every, [part], step)
        return self.times(self.powers(part, low)[low], every, out)

    def slopes(self, part: int) -> int:
        """n times the entry for size n: x times the derivative."""
        out = self.empty(False)
        values, target = self.series[part], self.series[out]

        def step(n: int) -> None:
            target[n] = n * values[n]

        return self.add(out, [part], step)

    def integral(self, slopes: int, beside: int, out: int) -> int:
        """The series whose slopes are `slopes` times `beside`; its entry for size 0 stays.

        With `beside` the sets of one part less this gives the sets of at least as many parts; with
        the sequences of one part less, the cycles.
        """
        left, right, target = self.series[slopes], self.series[beside], self.series[out]

        def step(n: int) -> None:
            if n:
                target[n] = sum(map(mul, left[1 : n + 1], right[n - 1 :: -1])) / n

        return self.add(out, [slopes] * self.zero[beside], step)

    def powers(self, part: int, highest: int) -> list[int]:
        """The powers 0 to `highest` of a series."""
        one = self.empty(True)
        self.series[one][0] = 1.0
        powers = [one]
        for _ in range(highest):
            powers.append(
                self.times(powers[-1], part, self.empty(self.zero[powers[-1]] and self.zero[part]))
            )
        return powers


def divisor(kind: str, count: int) -> int:
    """By how much a tuple of `count` parts counts less than 1 in a collection of this kind."""
    if kind == "Seq":
        return 1
    return factorial(count) if kind == "Set" else max(count, 1)
