"""Finds an x at which the sizes are as wanted, and what a run there will cost."""
from __future__ import annotations

from dataclasses import dataclass
from fractions import Fraction
from math import exp, inf, log
from typing import Callable

from boltz.costs import Costs, costs
from boltz.oracle import MOST, Interval, Means, Oracle, Values, dyadic, nearest, x_text
from boltz.program import Program
from boltz.series import size_weights
from boltz.tables import Spec

QUICK = (24, 20, 16, 12, 8)  # steps of secants while searching
FULL = (8, 12, 16, 20, 22, 24, 26, 28, 30)  # and for the answer
MOST_LAW = 4000  # the greatest size up to which the law is computed
LEAST = Fraction(1, 2**19)


class NoX(RuntimeError):
    """No x gives what is wanted; the message says what is nearest."""


@dataclass(frozen=True)
class Tuned:
    """An x with its mean size, and what is known of a run there.

    `accepted` is the share of attempts whose size is in the window, None where it wasn't computed.
    `effort` is the share of an attempt's visits that are made, since attempts above the window are
    given up.
    """

    x: Fraction
    mean: Interval
    wanted: float
    window: tuple[int, int]
    accepted: float | None
    effort: float
    values: Values
    costs: Costs
    pointed: bool
    calls: int


class Law:
    """The weights of all sizes up to a greatest one, at any x, from those at one x."""

    def __init__(self, spec: Spec, x: Fraction, most: int):
        self.x = x
        weights = size_weights(spec, float(x), most)
        self.logs = [log(weight) if weight > 0 else -inf for weight in weights]

    def window(self, x: Fraction, low: int, high: int) -> tuple[float, float]:
        """The total weight of the sizes of a window at x, and their mean; else 0 and 0."""
        shift = log(x / self.x)
        sizes = range(low, min(high, len(self.logs) - 1) + 1)
        known = [(n, self.logs[n] + n * shift) for n in sizes if self.logs[n] > -inf]
        if not known:
            return 0.0, 0.0
        greatest = max(weight for _, weight in known)
        shares = [(n, exp(weight - greatest)) for n, weight in known]
        total = sum(share for _, share in shares)
        return exp(greatest) * total, sum(n * share for n, share in shares) / total


class Tuner:
    """The search for one specification."""

    def __init__(self, program: Program, spec: Spec, fraction: int = 48, only_dyadic: bool = False):
        self.spec, self.only_dyadic = spec, only_dyadic
        self.oracle = Oracle(program, spec, fraction)
        self.means = Means(self.oracle)

    def limit(self) -> tuple[Fraction, Fraction]:
        """An x with upper values and a greater one without, apart by at most a hundredth."""
        low = high = Fraction(1, 2)
        while high < MOST / 2 and self.oracle.at(high):
            low, high = high, high * 2
        while not self.oracle.at(low):
            low, high = low / 2, low
            if low < LEAST:
                raise NoX("no x of at least %s has upper values" % x_text(LEAST))
        while high - low > low / 128:
            middle = dyadic((low + high) / 2)
            if middle in (low, high):
                break
            low, high = (middle, high) if self.oracle.at(middle) else (low, middle)
        return low, high

    def search(
        self, goal: Callable[[Fraction], float], limit: Fraction, tolerance: float
    ) -> Fraction:
        """The x whose mean is nearest to the goal there: by halving, dyadic while that goes."""
        low, high, best, found = Fraction(0), limit, None, 0.0
        for _ in range(60):
            middle = dyadic((low + high) / 2)
            if middle <= low and not self.only_dyadic:
                middle = nearest((low + high) / 2)
            if not low < middle < high:
                break
            values = self.oracle.at(middle)
            if values is None or values.is_coarse:
                low, high = (low, middle) if values is None else (middle, high)
                continue
            mean, wanted = self.means.near(middle, QUICK, tolerance), goal(middle)
            if best is None or abs(mean - wanted) < abs(found - goal(best)):
                best, found = middle, mean
            if abs(mean - wanted) <= tolerance * wanted:
                break
            low, high = (middle, high) if mean < wanted else (low, middle)
        if best is None:
            raise NoX("no x below %s has upper values" % x_text(limit))
        return best

    def mean(self, wanted: float, tolerance: float = 0.005) -> Tuned:
        """An x with this mean size, and the window of all sizes."""
        _, high = self.limit()
        x = self.search(lambda _: wanted, high, tolerance)
        tuned = self.tuned(x, wanted, (0, 1_000_000), 1.0, 1.0)
        if abs(tuned.mean.middle - wanted) > 4 * tolerance * wanted and not self.only_dyadic:
            raise NoX(
                "no x has mean size %g: the nearest found is %.4g at %s%s"
                % (wanted, tuned.mean.middle, x_text(x), self.near_ceiling(tuned.values))
            )
        return tuned

    def near_ceiling(self, values: Values) -> str:
        """A hint where generating functions are near the greatest number the program has."""
        ceiling = 2.0 ** (64 - self.oracle.fraction)
        if max(float(value.hi) for value in values.classes) < ceiling / 2:
            return ""
        return (
            "; generating functions are near the ceiling of %d there: fewer fraction bits raise it"
            % ceiling
        )

    def window(self, low: int, high: int, tolerance: float = 0.005) -> Tuned:
        """An x at which as many attempts as may be have a size in the window.

        The share of such attempts grows with x while the mean of the sizes in the window is above
        that of all sizes.
        """
        near, limit = self.limit()
        if high > MOST_LAW:
            middle = (low + high) / 2
            return self.tuned(
                self.search(lambda _: middle, limit, tolerance), middle, (low, high), None, 1.0
            )
        law = Law(self.spec, near, high)
        if law.window(near, low, high)[0] == 0:
            raise NoX("no object has a size from %d to %d" % (low, high))
        x = self.search(lambda at: law.window(at, low, high)[1], limit, tolerance)
        inside, wanted = law.window(x, low, high)
        below, below_mean = law.window(x, 0, high)
        total = self.oracle.values(x).root.middle
        atoms = (below * below_mean + (total - below) * (high + 1)) / total
        effort = min(1.0, atoms / self.means.near(x, QUICK, tolerance))
        return self.tuned(x, wanted, (low, high), min(1.0, inside / total), effort)

    def tuned(
        self,
        x: Fraction,
        wanted: float,
        window: tuple[int, int],
        accepted: float | None,
        effort: float,
    ) -> Tuned:
        """All that is known at x."""
        values = self.oracle.values(x)
        mean = self.means.at(x, FULL)
        pointed = self.means.pointed is not None and self.means.pointed.at(x) is not None
        calls = self.oracle.calls + (self.means.pointed.calls if self.means.pointed else 0)
        return Tuned(
            x,
            mean,
            wanted,
            window,
            accepted,
            effort,
            values,
            costs(self.spec, values, self.oracle.fraction),
            pointed,
            calls,
        )
