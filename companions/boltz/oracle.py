"""Asks the program for bounds of generating functions, and encloses the mean size by them.

The values at x are the program's proved bounds of level 6. What is computed from them here, by
exact fractions and by logarithms of 50 digits with a margin, isn't proved.
"""
from __future__ import annotations

import os
from dataclasses import dataclass
from decimal import Decimal, localcontext
from fractions import Fraction
from typing import Iterable

from boltz.program import Program, ProgramError, folder_with
from boltz.spec import Spec, read_spec

MOST = 1_000_000  # the greatest numerator and denominator of x
DIGITS = 50
MARGIN = Decimal(10) ** (5 - DIGITS)


@dataclass(frozen=True)
class Interval:
    """Numbers between two ends; `hi` may be infinite."""

    lo: Decimal
    hi: Decimal

    @property
    def middle(self) -> float:
        """Half-way between the ends; the lower end where the upper one is infinite."""
        return float(self.lo) if self.hi.is_infinite() else float((self.lo + self.hi) / 2)

    def meet(self, other: Interval) -> Interval:
        """The numbers in both."""
        return Interval(max(self.lo, other.lo), min(self.hi, other.hi))


ANY = Interval(Decimal(0), Decimal("Infinity"))


@dataclass(frozen=True)
class Values:
    """Bounds of the generating functions at x, in the order of the classes."""

    x: Fraction
    classes: tuple[Interval, ...]

    @property
    def root(self) -> Interval:
        """The bounds of class 0."""
        return self.classes[0]

    @property
    def is_coarse(self) -> bool:
        """Whether x is so small that the root's value is below one unit, and bounds no quotient."""
        return self.root.lo == 0


def x_text(x: Fraction) -> str:
    """x as the program reads it."""
    return "%d/%d" % (x.numerator, x.denominator)


def dyadic(x: Fraction) -> Fraction:
    """x rounded down to the finest power of two as denominator that the limits of x allow."""
    bits = 19
    while bits and x * 2**bits >= MOST:
        bits -= 1
    return Fraction(int(x * 2**bits), 2**bits)


def nearest(x: Fraction) -> Fraction:
    """The fraction nearest to x within the limits of x."""
    return x.limit_denominator(MOST) if x < 1 else 1 / (1 / x).limit_denominator(MOST)


def beside(x: Fraction, step: int, sign: int) -> Fraction:
    """A fraction near x (1 + sign 2^-step), farther off where the nearest one is x itself."""
    for wider in range(step, 0, -1):
        found = nearest(x * (1 + Fraction(sign, 2**wider)))
        if found != x:
            return found
    raise ValueError("no fraction beside %s" % x_text(x))


class Oracle:
    """The values of one specification at any x, each asked for once."""

    def __init__(self, program: Program, spec: Spec, fraction: int = 48):
        self.program, self.spec, self.fraction = program, spec, fraction
        self.known: dict[Fraction, Values | None] = {}
        self.calls = 0

    def at(self, x: Fraction) -> Values | None:
        """The values at x; None where the program finds no upper values."""
        if x not in self.known:
            self.known[x] = self._ask(x)
        return self.known[x]

    def values(self, x: Fraction) -> Values:
        """The same, where there are upper values."""
        found = self.at(x)
        if found is None:
            raise ProgramError("no upper values at %s" % x_text(x))
        return found

    def _ask(self, x: Fraction) -> Values | None:
        """One call of `boltz oracle`."""
        self.calls += 1
        with folder_with(spec=self.spec.canonical()) as folder:
            ran = self.program.run(
                "oracle", os.path.join(folder, "spec"), x_text(x), "--fraction", str(self.fraction)
            ).needed(0, 4)
        if ran.status == 4:
            return None
        rows = [line.split() for line in ran.lines if line.startswith("level 6 ")]
        unit = Decimal(2) ** -self.fraction
        with localcontext() as context:
            context.prec = DIGITS
            return Values(
                x, tuple(Interval(int(lo) * unit, int(hi) * unit) for _, _, _, lo, hi in rows)
            )


def pointed(program: Program, spec: Spec) -> Spec | None:
    """The specification of the objects with one marked atom, None where there is none."""
    with folder_with(spec=spec.canonical()) as folder:
        ran = program.run("point", os.path.join(folder, "spec"))
    if ran.status == 13:
        return None
    lines = ran.needed().lines
    return read_spec("\n".join(lines[:-1]) + "\n")


class Means:
    """Encloses the mean size at x.

    Where there is a pointed specification with a base, by its value over the class's: an object of
    size n has n marked forms. Always by secants: ln C(x) is convex in ln x, and its slope there is
    the mean, so the slope to a lesser x is at most the mean and that to a greater x at least.
    """

    def __init__(self, oracle: Oracle):
        self.oracle = oracle
        form = pointed(oracle.program, oracle.spec)
        self.pointed = Oracle(oracle.program, form, oracle.fraction) if form else None

    def at(self, x: Fraction, steps: Iterable[int]) -> Interval:
        """The mean at x, by pointing and by secants to x (1 - 2^-s) and x (1 + 2^-s)."""
        values = self.oracle.values(x)
        mean = self.by_pointing(values)
        for step in steps:
            mean = mean.meet(self.by_secants(values, step))
        return mean

    def near(self, x: Fraction, steps: Iterable[int], share: float) -> float:
        """The mean at x, by one step after another until the ends differ by this share."""
        mean = self.by_pointing(self.oracle.values(x))
        for step in steps:
            if mean.hi - mean.lo <= share * mean.middle:
                break
            mean = mean.meet(self.by_secants(self.oracle.values(x), step))
        return mean.middle

    def by_pointing(self, values: Values) -> Interval:
        """The quotient; any number where there is none."""
        marked = self.pointed.at(values.x) if self.pointed else None
        if marked is None:
            return ANY
        root = values.root
        with localcontext() as context:
            context.prec = DIGITS
            return widened(marked.root.lo / root.hi, marked.root.hi / root.lo)

    def by_secants(self, values: Values, step: int) -> Interval:
        """The slopes of two secants."""
        below = self.oracle.at(beside(values.x, step, -1))
        above = self.oracle.at(beside(values.x, step, 1))
        lo = slope(below, values, down=True) if below and not below.is_coarse else ANY.lo
        hi = slope(values, above, down=False) if above else ANY.hi
        return Interval(max(lo, ANY.lo), hi)


def slope(left: Values, right: Values, down: bool) -> Decimal:
    """A bound of the slope of ln C over ln x between two x, from below or from above."""
    with localcontext() as context:
        context.prec = 2 * DIGITS
        width = logarithm(right.x / left.x)
        rise = (right.root.lo / left.root.hi if down else right.root.hi / left.root.lo).ln()
        ends = widened(rise / width, rise / width)
        return ends.lo if down else ends.hi


def logarithm(x: Fraction) -> Decimal:
    """ln x, with enough digits that some are left where x is near 1."""
    with localcontext() as context:
        context.prec = 2 * DIGITS
        return (Decimal(x.numerator) / Decimal(x.denominator)).ln()


def widened(lo: Decimal, hi: Decimal) -> Interval:
    """The interval with a margin for the rounding of a few operations."""
    return Interval(lo - abs(lo) * MARGIN, hi + abs(hi) * MARGIN)
