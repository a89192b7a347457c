"""Counts over the objects of a run: sizes, bits, options, numbers of parts, leaves."""
from __future__ import annotations

from collections import Counter, defaultdict
from dataclasses import dataclass, field
from math import sqrt

from boltz.certificate import Entry
from boltz.objects import Tree
from boltz.tables import Spec


@dataclass
class Numbers:
    """How often each whole number came."""

    counts: Counter = field(default_factory=Counter)

    def add(self, value: int) -> None:
        """One more."""
        self.counts[value] += 1

    @property
    def total(self) -> int:
        """How many came."""
        return sum(self.counts.values())

    @property
    def mean(self) -> float:
        """The mean; not a number where none came."""
        total = self.total
        return (
            sum(value * count for value, count in self.counts.items()) / total
            if total
            else float("nan")
        )

    @property
    def deviation(self) -> float:
        """The standard deviation of the sample."""
        total, mean = self.total, self.mean
        if total < 2:
            return float("nan")
        return sqrt(
            sum(count * (value - mean) ** 2 for value, count in self.counts.items()) / (total - 1)
        )

    @property
    def error(self) -> float:
        """The standard error of the mean."""
        return self.deviation / sqrt(self.total) if self.total else float("nan")

    def quantile(self, share: float) -> int:
        """The least value with at least this share of all at or below it."""
        seen, total = 0, self.total
        for value in sorted(self.counts):
            seen += self.counts[value]
            if seen >= share * total:
                return value
        raise ValueError("no value came")

    def as_dict(self) -> dict:
        """For JSON."""
        if not self.counts:
            return {"total": 0}
        return {
            "total": self.total,
            "mean": self.mean,
            "deviation": self.deviation,
            "error": self.error,
            "least": min(self.counts),
            "median": self.quantile(0.5),
            "greatest": max(self.counts),
        }


@dataclass
class Summary:
    """What a run's objects have in them. `options` and `parts` are by the number of the node."""

    spec: Spec
    sizes: Numbers = field(default_factory=Numbers)
    bits: Numbers = field(default_factory=Numbers)
    options: dict[int, Counter] = field(default_factory=lambda: defaultdict(Counter))
    parts: dict[int, Numbers] = field(default_factory=lambda: defaultdict(Numbers))
    leaves: Counter = field(default_factory=Counter)

    def add(self, entry: Entry, tree: Tree) -> None:
        """One more object."""
        self.sizes.add(entry.size)
        self.bits.add(entry.bits())
        for part in tree.walk():
            if part.kind == "union":
                self.options[part.node.number][part.option] += 1
            elif part.node.is_counted:
                self.parts[part.node.number].add(len(part.parts))
            elif part.kind != "product":
                self.leaves[part.word] += 1
