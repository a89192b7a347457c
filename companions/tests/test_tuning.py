"""Tuning."""
import json
import os
import subprocess
import sys
import unittest
from decimal import Decimal, localcontext
from fractions import Fraction

from tests.support import TOOLS, program, takes

from boltz.certificate import Certificate
from boltz.costs import costs, solve
from boltz.oracle import Interval, Means, Oracle, Values, beside, dyadic, nearest
from boltz.program import Ran, folder_with
from boltz.spec import read_spec, read_spec_file
from boltz.summary import Numbers
from boltz.tuning import Law, NoX, Tuner

BINARY = "unlabelled\nB = E + Z*B*B\n"


class NoProgram:
    """A program that finds no pointed specification."""

    def run(self, *words: str) -> Ran:
        return Ran(words, 13, b"refused point zero\n")


class ExactTrees(Oracle):
    """The values of binary trees by their formula, to within 10^-12, with a base below 1/4."""

    def __init__(self):
        super().__init__(NoProgram(), read_spec(BINARY))

    def _ask(self, x: Fraction) -> Values | None:
        if x >= Fraction(1, 4):
            return None
        with localcontext() as context:
            context.prec = 50
            value = Decimal(x.numerator) / Decimal(x.denominator)
            root = (1 - (1 - 4 * value).sqrt()) / (2 * value)
            return Values(
                x, (Interval(root * (1 - Decimal("1e-12")), root * (1 + Decimal("1e-12"))),)
            )


def true_mean(x: Fraction) -> float:
    """x B'(x) / B(x) of binary trees."""
    root = (1 - 4 * float(x)) ** 0.5
    return 0.5 * (1 / root - 1)


class TuningTest(unittest.TestCase):
    def test_x_within_limits(self):
        self.assertEqual(dyadic(Fraction(1, 3)), Fraction(174762, 2**19))
        self.assertEqual(dyadic(Fraction(70_000, 3)), Fraction(23333 * 32 + 10, 32))
        self.assertLessEqual(nearest(Fraction(10**9 + 1, 10**7)).numerator, 1_000_000)

    def test_a_fraction_beside_another(self):
        for x in (Fraction(7, 8), Fraction(1), Fraction(64), Fraction(174763, 2**19)):
            below, above = beside(x, 30, -1), beside(x, 30, 1)
            self.assertTrue(below < x < above)
            self.assertLess(above - below, x / 10_000)
            self.assertLessEqual(
                max(above.numerator, above.denominator, below.denominator), 1_000_000
            )

    def test_secants_enclose_the_mean(self):
        means = Means(ExactTrees())
        for x in (Fraction(1, 8), Fraction(24, 100), Fraction(2499, 10000)):
            found = means.at(x, (8, 12, 16, 20, 24))
            self.assertLessEqual(float(found.lo), true_mean(x) * (1 + 1e-12))
            self.assertGreaterEqual(float(found.hi), true_mean(x) * (1 - 1e-12))
            self.assertLess(float(found.hi - found.lo), 0.01 * true_mean(x) + 0.001)

    def tuner(self, **words) -> Tuner:
        """A tuner over the formula."""
        tuner = Tuner(NoProgram(), read_spec(BINARY), **words)
        tuner.oracle = ExactTrees()
        tuner.means = Means(tuner.oracle)
        return tuner

    def test_a_wanted_mean_is_found(self):
        found = self.tuner().mean(50)
        self.assertAlmostEqual(true_mean(found.x), 50, delta=0.5)
        self.assertLess(found.x, Fraction(1, 4))

    def test_only_dyadic(self):
        found = self.tuner(only_dyadic=True).mean(50)
        self.assertEqual(2**19 % found.x.denominator, 0)
        self.assertAlmostEqual(true_mean(found.x), 50, delta=2)

    def test_a_window_gets_as_many_attempts_as_may_be(self):
        found = self.tuner().window(20, 40)
        law = Law(read_spec(BINARY), Fraction(24, 100), 40)

        def share(x: Fraction) -> float:
            return law.window(x, 20, 40)[0] / ((1 - (1 - 4 * float(x)) ** 0.5) / (2 * float(x)))

        best = max(share(Fraction(n, 100_000)) for n in range(24_000, 25_000))
        self.assertAlmostEqual(found.accepted, best, delta=0.002 * best)

    def test_a_size_that_no_object_has(self):
        with self.assertRaisesRegex(NoX, "no object has a size from 3 to 2"):
            self.tuner().window(3, 2)

    def test_an_x_at_which_values_are_below_one_unit(self):
        with folder_with(s="unlabelled\nA = Z*Z*Z*Z*Z*Seq(Z)\n") as folder:
            tuner = Tuner(program(), read_spec_file(os.path.join(folder, "s")))
        self.assertAlmostEqual(tuner.mean(5.01).mean.middle, 5.01, delta=0.03)

    def test_visits_of_binary_trees(self):
        x = Fraction(2499, 10_000)
        found = costs(read_spec(BINARY), ExactTrees().at(x), 48)
        size = true_mean(x)
        self.assertAlmostEqual(found.visits[1], size, places=6)
        self.assertAlmostEqual(found.turns, 3 + 7 * size, places=5)

    def test_visits_solve_a_linear_system(self):
        self.assertEqual(solve([[0.0, 2.0], [0.25, 0.0]]), [2.0, 4.0])

    @takes(20)
    def test_the_program_draws_what_is_tuned(self):
        for text in (BINARY, "labelled\nS = Seq(B)\nB = Set>=1(Z)\n"):
            with folder_with(s=text) as folder:
                ran = subprocess.run(
                    [
                        sys.executable,
                        TOOLS,
                        "--program",
                        program().path,
                        "tune",
                        "s",
                        "--mean",
                        "8",
                        "--count",
                        "400",
                        "--json",
                    ],
                    cwd=folder,
                    stdout=subprocess.PIPE,
                )
                found = json.loads(ran.stdout)
                drawn = program().run(*found["words"], folder=folder).needed()
            sizes = Numbers()
            for entry in Certificate(drawn.output.splitlines(keepends=True)):
                sizes.add(entry.size)
            lo, hi = found["mean"]
            self.assertLess(hi - lo, 0.1)
            self.assertTrue(
                lo - 4 * sizes.error <= sizes.mean <= hi + 4 * sizes.error,
                (found, sizes.mean, sizes.error),
            )


if __name__ == "__main__":
    unittest.main()
