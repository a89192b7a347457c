"""The law of sizes."""
import unittest
from math import factorial

from tests.support import program

from boltz.program import folder_with
from boltz.series import size_weights
from boltz.spec import read_spec


def counts(text: str, most: int) -> list[int]:
    """The numbers of objects of each size."""
    spec = read_spec(text)
    weights = size_weights(spec, 1.0, most)
    return [round(w * (factorial(n) if spec.labelled else 1)) for n, w in enumerate(weights)]


class SeriesTest(unittest.TestCase):
    def test_known_numbers(self):
        known = {
            "unlabelled\nB = E + Z*B*B\n": [1, 1, 2, 5, 14, 42, 132],  # Catalan
            "unlabelled\nT = Z*Seq(T)\n": [0, 1, 1, 2, 5, 14, 42],
            "unlabelled\nM = Z + Z*M + Z*M*M\n": [0, 1, 1, 2, 4, 9, 21],  # Motzkin
            "unlabelled\nC = Seq(Z*Seq(Z))\n": [1, 1, 2, 4, 8, 16, 32],
            "unlabelled\nC = Seq>=2(Z + Z)\n": [0, 0, 4, 8, 16, 32, 64],
            "unlabelled\nC = Seq<=2(E + Z)\n": [3, 3, 1, 0, 0, 0, 0],
            "unlabelled\nA = B*B\nB = C\nC = E + Z\n": [1, 2, 1, 0, 0, 0, 0],
            "labelled\nT = Z*Set(T)\n": [0, 1, 2, 9, 64, 625, 7776],  # Cayley
            "labelled\nP = Set(Cyc(Z))\n": [1, 1, 2, 6, 24, 120, 720],
            "labelled\nP = Set(B)\nB = Set>=1(Z)\n": [1, 1, 2, 5, 15, 52, 203],  # Bell
            "labelled\nS = Seq(Set>=1(Z))\n": [1, 1, 3, 13, 75, 541, 4683],  # Fubini
            "labelled\nD = Set(Cyc>=2(Z))\n": [1, 0, 1, 2, 9, 44, 265],  # derangements
            "labelled\nI = Set(Cyc<=2(Z))\n": [1, 1, 2, 4, 10, 26, 76],  # involutions
            "labelled\nF = Set(Cyc(T))\nT = Z*Set(T)\n": [1, 1, 4, 27, 256, 3125, 46656],
            "labelled\nH = Z + Set>=2(H)\n": [0, 1, 1, 4, 26, 236, 2752],  # Schroeder's fourth
            "labelled\nH = Z + Set>=3(H) + Cyc>=3(H)\n": [0, 1, 0, 3, 7, 115, 856],
            "unlabelled\nA = Z + Seq>=2(A)\n": [0, 1, 1, 3, 11, 45, 197],  # Schroeder
            "labelled\nG = Set=2(Z)*Cyc=3(Z)\n": [0, 0, 0, 0, 0, 20, 0],
        }
        for text, wanted in known.items():
            self.assertEqual(counts(text, 6), wanted, text)

    def test_the_program_counts_alike(self):
        text = "unlabelled\nA = B*Seq(Z*A) + Z\nB = E + A*Z + Z*Z*B\n"
        with folder_with(s=text) as folder:
            ran = program().run("count", "s", "12", folder=folder)
        wanted = [int(line.split()[2]) for line in ran.needed().lines if line.startswith("size ")]
        self.assertEqual(counts(text, 12), wanted)


if __name__ == "__main__":
    unittest.main()
