"""The Hypothesis strategy and the pytest plug-in."""
import glob
import os
import subprocess
import sys
import tempfile
import unittest

from tests.support import ROOT, needs, program, takes

from boltz.objects import Tree

BINARY = "unlabelled\nB = E + Z*B*B\n"
TURNED = "unlabelled\nB = Z*B*B + E\n"
EXAMPLE = os.path.join(ROOT, "companions", "examples", "test_parser.py")


def left_depth(tree: Tree) -> int:
    """How many nodes hang to the left of each other from the root on."""
    depth = 0
    while tree.parts[0].kind == "product":
        tree = tree.parts[0].parts[1]
        depth += 1
    return depth


def leans(tree: Tree, depth: int) -> bool:
    """Whether some subtree leans to the left so deep."""
    return any(left_depth(part) >= depth for part in tree.walk() if part.kind == "union")


@needs("hypothesis")
class StrategyTest(unittest.TestCase):
    def least(self, text: str, fault) -> Tree:
        """What Hypothesis shrinks to."""
        from hypothesis import find, settings
        from boltz.hypothesis import objects

        path = program().path
        return find(
            objects(text, "24/100", program=path),
            fault,
            settings=settings(max_examples=1000, database=None, deadline=None, derandomize=True),
        )

    @takes(20)
    def test_a_left_leaning_tree_shrinks_to_the_least_one(self):
        self.assertEqual(
            self.least(BINARY, lambda tree: leans(tree, 3)).text(),
            "1.(Z 1.(Z 1.(Z 0.E 0.E) 0.E) 0.E)",
        )

    @takes(20)
    def test_the_least_object_may_be_the_last_option(self):
        self.assertEqual(
            self.least(TURNED, lambda tree: leans(tree, 2)).text(), "0.(Z 0.(Z 1.E 1.E) 1.E)"
        )

    @takes(20)
    def test_a_least_size_is_kept(self):
        from hypothesis import find, settings
        from boltz.hypothesis import objects

        strategy = objects(BINARY, "24/100", min_size=4, program=program().path)
        tree = find(
            strategy,
            lambda tree: True,
            settings=settings(max_examples=200, database=None, deadline=None, derandomize=True),
        )
        self.assertEqual(tree.size(), 4)


@needs("hypothesis", "pytest")
class PluginTest(unittest.TestCase):
    @takes(20)
    def test_the_certificate_of_a_failing_example_is_saved(self):
        path = program().path
        with tempfile.TemporaryDirectory() as folder:
            ran = subprocess.run(
                [
                    sys.executable,
                    "-m",
                    "pytest",
                    "-q",
                    "-p",
                    "boltz.pytest_plugin",
                    "-p",
                    "no:cacheprovider",
                    "--rootdir",
                    os.path.dirname(EXAMPLE),
                    "--boltz-failures",
                    folder,
                    EXAMPLE,
                ],
                env={**os.environ, "BOLTZ": path, "PYTHONPATH": os.path.join(ROOT, "companions")},
                cwd=folder,
                stdout=subprocess.PIPE,
                text=True,
            )
            self.assertEqual(ran.returncode, 1, ran.stdout)
            self.assertIn("AssertionError: 1-1-1\n", ran.stdout)
            (place,) = glob.glob(os.path.join(folder, "*", "1"))
            with open(os.path.join(place, "certificate")) as file:
                self.assertIn("text 1.(1.(0.0.1 minus 0.1) minus 0.1)\n", file.read())
            ran = program().run("verify", "spec", "certificate", folder=place)
            self.assertEqual(ran.output, b"end valid entries 1\n")


if __name__ == "__main__":
    unittest.main()
