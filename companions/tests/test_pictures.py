"""Summaries and pictures."""
import json
import os
import shutil
import subprocess
import sys
import unittest

from tests.support import TOOLS, needs, stored

from boltz.program import folder_with

ROW = "draw_labelled_tree"


def tools(folder: str, *words: str) -> subprocess.CompletedProcess:
    """A command over the files `s` and `c` of a folder."""
    return subprocess.run(
        [sys.executable, TOOLS, *words],
        cwd=folder,
        stdout=subprocess.PIPE,
        stderr=subprocess.PIPE,
        text=True,
    )


def draws() -> bool:
    """Whether graphviz is there and set up: while it is being installed it has no formats yet."""
    if not shutil.which("dot"):
        return False
    for form in ("svg", "png"):
        ran = subprocess.run(["dot", "-T" + form], input=b"digraph {}", capture_output=True)
        if ran.returncode:
            return False
    return True


class PictureTest(unittest.TestCase):
    def folder(self, row: str = ROW):
        """A stored run as files."""
        return folder_with(s=stored(row, "s"), c=stored(row))

    def test_stats_count_the_atoms(self):
        with self.folder() as folder:
            value = json.loads(tools(folder, "stats", "s", "c", "--json").stdout)
            text = tools(folder, "stats", "s", "c").stdout
        self.assertEqual(value["closing"]["kept"], value["sizes"]["total"])
        self.assertEqual(
            value["leaves"]["Z"],
            sum(int(size) * count for size, count in value["size_counts"].items()),
        )
        self.assertTrue(text.startswith("ended by done: 1 kept, 0 rejected"), text)

    def test_an_object_that_is_not_there(self):
        with self.folder() as folder:
            ran = tools(folder, "picture", "object", "s", "c", "--number", "9", "-o", "p.svg")
        self.assertEqual(
            (ran.returncode, ran.stderr), (1, "boltz-tools: the certificate has no object 9\n")
        )

    @unittest.skipUnless(draws(), "not installed: graphviz")
    def test_objects_are_drawn(self):
        with self.folder() as folder:
            for form in ("parts", "atoms", "whole"):
                for name, begin in (("p.svg", b"<?xml"), ("p.png", b"\x89PNG")):
                    ran = tools(folder, "picture", "object", "s", "c", "--form", form, "-o", name)
                    self.assertEqual(ran.returncode, 0, ran.stderr)
                    with open(os.path.join(folder, name), "rb") as file:
                        self.assertEqual(file.read(len(begin)), begin)

    @needs("matplotlib")
    def test_counts_are_plotted(self):
        for row, words in (
            ("draw_labelled_tree", ("sizes", "--law", "20")),
            ("draw_binary_tree", ("options",)),
            ("draw_set_of_cycles", ("cycles",)),
        ):
            with self.folder(row) as folder:
                ran = tools(folder, "picture", words[0], "s", "c", *words[1:], "-o", "p.png")
                self.assertEqual(ran.returncode, 0, ran.stderr)
                self.assertGreater(os.path.getsize(os.path.join(folder, "p.png")), 1000)


if __name__ == "__main__":
    unittest.main()
