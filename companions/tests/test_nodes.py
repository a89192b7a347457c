"""`boltz-tools nodes`."""
import subprocess
import sys
import unittest

from tests.support import TOOLS, program

from boltz.commands.nodes import explanation, table
from boltz.program import folder_with
from boltz.spec import read_spec


class NodesTest(unittest.TestCase):
    def test_a_part_of_size_0_is_explained_with_its_place(self):
        spec = read_spec("labelled\nP = Set(C)\nC = Z + Seq(E + Z)\n")
        text = explanation(spec, "refused spec zero part node 6")
        self.assertIn("line 3 column 9: Seq(E + Z) has any number of parts", text)
        self.assertIn("E + Z (node 5)", text)

    def test_a_loop_of_classes_is_shown_whole(self):
        spec = read_spec("unlabelled\nA = Z + B\nB = (E + Z)*C\nC = A + Z\n")
        self.assertIn("A -> B -> C -> A", explanation(spec, "refused spec zero loop A"))

    def test_a_class_without_objects(self):
        spec = read_spec("unlabelled\nA = Z + B\nB = Z*B\n")
        self.assertIn("line 3: every object of B", explanation(spec, "refused spec no object B"))

    def test_every_node_has_a_line(self):
        spec = read_spec("unlabelled\nB = E + Z*B*B\n")
        lines = table(spec, spec.nodes)
        self.assertEqual(len(lines), 7)
        self.assertEqual(lines[5].split(), ["4", "2", "9", "B", "product", "Z*B*B"])

    def test_a_fault_of_the_grammar_is_shown_in_its_line(self):
        with folder_with(s="unlabelled\nC = Z +\n") as folder:
            ran = subprocess.run(
                [sys.executable, TOOLS, "nodes", "s"], cwd=folder, stdout=subprocess.PIPE, text=True
            )
        self.assertEqual(ran.stdout, "refused spec syntax line 2 column 8\nC = Z +\n       ^\n")

    def test_the_command_tells_the_refusal_of_the_program(self):
        with folder_with(s="unlabelled\nC = Seq(E)\n") as folder:
            ran = subprocess.run(
                [sys.executable, TOOLS, "--program", program().path, "nodes", "s"],
                cwd=folder,
                stdout=subprocess.PIPE,
                text=True,
            )
        self.assertEqual(ran.returncode, 3)
        self.assertTrue(
            ran.stdout.startswith("refused spec zero part node 1\nline 2 column 5: Seq(E)"),
            ran.stdout,
        )


if __name__ == "__main__":
    unittest.main()
