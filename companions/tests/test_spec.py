"""The reader of specifications."""
import os
import unittest

from tests.support import EXAMPLES, ROWS, program, stored

from boltz.program import folder_with
from boltz.spec import SpecRefused, read_spec, read_spec_file

FOUNDEDNESS = ("no object", "zero part", "zero loop")


def answer(text: bytes) -> str:
    """What `boltz spec` should write, as far as this reader knows."""
    try:
        spec = read_spec(text)
    except SpecRefused as refused:
        return "refused spec %s\n" % refused
    return spec.canonical() + "end done classes %d nodes %d\n" % (len(spec.names), len(spec.nodes))


class SpecTest(unittest.TestCase):
    def test_stored_runs_are_answered_alike(self):
        compared = 0
        for row in sorted(os.listdir(ROWS)):
            if stored(row, "args") != b"spec\ns\n" or not os.path.exists(
                os.path.join(ROWS, row, "s")
            ):
                continue
            wanted = stored(row).decode()
            if not any(wanted.startswith("refused spec " + cause) for cause in FOUNDEDNESS):
                self.assertEqual(answer(stored(row, "s")), wanted, row)
                compared += 1
        self.assertGreater(compared, 15)

    def test_digests_are_those_of_headers(self):
        for row in ("draw_labelled_tree", "draw_set_of_cycles", "draw_sequence"):
            line = "spec %s\n" % read_spec(stored(row, "s")).digest()
            self.assertIn(line, stored(row).decode(), row)

    def test_nodes_are_numbered_after_their_parts_and_have_places(self):
        spec = read_spec("# trees\nunlabelled\nB = E + Z*B*B\n")
        self.assertEqual(
            [node.kind for node in spec.nodes], ["E", "Z", "class", "class", "product", "union"]
        )
        self.assertEqual(
            [(node.line, node.column) for node in spec.nodes],
            [(3, 5), (3, 9), (3, 11), (3, 13), (3, 9), (3, 5)],
        )
        self.assertEqual(spec.snippet(spec.nodes[4]), "Z*B*B")

    def test_parentheses_belong_to_the_text_of_a_product(self):
        spec = read_spec("unlabelled\nA = (E + Z)*(Z)\n")
        self.assertEqual(spec.snippet(spec.body()), "(E + Z)*(Z)")
        self.assertEqual(spec.snippet(spec.nodes[spec.body().parts[0]]), "E + Z")

    def test_bounds(self):
        spec = read_spec("labelled\nA = Seq>=2(Z) + Cyc<=1(Z) + Set=3(Z) + Cyc>=1(Z)\n")
        ranges = [(node.low, node.high) for node in spec.nodes if node.is_counted]
        self.assertEqual(ranges, [(2, None), (1, 1), (3, 3), (1, None)])
        self.assertIn("Seq>=2(Z) + Cyc=1(Z) + Set=3(Z) + Cyc(Z)", spec.canonical())

    def test_thousands_of_parentheses_are_read(self):
        spec = read_spec("unlabelled\nA = %sZ%s\n" % ("(" * 30000, ")" * 30000))
        self.assertEqual(spec.canonical(), "unlabelled\nA = Z\n")

    def test_canonical_text_reads_back(self):
        for name in os.listdir(EXAMPLES):
            if not name.endswith(".boltz"):
                continue
            spec = read_spec_file(os.path.join(EXAMPLES, name))
            self.assertEqual(read_spec(spec.canonical()).canonical(), spec.canonical())

    def test_the_program_answers_alike(self):
        texts = [
            "unlabelled\nC = Z*D\n",
            "unlabelled\nC = Z +\n",
            "labelled\nC = Set<=0(Z)\n",
            "unlabelled\nC = Z\nC = E:\n",
            "labelled\nC = Z:1*Cyc=2(E + Z)",
            "unlabelled\nE = Z\n",
        ]
        for text in texts:
            with folder_with(s=text) as folder:
                ran = program().run("spec", "s", folder=folder)
            self.assertEqual(answer(text.encode()), ran.output.decode(), text)


if __name__ == "__main__":
    unittest.main()
