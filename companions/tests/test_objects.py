"""The reader of objects."""
import io
import time
import unittest

from tests.support import program, stored, stored_draws, takes

from boltz.certificate import Certificate
from boltz.objects import NotObject, ObjectReader, read_object
from boltz.program import folder_with
from boltz.spec import read_spec

BINARY = read_spec("unlabelled\nB = E + Z*B*B\n")
SMALL = "1.(Z 0.E 1.(Z 0.E 0.E))"


class ObjectTest(unittest.TestCase):
    def test_stored_objects_read_and_print_back(self):
        for row in stored_draws():
            reader = ObjectReader(read_spec(stored(row, "s")))
            for entry in Certificate(io.BytesIO(stored(row))):
                tree = reader.read(entry.text)
                self.assertEqual((tree.text(), tree.size()), (entry.text, entry.size), row)

    def test_drawn_objects_read_and_print_back(self):
        specs = {
            "labelled\nP = Set(C)\nC = Cyc(Z:a + Z:ab)\n": "1/3",
            "labelled\nA = B*Seq<=2(B) + Set>=1(Z:7*Z)\nB = Set=2(Z) + E:none\n": "1/2",
            "unlabelled\nM = Z + Z*M + Z*M*M\n": "3/10",
            "unlabelled\nC = D\nD = Seq(Z*Seq((Z:x + Z:y) + Z:z))\n": "1/6",
        }
        for text, x in specs.items():
            with folder_with(s=text) as folder:
                ran = (
                    program()
                    .run("sample", "s", x, "--seed", "5", "--count", "40", folder=folder)
                    .needed()
                )
            reader = ObjectReader(read_spec(text))
            for entry in Certificate(io.BytesIO(ran.output)):
                tree = reader.read(entry.text)
                self.assertEqual((tree.text(), tree.size()), (entry.text, entry.size))

    def test_trees_name_classes_options_and_labels(self):
        tree = read_object(read_spec("labelled\nA = B\nB = Z*A + Z:end\n"), "0.(Z#2 1.end#1)")
        self.assertEqual((tree.names, tree.kind, tree.option), (("A", "B"), "union", 0))
        product = tree.parts[0]
        self.assertEqual((product.kind, product.names), ("product", ()))
        self.assertEqual(product.parts[1].names, ("A", "B"))
        self.assertEqual(
            [(leaf.word, leaf.label) for leaf in tree.leaves()], [("Z", 2), ("end", 1)]
        )

    def test_wrong_texts_are_refused_at_their_place(self):
        for text, place in (
            ("2.E", 0),
            ("0.", 2),
            ("0.E ", 3),
            ("1.(Z 0.E)", 8),
            ("1.(Z 0.E 0.E 0.E)", 12),
            ("1.(Z  0.E 0.E)", 5),
            ("00.E", 0),
            ("", 0),
            ("0.Ex", 3),
        ):
            with self.assertRaises(NotObject) as caught:
                read_object(BINARY, text)
            self.assertEqual(caught.exception.place, place, text)

    def test_numbers_of_parts_are_kept(self):
        spec = read_spec("labelled\nA = Set=2(Z)\n")
        self.assertEqual(read_object(spec, "{Z#1 Z#2}").size(), 2)
        for text in ("{}", "{Z#1}", "{Z#1 Z#2 Z#3}"):
            with self.assertRaises(NotObject):
                read_object(spec, text)

    def test_equal_texts_are_equal_trees(self):
        self.assertEqual(read_object(BINARY, SMALL), read_object(BINARY, SMALL))
        self.assertNotEqual(read_object(BINARY, SMALL), read_object(BINARY, "0.E"))

    @takes(15)
    def test_a_million_nodes_in_one_chain(self):
        depth = 200_000  # five nodes for each: union, product, atom, and an empty tree's two
        text = "1.(Z 0.E " * depth + "0.E" + ")" * depth
        begun = time.process_time()
        tree = read_object(BINARY, text)
        self.assertEqual(sum(1 for _ in tree.walk()), 5 * depth + 2)
        self.assertEqual(tree.text(), text)
        self.assertLess(time.process_time() - begun, 60)


if __name__ == "__main__":
    unittest.main()
