"""Graphs and formats."""
import io
import json
import os
import subprocess
import sys
import unittest

from tests.support import EXAMPLES, TOOLS, needs, stored

from boltz.formats import to_dot, to_edges, to_graph6, to_json, to_newick, to_sexp, to_word
from boltz.graphs import atom_graph, part_tree
from boltz.objects import read_object
from boltz.program import folder_with
from boltz.spec import read_spec, read_spec_file

BINARY = read_spec("unlabelled\nB = E + Z*B*B\n")
LEFT = read_object(BINARY, "1.(Z 1.(Z 0.E 0.E) 0.E)")
TREES = read_spec("labelled\nF = Set(Cyc(T))\nT = Z*Set(T)\n")
FUNCTION = read_object(TREES, "{<(Z#1 {(Z#5 {})}) (Z#3 {})> <(Z#2 {(Z#4 {})})>}")


class FormatTest(unittest.TestCase):
    def test_json_names_classes_and_options(self):
        value = json.loads(to_json(LEFT))
        self.assertEqual((value["class"], value["option"]), (["B"], 1))
        self.assertEqual(value["part"]["parts"][1]["part"]["parts"][0], {"atom": "Z"})

    def test_s_expressions(self):
        self.assertEqual(to_sexp(LEFT), "(B (1 (* Z (B (1 (* Z (B (0 E)) (B (0 E))))) (B (0 E)))))")
        self.assertEqual(to_sexp(FUNCTION).count("(T (* (Z "), 5)

    def test_words_by_a_table(self):
        spec = read_spec_file(os.path.join(EXAMPLES, "binary_words.boltz"))
        tree = read_object(spec, "[0.a 1.b 1.b]")
        self.assertEqual(to_word(tree, {}), "abb")
        self.assertEqual(to_word(tree, {"a": "0", "b": "1"}, " "), "0 1 1")
        self.assertEqual(to_word(LEFT, {"E": "."}), "ZZ...")

    def test_newick_is_the_tree_of_the_parts(self):
        phylogeny = read_spec("labelled\nH = Z + Set>=2(H)\n")
        self.assertEqual(
            to_newick(read_object(phylogeny, "1.{1.{0.Z#1 0.Z#3} 0.Z#2}")), "((1,3),2);"
        )
        self.assertEqual(to_newick(LEFT), "((E,E)Z,E)Z;")

    def test_a_function_is_its_graph(self):
        edges = to_edges(FUNCTION).split("; ")
        self.assertEqual(edges, ["1 5", "2 4", "1 3", "3 1", "2 2"])

    def test_an_atom_stands_above_the_roots_of_the_other_parts(self):
        graph = atom_graph(LEFT)
        self.assertEqual([vertex.parent for vertex in graph.vertices], [None, 0])
        self.assertEqual([vertex.parent for vertex in part_tree(LEFT).vertices], [None, 0, 1, 1, 0])

    def test_a_cycle_below_an_atom_is_no_ring(self):
        mobiles = read_spec("labelled\nM = Z + Z*Cyc(M)\n")
        graph = atom_graph(read_object(mobiles, "1.(Z#1 <0.Z#2 0.Z#3>)"))
        self.assertEqual((graph.rings, list(graph.edges())), ([], [(0, 1), (0, 2)]))

    def test_dot_has_each_edge_once(self):
        self.assertEqual(to_dot(FUNCTION, "atoms").count("->"), 5)
        self.assertEqual(to_dot(LEFT, "whole").count("->"), sum(1 for _ in LEFT.walk()) - 1)

    @needs("networkx")
    def test_graph6_reads_back_by_networkx(self):
        import networkx

        graph = networkx.from_graph6_bytes(to_graph6(FUNCTION).encode())
        self.assertEqual(sorted(map(sorted, graph.edges())), [[0, 2], [0, 4], [1, 3]])
        self.assertEqual(to_graph6(read_object(BINARY, "0.E")), "?")

    def test_a_deep_object_is_written_in_every_format(self):
        depth = 20_000
        tree = read_object(BINARY, "1.(Z 0.E " * depth + "0.E" + ")" * depth)
        for write in (to_json, to_sexp, to_newick, to_edges, to_dot, lambda t: to_word(t, {})):
            self.assertGreaterEqual(len(write(tree)), depth)


class ConvertTest(unittest.TestCase):
    def convert(self, row: str, *words: str) -> subprocess.CompletedProcess:
        """`boltz-tools convert` over a stored run, its certificate on standard input."""
        with folder_with(s=stored(row, "s")) as folder:
            return subprocess.run(
                [sys.executable, TOOLS, "convert", "s", *words],
                cwd=folder,
                input=stored(row),
                stdout=subprocess.PIPE,
                stderr=subprocess.PIPE,
            )

    def test_one_line_for_each_object(self):
        ran = self.convert("draw_set_of_cycles", "--to", "json")
        self.assertEqual(ran.returncode, 0, ran.stderr)
        for line in io.BytesIO(ran.stdout):
            self.assertIn("tree", json.loads(line))

    def test_another_ending_than_done_is_told(self):
        ran = self.convert("draw_undecided", "--to", "sexp")
        self.assertIn(b"ended by undecided after 0 objects", ran.stderr)

    def test_another_specification_is_refused(self):
        with folder_with(s=b"labelled\nA = Z\n") as folder:
            ran = subprocess.run(
                [sys.executable, TOOLS, "convert", "s", "--to", "json"],
                cwd=folder,
                input=stored("draw_set_of_cycles"),
                stdout=subprocess.PIPE,
                stderr=subprocess.PIPE,
            )
        self.assertEqual((ran.returncode, ran.stdout), (1, b""))
        self.assertIn(b"another specification", ran.stderr)


if __name__ == "__main__":
    unittest.main()
