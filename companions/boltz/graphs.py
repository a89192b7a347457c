"""Objects as graphs: on their atoms alone, or as the tree of their parts."""
from __future__ import annotations

from dataclasses import dataclass, field
from typing import Iterator

from boltz.objects import Tree


@dataclass
class Vertex:
    """A vertex: its part, the vertex above it (None for a root) and those below it."""

    number: int
    tree: Tree
    parent: int | None
    children: list[int] = field(default_factory=list)

    @property
    def name(self) -> str:
        """A label where there is one, else a leaf's word; empty for what is no leaf."""
        tree = self.tree
        if tree.kind not in "EZ":
            return ""
        if tree.label is None:
            return tree.word
        return "%s#%d" % (tree.word, tree.label) if tree.node.word else str(tree.label)


@dataclass
class Graph:
    """A forest of vertices, and rings: lists of vertices that a cycle of the object joins."""

    vertices: list[Vertex] = field(default_factory=list)
    rings: list[list[int]] = field(default_factory=list)

    def add(self, tree: Tree, parent: int | None) -> int:
        """A new vertex below `parent`."""
        number = len(self.vertices)
        self.vertices.append(Vertex(number, tree, parent))
        if parent is not None:
            self.vertices[parent].children.append(number)
        return number

    def roots(self) -> list[Vertex]:
        """The vertices with nothing above them."""
        return [vertex for vertex in self.vertices if vertex.parent is None]

    def edges(self) -> Iterator[tuple[int, int]]:
        """From each vertex to those below it, then round each ring; a ring of one gives a loop."""
        for vertex in self.vertices:
            for child in vertex.children:
                yield vertex.number, child
        for ring in self.rings:
            yield from zip(ring, ring[1:] + ring[:1])


def front(tree: Tree) -> Tree:
    """What is left of a tree when the unions above it are passed."""
    while tree.kind == "union":
        tree = tree.parts[0]
    return tree


def head_of(tree: Tree) -> int | None:
    """The place of the first part of a product that is an atom."""
    for place, part in enumerate(tree.parts):
        if front(part).kind == "Z":
            return place
    return None


@dataclass
class Slot:
    """A part of a ring that has no vertex yet; `outer` is the slot that the ring itself fills."""

    ring: list[int]
    outer: Slot | None
    filled: bool = False

    def fill(self, vertex: int) -> None:
        """The first vertex of the part joins the ring, and the rings round it."""
        slot: Slot | None = self
        while slot is not None and not slot.filled:
            slot.ring.append(vertex)
            slot.filled = True
            slot = slot.outer


def atom_graph(tree: Tree) -> Graph:
    """The graph on the atoms.

    In a product with an atom, the first atom is the parent of the roots of the other parts. So a
    product of an atom and a set of trees is a rooted tree. The parts of a cycle that lies below
    no atom are joined in a ring by their first roots, so a set of cycles of atoms is the graph of a
    permutation.
    """
    graph = Graph()
    stack: list[tuple[Tree, int | None, Slot | None]] = [(tree, None, None)]
    while stack:
        top, above, slot = stack.pop()
        below = front(top)
        parts = list(below.parts)
        place = head_of(below) if below.kind == "product" else None
        if below.kind == "Z" or place is not None:
            vertex = graph.add(below if place is None else front(parts.pop(place)), above)
            if above is None and slot is not None:
                slot.fill(vertex)
            above = vertex
        if below.kind == "Cyc" and above is None:
            ring: list[int] = []
            graph.rings.append(ring)
            stack.extend((part, None, Slot(ring, slot)) for part in reversed(parts))
        else:
            stack.extend((part, above, slot) for part in reversed(parts))
    return graph


def part_tree(tree: Tree) -> Graph:
    """The tree of the parts: a vertex for each leaf, product and collection.

    Unions give none. A product with an atom is the vertex of its first atom, and a collection that
    is the only other part of such a product gives none either: its parts are below the atom.
    """
    graph = Graph()
    stack: list[tuple[Tree, int | None]] = [(tree, None)]
    while stack:
        top, above = stack.pop()
        below = front(top)
        parts = list(below.parts)
        place = head_of(below) if below.kind == "product" else None
        if place is not None:
            above = graph.add(front(parts.pop(place)), above)
            if len(parts) == 1 and front(parts[0]).node.is_counted:
                parts = list(front(parts[0]).parts)
        else:
            above = graph.add(below, above)
        stack.extend((part, above) for part in reversed(parts))
    return graph
