"""Objects in the formats of other programs. Nothing here recurses."""
from __future__ import annotations

import json
from typing import Iterator, Mapping

from boltz.graphs import Graph, Vertex, atom_graph, part_tree
from boltz.objects import Tree, joined, render

COLLECTIONS = {"product": "parts", "Seq": "seq", "Set": "set", "Cyc": "cycle"}
HEADS = {"product": "*", "Seq": "seq", "Set": "set", "Cyc": "cyc"}


def to_json(tree: Tree) -> str:
    """One JSON value.

    It has `class`, then `option` and `part` of a union, `parts` of a product, `seq`, `set` or
    `cycle` of a collection, `empty` or `atom` (and `label`) of a leaf.
    """
    return render(tree, _json_pieces)


def _json_pieces(tree: Tree) -> Iterator[Tree | str]:
    """What a JSON value is made of."""
    yield "{"
    if tree.names:
        yield '"class": %s, ' % json.dumps(list(tree.names))
    if tree.kind == "union":
        yield '"option": %s, "part": ' % tree.option
        yield tree.parts[0]
    elif tree.kind in COLLECTIONS:
        yield '"%s": [' % COLLECTIONS[tree.kind]
        yield from joined(tree.parts, ", ")
        yield "]"
    else:
        yield '"%s": %s' % ("empty" if tree.kind == "E" else "atom", json.dumps(tree.word))
        if tree.label is not None:
            yield ', "label": %d' % tree.label
    yield "}"


def to_sexp(tree: Tree) -> str:
    """An s-expression: `(B x)` round an object of class B, `(2 x)` for option 2 of a union, `(* x
    y)` for a product, `(seq ..)`, `(set ..)`, `(cyc ..)`, a leaf's word, `(Z 3)` for an atom with a
    label.
    """
    return render(tree, _sexp_pieces)


def _sexp_pieces(tree: Tree) -> Iterator[Tree | str]:
    """What an s-expression is made of."""
    for name in tree.names:
        yield "(%s " % name
    if tree.kind == "union":
        yield "(%s " % tree.option
        yield tree.parts[0]
        yield ")"
    elif tree.kind in HEADS:
        yield "(" + HEADS[tree.kind]
        for part in tree.parts:
            yield " "
            yield part
        yield ")"
    else:
        yield tree.word if tree.label is None else "(%s %d)" % (tree.word, tree.label)
    yield ")" * len(tree.names)


def to_word(tree: Tree, table: Mapping[str, str], separator: str = "") -> str:
    """The leaves' symbols from left to right.

    A leaf that the table doesn't name gives its word where it is an atom, and else nothing.
    """
    symbols = (
        table.get(leaf.word, leaf.word if leaf.kind == "Z" else "") for leaf in tree.leaves()
    )
    return separator.join(symbol for symbol in symbols if symbol)


def to_newick(tree: Tree) -> str:
    """The tree of the parts in Newick's format."""
    graph = part_tree(tree)

    def pieces(vertex: Vertex) -> Iterator[Vertex | str]:
        if vertex.children:
            yield "("
            yield from joined((graph.vertices[child] for child in vertex.children), ",")
            yield ")"
        yield newick_name(vertex.name)

    return render(graph.vertices[0], pieces) + ";"


def newick_name(name: str) -> str:
    """A name, in quotes where it has a character other than letters, digits and `_`."""
    return name if name.replace("_", "a").isalnum() or not name else "'%s'" % name


def vertex_names(graph: Graph) -> list[str]:
    """A name for each vertex of an atom graph: its label, else its number from 1."""
    return [
        str(vertex.number + 1 if vertex.tree.label is None else vertex.tree.label)
        for vertex in graph.vertices
    ]


def to_edges(tree: Tree) -> str:
    """The edges of the graph on the atoms, as `u v; v w`; a lone vertex as `u`."""
    graph = atom_graph(tree)
    names = vertex_names(graph)
    edges = list(graph.edges())
    joined_vertices = {vertex for edge in edges for vertex in edge}
    items = ["%s %s" % (names[a], names[b]) for a, b in edges]
    items += [names[v.number] for v in graph.vertices if v.number not in joined_vertices]
    return "; ".join(items)


def to_networkx(tree: Tree):
    """The graph on the atoms for networkx, undirected, its vertices the labels (or numbers)."""
    import networkx

    graph = atom_graph(tree)
    names = vertex_names(graph)
    result = networkx.Graph()
    result.add_nodes_from(sorted(int(name) for name in names))
    result.add_edges_from((int(names[a]), int(names[b])) for a, b in graph.edges())
    return result


def to_graph6(tree: Tree) -> str:
    """The graph on the atoms in graph6, by networkx; the format has no loops, so they go."""
    import networkx

    graph = to_networkx(tree)
    graph.remove_edges_from(list(networkx.selfloop_edges(graph)))
    return networkx.to_graph6_bytes(graph, header=False).decode().strip()


def to_dot(tree: Tree, form: str = "parts") -> str:
    """A graph in Graphviz's language.

    The form is the tree of the `parts`, the graph on the `atoms`, or the `whole` tree with its
    unions and classes.
    """
    if form == "whole":
        return dot_text(_whole(tree), named=True)
    return dot_text(atom_graph(tree) if form == "atoms" else part_tree(tree))


def _whole(tree: Tree) -> Graph:
    """Every node of the object as a vertex."""
    graph = Graph()
    stack: list[tuple[Tree, int | None]] = [(tree, None)]
    while stack:
        top, above = stack.pop()
        number = graph.add(top, above)
        stack.extend((part, number) for part in reversed(top.parts))
    return graph


SIGNS = {"product": "*", "Seq": "[ ]", "Set": "{ }", "Cyc": "&lt; &gt;"}


def dot_text(graph: Graph, named: bool = False) -> str:
    """The graph in Graphviz's language; rings have arrows. `named` shows unions and classes."""
    lines = [
        "digraph object {",
        "  graph [nodesep=0.15, ranksep=0.25];",
        '  node [shape=circle, fontname="Helvetica", fontsize=10, margin=0.02];',
        "  node [width=0.28, height=0.28];",
        "  edge [arrowhead=none];",
    ]
    for vertex in graph.vertices:
        lines.append("  v%d [%s];" % (vertex.number, vertex_style(vertex, named)))
    for vertex in graph.vertices:
        lines += ["  v%d -> v%d;" % (vertex.number, child) for child in vertex.children]
    for ring in graph.rings:
        lines += [
            "  v%d -> v%d [arrowhead=vee, arrowsize=0.6];" % edge
            for edge in zip(ring, ring[1:] + ring[:1])
        ]
    return "\n".join(lines + ["}"]) + "\n"


def vertex_style(vertex: Vertex, named: bool) -> str:
    """How a vertex looks: atoms are circles, neutral leaves points, collections boxes."""
    tree = vertex.tree
    if named and tree.kind == "union":
        return 'shape=box, style=rounded, label="%s%s"' % (
            " ".join(tree.names) + " " if tree.names else "",
            tree.option,
        )
    if tree.kind == "E":
        return (
            'shape=point, width=0.06, label=""'
            if not tree.node.word
            else 'shape=plaintext, label="%s"' % tree.word
        )
    if tree.kind == "Z":
        return 'label="%s"' % (vertex.name if tree.label is not None or tree.node.word else "")
    name = " ".join(tree.names) + " " if named and tree.names else ""
    return "shape=plaintext, label=<%s%s>" % (name, SIGNS[tree.kind])
