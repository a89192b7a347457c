"""Writes the objects of a certificate in other formats, one line for each object.

  json    JSON lines, with number and size
  sexp    s-expressions
  words   the leaves' symbols by --table a=0,b=1; an atom without an entry gives its word, a neutral
          leaf nothing
  newick  the tree of the parts
  edges   the edges of the graph on the atoms
  graph6  the same graph for nauty (through networkx)
  dot     Graphviz's language, several lines for each object: --form parts, atoms or whole
"""
from __future__ import annotations

import argparse
from typing import Callable

from boltz.commands.reading import Problem, Reading, add_certificate
from boltz.formats import to_dot, to_edges, to_graph6, to_json, to_newick, to_sexp, to_word
from boltz.objects import Tree

FORMATS = ("json", "sexp", "words", "newick", "edges", "graph6", "dot")


def add_arguments(parser: argparse.ArgumentParser) -> None:
    """The words of the command."""
    add_certificate(parser)
    parser.add_argument("--to", choices=FORMATS, required=True, help="the format")
    parser.add_argument("--table", default="", metavar="LEAF=SYMBOL,..", help="symbols for words")
    parser.add_argument(
        "--separator", default="", metavar="TEXT", help="between the symbols of words"
    )
    parser.add_argument(
        "--form", choices=("parts", "atoms", "whole"), default="parts", help="for dot"
    )


def table_of(text: str) -> dict[str, str]:
    """The table that `--table` names."""
    pairs = [pair.partition("=") for pair in text.split(",") if pair]
    for leaf, equals, _ in pairs:
        if not leaf or not equals:
            raise Problem("--table: wanted LEAF=SYMBOL, found %r" % leaf)
    return {leaf: symbol for leaf, _, symbol in pairs}


def writer(args: argparse.Namespace) -> Callable[[Tree], str]:
    """The function that writes one object."""
    table = table_of(args.table)
    return {
        "json": to_json,
        "sexp": to_sexp,
        "newick": to_newick,
        "edges": to_edges,
        "graph6": to_graph6,
        "words": lambda tree: to_word(tree, table, args.separator),
        "dot": lambda tree: to_dot(tree, args.form).rstrip("\n"),
    }[args.to]


def run(args: argparse.Namespace) -> int:
    """Converts object after object as the certificate comes in."""
    write = writer(args)
    with Reading(args) as reading:
        for entry, tree in reading:
            try:
                text = write(tree)
            except ModuleNotFoundError as error:
                raise Problem("%s isn't installed: run companions/setup" % error.name)
            if args.to == "json":
                text = '{"number": %d, "size": %d, "tree": %s}' % (entry.number, entry.size, text)
            print(text, flush=reading.is_stream)
    return 0
