"""Lists the nodes of a specification with their places, and explains a refusal.

Each line has the node's number, line and column, its class, its kind and its text. Where the
program refuses the specification, the line that it writes is explained first.
"""
from __future__ import annotations

import argparse
import re
import sys

from boltz.program import Program, ProgramError
from boltz.spec import read_spec_file
from boltz.tables import Node, Spec, SpecRefused


def add_arguments(parser: argparse.ArgumentParser) -> None:
    """The words of the command."""
    parser.add_argument("file", help="a specification")
    parser.add_argument("--node", type=int, metavar="N", help="this node alone")


def run(args: argparse.Namespace) -> int:
    """Prints the explanation, if any, and the table."""
    try:
        spec = read_spec_file(args.file)
    except SpecRefused as refused:
        print("refused spec %s" % refused)
        print(pointed_at(args.file, refused), end="")
        return 3
    try:
        refusal = Program(args.program).run("spec", args.file).refusal
    except ProgramError as error:
        print("not asked whether it is well founded: %s" % error, file=sys.stderr)
        refusal = None
    if refusal is not None:
        print(refusal)
        print(explanation(spec, refusal))
        print()
    nodes = spec.nodes if args.node is None else [spec.nodes[args.node]]
    for line in table(spec, nodes):
        print(line)
    return 3 if refusal else 0


def pointed_at(path: str, refused: SpecRefused) -> str:
    """The line of the text that is refused, with a mark below the column."""
    if refused.line is None:
        return ""
    with open(path, encoding="latin-1", newline="\n") as file:
        line = file.read().split("\n")[refused.line - 1].replace("\t", " ")
    mark = "" if refused.column is None else " " * (refused.column - 1) + "^\n"
    return line + "\n" + mark


def table(spec: Spec, nodes: list[Node]) -> list[str]:
    """One line for each node."""
    rows = [("node", "line", "column", "class", "kind", "text")]
    for node in nodes:
        body = " = body" if spec.bodies[node.owner] == node.number else ""
        kind = node.kind + (node.operator if node.is_counted else "")
        rows.append(
            (
                str(node.number),
                str(node.line),
                str(node.column),
                spec.names[node.owner] + body,
                kind,
                shortened(spec.node_text(node.number)),
            )
        )
    widths = [max(len(row[i]) for row in rows) for i in range(5)]
    return [
        "  ".join([cell.ljust(width) for cell, width in zip(row, widths)] + [row[5]])
        for row in rows
    ]


def shortened(text: str, most: int = 60) -> str:
    """The text, cut where it is long."""
    return text if len(text) <= most else text[: most - 3] + "..."


def explanation(spec: Spec, refusal: str) -> str:
    """What a refusal of foundedness means, with the place in the text."""
    zero_part = re.fullmatch(r"refused spec zero part node (\d+)", refusal)
    if zero_part:
        return explain_zero_part(spec, spec.nodes[int(zero_part.group(1))])
    named = re.fullmatch(r"refused spec (no object|zero loop) (\w+)", refusal)
    if not named:
        return "The program's documentation has this line in its table of statuses."
    place = "line %d" % spec.body(named.group(2)).line
    if named.group(1) == "no object":
        return "%s: every object of %s would need one of a class that has none, so %s is empty." % (
            place,
            named.group(2),
            named.group(2),
        )
    return (
        "%s: an object of %s may stand inside another one with nothing of size 1 or more "
        "beside it: %s. "
        "There would be infinitely many of one size."
        % (place, named.group(2), " -> ".join(zero_loop(spec, named.group(2))))
    )


def explain_zero_part(spec: Spec, node: Node) -> str:
    """Why a collection without a greatest number of parts can't have parts of size 0."""
    part = spec.nodes[node.parts[0]]
    return (
        "line %d column %d: %s has any number of parts, and %s (node %d) has an object of size 0. "
        "There would be infinitely many objects of one size. Bound the number of parts, as "
        "%s<=8(..), or take the objects of size 0 out of the part."
        % (
            node.line,
            node.column,
            spec.snippet(node),
            spec.node_text(part.number),
            part.number,
            node.kind,
        )
    )


def zero_loop(spec: Spec, name: str) -> list[str]:
    """The shortest loop of classes through which the class reaches itself at size 0."""
    start = spec.names.index(name)
    steps = {number: sorted(spec.zero_steps(number)) for number in range(len(spec.names))}
    before: dict[int, int] = {}
    queue = [start]
    for number in queue:
        for target in steps[number]:
            if target == start:
                path = [number]
                while path[-1] != start:
                    path.append(before[path[-1]])
                return [spec.names[c] for c in reversed(path)] + [name]
            if target not in before:
                before[target] = number
                queue.append(target)
    return [name, name]
