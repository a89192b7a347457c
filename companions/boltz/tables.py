"""A specification as tables: classes, and nodes with their places in the text."""
from __future__ import annotations

import hashlib
from dataclasses import dataclass, field
from typing import Iterator

COUNTED = {"Seq": 0, "Set": 0, "Cyc": 1}  # kind: the least number of parts of the plain form
LEAVES = ("E", "Z")


class SpecRefused(ValueError):
    """The text is no specification. The message is the program's line without `refused spec`."""

    def __init__(self, reason: str, line: int | None = None, column: int | None = None):
        super().__init__(reason)
        self.line, self.column = line, column


@dataclass(frozen=True)
class Node:
    """A node of a specification, with the place at which its text begins.

    `kind` is E, Z, class, union, product, Seq, Set or Cyc. `word` is the word of a leaf, empty
    where it has none. `target` is the number of the class that a reference names, -1 elsewhere.
    `low` and `high` bound the number of parts of Seq, Set and Cyc; `high` is None where there is no
    bound.
    """

    number: int
    kind: str
    owner: int
    line: int
    column: int
    start: int
    end: int
    word: str = ""
    target: int = -1
    parts: tuple[int, ...] = ()
    low: int = 0
    high: int | None = None

    @property
    def is_counted(self) -> bool:
        """Whether it is a Seq, a Set or a Cyc."""
        return self.kind in COUNTED

    @property
    def operator(self) -> str:
        """The bound as canonical text has it, such as `>=1`; empty for the plain form."""
        if self.low == self.high:
            return "=%d" % self.low
        if self.high is not None:
            return "<=%d" % self.high
        return "" if self.low == COUNTED[self.kind] else ">=%d" % self.low


@dataclass
class Spec:
    """A specification as tables. Class 0 is the root; `bodies` has each class's last node."""

    labelled: bool
    names: list[str] = field(default_factory=list)
    bodies: list[int] = field(default_factory=list)
    nodes: list[Node] = field(default_factory=list)
    source: str = ""

    @property
    def mode(self) -> str:
        """`labelled` or `unlabelled`."""
        return "labelled" if self.labelled else "unlabelled"

    def body(self, name: int | str = 0) -> Node:
        """The body of a class, named by number or name."""
        number = self.names.index(name) if isinstance(name, str) else name
        return self.nodes[self.bodies[number]]

    def resolve(self, number: int) -> tuple[Node, tuple[str, ...]]:
        """The node that is reached from node `number` through class references, and their names."""
        names: list[str] = []
        node = self.nodes[number]
        while node.kind == "class":
            if len(names) > len(self.names):
                raise ValueError("class %s has no object" % names[0])
            names.append(self.names[node.target])
            node = self.nodes[self.bodies[node.target]]
        return node, tuple(names)

    def snippet(self, node: Node) -> str:
        """The text of a node in the source, in one line."""
        return " ".join(self.source[node.start : node.end].split())

    def node_text(self, number: int) -> str:
        """The canonical text of a node."""
        texts: dict[int, str] = {}
        for node in self.below(number):
            texts[node.number] = self._text_over(node, texts)
        return texts[number]

    def below(self, number: int) -> Iterator[Node]:
        """The nodes of an expression, each after its parts; references aren't followed."""
        stack, order = [number], []
        while stack:
            node = self.nodes[stack.pop()]
            order.append(node)
            stack.extend(node.parts)
        return reversed(order)

    def _text_over(self, node: Node, texts: dict[int, str]) -> str:
        """The canonical text of a node, given the texts of its parts."""

        def inner(part: int, kinds: tuple[str, ...]) -> str:
            return "(%s)" % texts[part] if self.nodes[part].kind in kinds else texts[part]

        if node.kind in LEAVES:
            return node.kind + (":" + node.word if node.word else "")
        if node.kind == "class":
            return self.names[node.target]
        if node.kind == "union":
            return " + ".join(inner(part, ("union",)) for part in node.parts)
        if node.kind == "product":
            return "*".join(inner(part, ("union", "product")) for part in node.parts)
        return "%s%s(%s)" % (node.kind, node.operator, texts[node.parts[0]])

    def canonical(self) -> str:
        """The canonical text: the mode, then a line for each class."""
        lines = [self.mode]
        lines += [
            "%s = %s" % (name, self.node_text(body)) for name, body in zip(self.names, self.bodies)
        ]
        return "".join(line + "\n" for line in lines)

    def digest(self) -> str:
        """The SHA-256 digest of the canonical text, as in the header of a certificate."""
        return hashlib.sha256(self.canonical().encode()).hexdigest()

    def inhabited(self) -> tuple[list[bool], list[bool]]:
        """For each node: whether it has an object, and whether it has one of size 0."""
        return self._least(True), self._least(False)

    def zero_steps(self, number: int) -> set[int]:
        """The classes named in a class's body with objects of size 0 alone beside them."""
        _, zero = self.inhabited()
        found, stack = set(), [self.bodies[number]]
        while stack:
            node = self.nodes[stack.pop()]
            if node.kind == "class":
                found.add(node.target)
            elif node.kind == "union":
                stack.extend(node.parts)
            elif node.kind == "product":
                stack.extend(
                    part
                    for i, part in enumerate(node.parts)
                    if all(zero[other] for j, other in enumerate(node.parts) if j != i)
                )
            elif node.is_counted and (node.low < 2 or zero[node.parts[0]]):
                stack.append(node.parts[0])
        return found

    def _least(self, with_atoms: bool) -> list[bool]:
        """The least relation by which nodes have objects, those with atoms counted or not."""
        has = [False] * len(self.nodes)
        changed = True
        while changed:
            changed = False
            for node in self.nodes:
                if not has[node.number] and self._has(node, has, with_atoms):
                    has[node.number] = changed = True
        return has

    def _has(self, node: Node, has: list[bool], with_atoms: bool) -> bool:
        """One case of that relation."""
        if node.kind in LEAVES:
            return node.kind == "E" or with_atoms
        if node.kind == "class":
            return has[self.bodies[node.target]]
        if node.kind == "union":
            return any(has[part] for part in node.parts)
        if node.kind == "product":
            return all(has[part] for part in node.parts)
        return node.low == 0 or has[node.parts[0]]
