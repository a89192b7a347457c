"""Reads object texts into trees that name classes and options, and writes them back.

Nothing here recurses, so an object may be a million nodes deep.
"""
from __future__ import annotations

import re
from typing import Callable, Iterable, Iterator, Sequence, TypeVar

from boltz.tables import Node, Spec

OPEN = {"product": "(", "Seq": "[", "Set": "{", "Cyc": "<"}
CLOSE = {"product": ")", "Seq": "]", "Set": "}", "Cyc": ">"}
LABEL = re.compile(r"#([1-9][0-9]*)")


class NotObject(ValueError):
    """The text is no object of the class; `place` is the first character that doesn't fit."""

    def __init__(self, place: int, wanted: str):
        super().__init__("no object: wanted %s at place %d" % (wanted, place))
        self.place = place


class Tree:
    """A node of an object.

    `node` is the specification's node, never a reference; `names` are the classes that were passed
    to reach it, such as `("B",)`, empty where it is inside a class's body. `option` is the
    number of the part of a union, `label` that of an atom. `parts` are the trees below: one of a
    union, all of a product or collection, in the order of the text.
    """

    __slots__ = ("node", "names", "option", "label", "parts")

    def __init__(self, node: Node, names: tuple[str, ...]):
        self.node = node
        self.names = names
        self.option: int | None = None
        self.label: int | None = None
        self.parts: Sequence[Tree] = ()

    @property
    def kind(self) -> str:
        """E, Z, union, product, Seq, Set or Cyc."""
        return self.node.kind

    @property
    def word(self) -> str:
        """What a leaf prints: its word, or its kind where it has none."""
        return self.node.word or self.node.kind

    def walk(self) -> Iterator[Tree]:
        """This tree and all below it, each before its parts, from left to right."""
        stack = [self]
        while stack:
            tree = stack.pop()
            yield tree
            stack.extend(reversed(tree.parts))

    def upwards(self) -> Iterator[Tree]:
        """This tree and all below it, each after its parts."""
        stack, order = [self], []
        while stack:
            tree = stack.pop()
            order.append(tree)
            stack.extend(tree.parts)
        return reversed(order)

    def leaves(self) -> Iterator[Tree]:
        """The leaves from left to right."""
        return (tree for tree in self.walk() if tree.kind in "EZ")

    def atoms(self) -> Iterator[Tree]:
        """The atoms from left to right."""
        return (tree for tree in self.walk() if tree.kind == "Z")

    def size(self) -> int:
        """The number of atoms."""
        return sum(1 for _ in self.atoms())

    def text(self) -> str:
        """The object's text."""
        return render(self, text_pieces)

    def __eq__(self, other: object) -> bool:
        """The same text of the same class."""
        return isinstance(other, Tree) and self.node == other.node and self.text() == other.text()

    def __hash__(self) -> int:
        return hash(self.text())

    def __repr__(self) -> str:
        return "Tree(%r)" % self.text()


T = TypeVar("T")


def render(root: T, pieces: Callable[[T], Iterable[T | str]]) -> str:
    """The text of `root`, where `pieces` gives what each item is made of."""
    written: list[str] = []
    stack: list[T | str] = [root]
    while stack:
        item = stack.pop()
        if isinstance(item, str):
            written.append(item)
        else:
            stack.extend(reversed(list(pieces(item))))
    return "".join(written)


def joined(items: Iterable[T], separator: str) -> Iterator[T | str]:
    """The items with the separator between them."""
    for number, item in enumerate(items):
        if number:
            yield separator
        yield item


def text_pieces(tree: Tree) -> Iterator[Tree | str]:
    """What an object's text is made of."""
    if tree.kind in OPEN:
        yield OPEN[tree.kind]
        yield from joined(tree.parts, " ")
        yield CLOSE[tree.kind]
    elif tree.kind == "union":
        yield "%s." % tree.option
        yield tree.parts[0]
    else:
        yield tree.word if tree.label is None else "%s#%d" % (tree.word, tree.label)


class ObjectReader:
    """Reads object texts of one class; made once and used for many objects.

    The reader keeps a stack of the products and collections that are open. It goes down through
    unions to a leaf or an empty collection, and then up through all that is complete there.
    """

    def __init__(self, spec: Spec, name: int | str = 0):
        number = spec.names.index(name) if isinstance(name, str) else name
        node, names = spec.resolve(spec.bodies[number])
        self.root = (node, (spec.names[number],) + names)
        self.labelled = spec.labelled
        self.parts = [[spec.resolve(part) for part in node.parts] for node in spec.nodes]
        self.options = [
            {str(option): option for option in range(len(node.parts))} for node in spec.nodes
        ]

    def read(self, text: str) -> Tree:
        """The object that the text describes; NotObject where it describes none."""
        root = tree = Tree(*self.root)
        todo: list[Tree] = []
        at = 0
        while True:
            kind = tree.node.kind
            if kind == "union":
                tree, at = self._option(tree, text, at)
                continue
            if kind == "E" or kind == "Z":
                at = self._leaf(tree, text, at)
            else:
                todo.append(tree)
                at = self._expect(text, at, OPEN[kind])
                if kind == "product" or text[at : at + 1] != CLOSE[kind]:
                    tree = self._part(tree)
                    continue
            while todo and text[at : at + 1] == CLOSE[todo[-1].node.kind]:
                self._check_count(todo.pop(), at)
                at += 1
            if not todo:
                break
            at = self._expect(text, at, " ")
            tree = self._part(todo[-1], at - 1)
        if at != len(text):
            raise NotObject(at, "the end")
        return root

    def _expect(self, text: str, at: int, wanted: str) -> int:
        """The place after the wanted character."""
        if text[at : at + 1] != wanted:
            raise NotObject(at, repr(wanted))
        return at + 1

    def _option(self, tree: Tree, text: str, at: int) -> tuple[Tree, int]:
        """Reads a union's option and its point; the part, unread, and the place where it begins."""
        number = tree.node.number
        point = text.find(".", at, at + 4)
        option = self.options[number].get(text[at:point])
        if point < 0 or option is None:
            raise NotObject(at, "an option below %d" % len(tree.node.parts))
        part = Tree(*self.parts[number][option])
        tree.option, tree.parts = option, [part]
        return part, point + 1

    def _leaf(self, tree: Tree, text: str, at: int) -> int:
        """Reads a leaf's word, and in labelled mode an atom's label; the place after it."""
        word = tree.word
        if not text.startswith(word, at):
            raise NotObject(at, repr(word))
        at += len(word)
        if self.labelled and tree.node.kind == "Z":
            match = LABEL.match(text, at)
            if match is None:
                raise NotObject(at, "a label")
            tree.label = int(match.group(1))
            return match.end()
        return at

    def _part(self, tree: Tree, at: int = 0) -> Tree:
        """The next part, unread, of a product or collection."""
        choices = self.parts[tree.node.number]
        if tree.node.kind != "product":
            part = Tree(*choices[0])
        elif len(tree.parts) == len(choices):
            raise NotObject(at, repr(CLOSE["product"]))
        else:
            part = Tree(*choices[len(tree.parts)])
        if isinstance(tree.parts, list):
            tree.parts.append(part)
        else:
            tree.parts = [part]
        return part

    def _check_count(self, tree: Tree, at: int) -> None:
        """Refuses a product or collection that ends at `at` with a wrong number of parts."""
        node, count = tree.node, len(tree.parts)
        if node.kind == "product":
            if count < len(node.parts):
                raise NotObject(at, "%d parts" % len(node.parts))
        elif count < node.low or (node.high is not None and count > node.high):
            raise NotObject(at, "a number of parts that the node allows")


def read_object(spec: Spec, text: str, name: int | str = 0) -> Tree:
    """The object of a class (the root where none is named) that the text describes."""
    return ObjectReader(spec, name).read(text)
