"""A property of a small parser, on expressions that boltz draws. The parser has a fault.

    export BOLTZ=PROGRAM PYTHONPATH=companions
    /usr/bin/python3 -m pytest -p boltz.pytest_plugin companions/examples
"""
import os

from hypothesis import given, settings

from boltz.formats import to_word
from boltz.hypothesis import objects
from boltz.objects import Tree

SPEC = os.path.join(os.path.dirname(os.path.abspath(__file__)), "expressions.boltz")
SIGNS = {"minus": "-", "open": "(", "close": ")"}


def parse_sum(text: str, at: int = 0) -> tuple[int, int]:
    """The value of the sum that begins at a place, and the place after it."""
    value, at = parse_term(text, at)
    if text[at : at + 1] == "-":
        rest, at = parse_sum(text, at + 1)  # the fault: 1-1-1 is read as 1-(1-1)
        return value - rest, at
    return value, at


def parse_term(text: str, at: int) -> tuple[int, int]:
    """The value of a digit, or of a sum in parentheses."""
    if text[at] == "(":
        value, at = parse_sum(text, at + 1)
        return value, at + 1
    return int(text[at]), at + 1


def value_of(tree: Tree) -> int:
    """The value of an expression, from its tree."""
    values: dict[int, int] = {}
    for part in tree.upwards():
        below = [values[id(inner)] for inner in part.parts]
        if part.kind == "Z":
            values[id(part)] = int(part.word) if part.word.isdigit() else 0
        elif part.kind == "union":
            values[id(part)] = below[0]
        elif part.parts[0].word == "open":
            values[id(part)] = below[1]
        else:
            values[id(part)] = below[0] - below[2]
    return values[id(tree)]


@given(objects(SPEC, "93389/262144", max_size=60))
@settings(deadline=None, database=None)
def test_the_parser_gives_the_value(tree: Tree) -> None:
    text = to_word(tree, SIGNS)
    assert parse_sum(text) == (value_of(tree), len(text)), text
