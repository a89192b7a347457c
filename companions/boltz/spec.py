"""Reads specifications.

The language is the one of `docs/formats.md`. What this reader refuses, `boltz spec` refuses with
the same words. Whether a specification is well founded is asked of the program.
"""
from __future__ import annotations

import re
from dataclasses import dataclass, field, replace
from typing import Iterator, NoReturn

from boltz.tables import COUNTED, LEAVES, Node, Spec, SpecRefused

MOST_BYTES = 65_536
MOST_CLASSES = 64
MOST_PARTS = 64
MOST_DEPTH = 64
MOST_NODES = 512
MOST_LETTERS = 32


@dataclass(frozen=True)
class Token:
    """A token: its kind (run, number, leaf, sign, eol, end or bad), its text and its place."""

    kind: str
    text: str
    start: int
    line: int
    column: int

    @property
    def end(self) -> int:
        """The place after its last byte."""
        return self.start + len(self.text)


PIECE = re.compile(
    r"(?P<blank>[ \t\r]+|#[^\n]*)|(?P<eol>\n)|(?P<leaf>[EZ]:[A-Za-z0-9_]+)"
    r"|(?P<run>[A-Za-z0-9_]+)|(?P<sign>>=|<=|[=+*()])|(?P<bad>.)"
)


def tokens_of(text: str) -> Iterator[Token]:
    """The tokens; lines without tokens give none."""
    line, line_start, filled = 1, 0, False
    for match in PIECE.finditer(text):
        kind, piece, start = match.lastgroup or "bad", match.group(), match.start()
        if kind == "eol":
            if filled:
                yield Token("eol", piece, start, line, start - line_start + 1)
            line, line_start, filled = line + 1, match.end(), False
        elif kind != "blank":
            filled = True
            yield Token(_kind_of(kind, piece), piece, start, line, start - line_start + 1)
    yield Token("end", "", len(text), line, len(text) - line_start + 1)


def _kind_of(kind: str, piece: str) -> str:
    """The kind of a token that isn't the end of a line; `bad` where it fits nowhere."""
    if kind == "leaf":
        return "leaf" if len(piece) - 2 <= MOST_LETTERS else "bad"
    if kind == "run":
        if piece.isdigit():
            return "number"
        return "run" if piece[0].isalpha() and len(piece) <= MOST_LETTERS else "bad"
    return kind


# The grammar.


@dataclass(frozen=True)
class Piece:
    """A node with the stretch of text that it takes, parentheses round it included."""

    number: int
    first: Token
    end: int


@dataclass
class Level:
    """A sum that is being read: its finished products, the factors of the last one, what encloses
    it.

    `outer` is the parenthesis or the word Seq, Set or Cyc that opened it, None for a definition's
    sum.
    """

    counted: tuple[str, int, int | None] | None = None
    outer: Token | None = None
    products: list[Piece] = field(default_factory=list)
    factors: list[Piece] = field(default_factory=list)


class Reader:
    """Reads one text by a stack of sums that are being read."""

    def __init__(self, text: str):
        self.spec = Spec(labelled=False, source=text)
        self.tokens = list(tokens_of(text))
        self.at = 0
        self.faults: list[tuple[int, SpecRefused]] = []
        self.references: list[tuple[int, Token]] = []
        self.depths: list[int] = []

    def refuse(self, token: Token) -> NoReturn:
        """No text of the grammar has the token here."""
        raise SpecRefused(
            "syntax line %d column %d" % (token.line, token.column), token.line, token.column
        )

    def take(self, kind: str, *texts: str) -> Token:
        """The next token, which must be of this kind and, where texts are given, one of them."""
        token = self.tokens[self.at]
        if token.kind != kind or (texts and token.text not in texts):
            self.refuse(token)
        self.at += 1
        return token

    def peek(self) -> Token:
        """The next token, which isn't taken."""
        return self.tokens[self.at]

    def read(self) -> Spec:
        """The whole text."""
        self.spec.labelled = self.take("run", "unlabelled", "labelled").text == "labelled"
        self.take("eol")
        while True:
            self.definition()
            if self.peek().kind == "end":
                break
            self.take("eol")
            if self.peek().kind == "end":
                break
        self.resolve()
        self.limits()
        return self.spec

    def definition(self) -> None:
        """`Name = sum`, without the end of its line."""
        name = self.take("run")
        if name.text in LEAVES or name.text in COUNTED:
            self.refuse(name)
        if name.text in self.spec.names:
            self.faults.append((name.start, SpecRefused("twice line %d" % name.line, name.line)))
        self.take("sign", "=")
        self.spec.names.append(name.text)
        self.spec.bodies.append(self.sum())

    def sum(self) -> int:
        """A sum up to the token that ends its line; the number of its node."""
        stack = [Level()]
        while True:
            if not self.factor(stack):
                continue
            while self.peek().kind == "sign" and self.peek().text == ")" and len(stack) > 1:
                self.at += 1
                self.close(stack)
            if self.peek().kind in ("eol", "end") and len(stack) == 1:
                return self.total(stack.pop()).number
            if self.take("sign", "*", "+").text == "+":
                self.product(stack[-1])

    def factor(self, stack: list[Level]) -> bool:
        """One factor, or what opens one; whether a factor is complete."""
        token = self.peek()
        if token.kind == "sign" and token.text == "(":
            self.at += 1
            stack.append(Level(outer=token))
            return False
        if token.kind not in ("run", "leaf"):
            self.refuse(token)
        self.at += 1
        if token.text in COUNTED:
            low, high = self.bound(token.text)
            self.take("sign", "(")
            if token.text != "Seq" and not self.spec.labelled:
                self.faults.append(
                    (
                        token.start,
                        SpecRefused(
                            "needs labels line %d column %d" % (token.line, token.column),
                            token.line,
                            token.column,
                        ),
                    )
                )
            stack.append(Level((token.text, low, high), token))
            return False
        stack[-1].factors.append(self.leaf(token))
        return True

    def leaf(self, token: Token) -> Piece:
        """A leaf or a reference; names are looked up when all classes are known."""
        if token.kind == "leaf":
            return self.add(token, token.end, token.text[0], word=token.text[2:])
        if token.text in LEAVES:
            return self.add(token, token.end, token.text)
        piece = self.add(token, token.end, "class")
        self.references.append((piece.number, token))
        return piece

    def bound(self, kind: str) -> tuple[int, int | None]:
        """The least and the greatest number of parts."""
        token = self.peek()
        if token.kind != "sign" or token.text not in (">=", "<=", "="):
            return COUNTED[kind], None
        self.at += 1
        number = self.take("number")
        if not re.fullmatch(r"[1-9][0-9]?", number.text) or int(number.text) > 64:
            self.refuse(number)
        value = int(number.text)
        return {">=": (value, None), "<=": (COUNTED[kind], value), "=": (value, value)}[token.text]

    def close(self, stack: list[Level]) -> None:
        """A sum in parentheses is complete: it, or the node over it, is a factor outside."""
        level = stack.pop()
        assert level.outer is not None
        end = self.tokens[self.at - 1].end
        piece = Piece(self.total(level).number, level.outer, end)
        if level.counted is not None:
            kind, low, high = level.counted
            piece = self.add(level.outer, end, kind, parts=(piece.number,), low=low, high=high)
        stack[-1].factors.append(piece)

    def product(self, level: Level) -> None:
        """The factors so far are one product."""
        level.products.append(self.joined(level.factors, "product"))
        level.factors = []

    def total(self, level: Level) -> Piece:
        """The products so far are one sum."""
        self.product(level)
        return self.joined(level.products, "union")

    def joined(self, parts: list[Piece], kind: str) -> Piece:
        """One node over the parts, or the only part."""
        if len(parts) == 1:
            return parts[0]
        numbers = tuple(part.number for part in parts)
        return self.add(parts[0].first, parts[-1].end, kind, parts=numbers)

    def add(self, first: Token, end: int, kind: str, **rest) -> Piece:
        """A new node whose text goes from the token `first` to the place `end`."""
        number = len(self.spec.nodes)
        self.spec.nodes.append(
            Node(
                number,
                kind,
                len(self.spec.names) - 1,
                first.line,
                first.column,
                first.start,
                end,
                **rest,
            )
        )
        parts = rest.get("parts", ())
        self.depths.append(1 + max((self.depths[part] for part in parts), default=0))
        return Piece(number, first, end)

    def resolve(self) -> None:
        """Each reference gets its class; the first fault that the grammar doesn't see is raised."""
        numbers = {name: number for number, name in reversed(list(enumerate(self.spec.names)))}
        for number, token in self.references:
            if token.text not in numbers:
                self.faults.append(
                    (
                        token.start,
                        SpecRefused(
                            "undefined line %d column %d" % (token.line, token.column),
                            token.line,
                            token.column,
                        ),
                    )
                )
            else:
                node = self.spec.nodes[number]
                self.spec.nodes[number] = replace(node, target=numbers[token.text])
        if self.faults:
            raise min(self.faults, key=lambda fault: fault[0])[1]

    def limits(self) -> None:
        """The limits, in the program's order."""
        spec = self.spec
        if len(spec.names) > MOST_CLASSES:
            raise SpecRefused("too many classes %d" % len(spec.names))
        for node in spec.nodes:
            if len(node.parts) > MOST_PARTS:
                raise SpecRefused("too many parts %d" % len(node.parts), node.line, node.column)
        if max(self.depths) > MOST_DEPTH:
            raise SpecRefused("too deep %d" % max(self.depths))
        if len(spec.nodes) > MOST_NODES:
            raise SpecRefused("too many nodes %d" % len(spec.nodes))


def read_spec(text: str | bytes) -> Spec:
    """The specification that a text describes; SpecRefused where it describes none."""
    data = text.encode("latin-1", "replace") if isinstance(text, str) else text
    if len(data) > MOST_BYTES:
        raise SpecRefused("too long %d" % min(len(data), MOST_BYTES + 1))
    for place, byte in enumerate(data):
        if not (byte in (9, 10, 13) or 0x20 <= byte <= 0x7E):
            raise SpecRefused("not text at %d" % place)
    return Reader(data.decode("ascii")).read()


def read_spec_file(path: str) -> Spec:
    """The specification in a file."""
    with open(path, "rb") as file:
        return read_spec(file.read(MOST_BYTES + 1))
