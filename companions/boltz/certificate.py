"""Reads certificates, which are what `boltz sample` prints, entry by entry as they stream in.

Only the form is read here; whether a certificate is right is for `boltz verify` to say.
"""
from __future__ import annotations

import os
import re
from dataclasses import dataclass
from fractions import Fraction
from itertools import chain
from typing import Iterable, Iterator, NoReturn

ENDINGS = ("done", "tape-ended", "undecided", "turn-limit", "read-fault")
FIRST_LINES = ("boltzmann 1", "boltzmann 2", "boltzmann fast")


class CertificateError(ValueError):
    """A line is not what a certificate has there; `line` counts from 1."""

    def __init__(self, line: int, reason: str):
        super().__init__("line %d: %s" % (line, reason))
        self.line = line


@dataclass(frozen=True)
class Header:
    """The lines before the entries.

    `base` has the upper bound of each class in units of 2^-fraction.
    """

    first: str
    mode: str
    digest: str | None
    x: Fraction
    x_text: str
    fraction: int
    window: tuple[int, int]
    base: dict[str, int]


@dataclass(frozen=True)
class Entry:
    """One kept object: number, the tape's bits before it, size, text, and its cells as text."""

    number: int
    place: int
    size: int
    text: str
    cells_text: str

    def cells(self) -> list[tuple[int, int]]:
        """The cells (k, b) in the order in which they were drawn."""
        pairs = (cell.split("/") for cell in self.cells_text.split())
        return [(int(k), int(b)) for k, b in pairs]

    def bits(self) -> int:
        """The number of bits that decided the object, those of rejected attempts not among them."""
        return sum(b for _, b in self.cells())


@dataclass(frozen=True)
class Closing:
    """How the drawing ended; `undecided` has the line before it where a number stayed undecided."""

    word: str
    kept: int
    rejected: int
    bits: int
    turns: int
    undecided: str | None = None


OBJECT = re.compile(r"object (\d+) at (\d+) size (\d+)")
CLOSING = re.compile(r"end (%s) kept (\d+) thrown (\d+) bits (\d+) turns (\d+)" % "|".join(ENDINGS))
X = re.compile(r"[1-9]\d*/[1-9]\d*")
CELLS = re.compile(r"cells( \d+/\d+)*")
REFUSAL = re.compile(r"refused .*")


class Certificate:
    """A certificate over lines that may still be written: the header, then the entries, then the
    closing.

    Iterating gives the entries one at a time, and `closing` is there after the last one. A text
    that stops early (the program was killed, or is still at work) raises CertificateError at its
    end; `partial` then says that all lines before it were in order.
    """

    def __init__(self, lines: Iterable[str | bytes]):
        self._lines = iter(lines)
        self.line = 0
        self.partial = False
        self.closing: Closing | None = None
        self._ahead: str | None = None
        self.header = self._read_header()

    def _next(self) -> str:
        """The next line without its line feed."""
        line = next(self._lines, None)
        self.line += 1
        text = line.decode("ascii", "replace") if isinstance(line, bytes) else line
        if text is None or not text.endswith("\n"):
            self.partial = True
            raise CertificateError(self.line, "the certificate is cut off here")
        return text[:-1]

    def _refuse(self, wanted: str, line: str) -> NoReturn:
        """The line isn't what was wanted."""
        raise CertificateError(self.line, "wanted %s, found %r" % (wanted, line[:60]))

    def _field(self, word: str) -> str:
        """The rest of a line that begins with `word`."""
        line = self._next()
        if not line.startswith(word + " "):
            self._refuse("a line `%s`" % word, line)
        return line[len(word) + 1 :]

    def _read_header(self) -> Header:
        """The lines up to the last one of the base, which the first other line ends."""
        first = self._next()
        if first not in FIRST_LINES:
            self._refuse(
                "a certificate" + (", the program refused" if REFUSAL.match(first) else ""), first
            )
        mode = self._field("mode")
        digest = None if first == "boltzmann 1" else self._field("spec")
        x_text = self._field("x")
        if X.fullmatch(x_text) is None:
            self._refuse("a fraction", x_text)
        (fraction,) = self._numbers(self._field("fraction"), 1)
        low, high = self._numbers(self._field("window"), 2)
        base: dict[str, int] = {}
        line = self._next()
        while line.startswith("base "):
            name, _, value = line[5:].partition(" ")
            (base[name],) = self._numbers(value, 1)
            line = self._next()
        self._ahead = line
        return Header(first, mode, digest, Fraction(x_text), x_text, fraction, (low, high), base)

    def _numbers(self, text: str, count: int) -> list[int]:
        """`count` numbers with a blank between them."""
        words = text.split(" ")
        if len(words) != count or not all(word.isdigit() for word in words):
            self._refuse("%d numbers" % count, text)
        return [int(word) for word in words]

    def __iter__(self) -> Iterator[Entry]:
        """The entries that haven't been read yet."""
        return self

    def __next__(self) -> Entry:
        """The next entry, as soon as its lines are there."""
        if self.closing is not None:
            raise StopIteration
        line = self._taken()
        match = OBJECT.fullmatch(line)
        if match is None:
            self._close(line)
            raise StopIteration
        number, place, size = match.groups()
        text = self._field("text")
        cells = self._next()
        if CELLS.fullmatch(cells) is None:
            self._refuse("cells", cells)
        return Entry(int(number), int(place), int(size), text, cells[6:])

    def _taken(self) -> str:
        """The line that was read ahead, else the next one."""
        line, self._ahead = self._ahead, None
        return self._next() if line is None else line

    def _close(self, line: str) -> None:
        """The closing that begins at this line, with the line before it where there is one."""
        undecided = None
        if line.startswith("undecided "):
            undecided, line = line, self._next()
        if CLOSING.fullmatch(line) is None:
            self._refuse("an object or the closing", line)
        self.closing = closing_from(line, undecided or "")

    def read_to_end(self) -> Closing:
        """Passes over the entries that are left; the closing."""
        for _ in self:
            pass
        assert self.closing is not None
        return self.closing


def certificates(lines: Iterable[str | bytes]) -> Iterator[Certificate]:
    """Certificates one after another; each must be read to its end before the next."""
    rest = iter(lines)
    while (first := next(rest, None)) is not None:
        yield Certificate(chain([first], rest))


def closing_of(path: str) -> Closing:
    """The closing of a certificate in a file, from its last two lines alone."""
    with open(path, "rb") as file:
        file.seek(max(0, os.path.getsize(path) - 4096))
        lines = file.read().decode("ascii", "replace").splitlines(keepends=True)
    if len(lines) < 2 or not lines[-1].endswith("\n"):
        raise CertificateError(len(lines), "the certificate is cut off here")
    return closing_from(lines[-1][:-1], lines[-2][:-1])


def closing_from(line: str, before: str) -> Closing:
    """The closing in a line, given the line before it."""
    match = CLOSING.fullmatch(line)
    if match is None:
        raise CertificateError(1, "wanted the closing, found %r" % line[:60])
    word, *numbers = match.groups()
    kept, rejected, bits, turns = map(int, numbers)
    return Closing(
        word, kept, rejected, bits, turns, before if before.startswith("undecided ") else None
    )
