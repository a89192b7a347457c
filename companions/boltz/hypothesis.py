"""A Hypothesis strategy whose objects are drawn by the program from a tape that Hypothesis chooses.

Hypothesis shrinks a failing example by leaving out and lowering its own bytes. Here each of these
names one bit of the tape, or its end, and a tape that has ended goes on with the bits that lead to
the smallest objects. So what Hypothesis leaves out or lowers makes the object smaller.
"""
from __future__ import annotations

import os
import tempfile
from collections import OrderedDict
from dataclasses import dataclass
from typing import Sequence

from hypothesis import reject, strategies
from hypothesis.control import _current_build_context as build_context

from boltz.certificate import Certificate
from boltz.objects import ObjectReader, Tree
from boltz.program import Program
from boltz.spec import Spec, read_spec, read_spec_file

REST = 1024  # bytes after the bits that were chosen
RESTS = (b"\x00", b"\xff", b"\x55", b"\xaa")  # how a tape may go on
MOST_BITS = 4096
KEPT = 4096  # runs that are remembered


@dataclass(frozen=True)
class Drawing:
    """One run of the program: its words, what it read, what it printed, and the object."""

    words: tuple[str, ...]
    spec: bytes
    tape: bytes
    certificate: bytes
    tree: Tree

    def __repr__(self) -> str:
        return "Drawing(%r)" % self.tree.text()


class Recorder:
    """The drawings of the test's last example, for the pytest plug-in."""

    def __init__(self) -> None:
        self.example: object = None
        self.drawings: list[Drawing] = []

    def add(self, drawing: Drawing) -> None:
        """One more drawing; the first of a new example replaces all."""
        context = build_context.value
        example = None if context is None else context.data
        if example is not self.example:
            self.example, self.drawings = example, []
        self.drawings.append(drawing)

    def clear(self) -> None:
        """Another test begins."""
        self.example, self.drawings = None, []


RECORDER = Recorder()


class Source:
    """Runs the program over one specification with tapes that are given."""

    def __init__(self, spec: Spec, x: str, window: tuple[int, int], turns: int, program: Program):
        self.spec, self.program = spec, program
        self.reader = ObjectReader(spec)
        self.folder = tempfile.TemporaryDirectory(prefix="boltz-")
        self.text = spec.canonical().encode()
        with open(os.path.join(self.folder.name, "spec"), "wb") as file:
            file.write(self.text)
        low, high = map(str, window)
        options = ("--min", low, "--max", high, "--turns", str(turns))
        self.words = ("sample", "spec", x, "--tape", "tape", *options)
        self.known: OrderedDict[bytes, Drawing | None] = OrderedDict()
        self.rest = self.best_rest()

    def best_rest(self) -> bytes:
        """How a tape goes on such that objects end soon; zeros where no way gives an object."""
        found = []
        for number, rest in enumerate(RESTS):
            drawing = self.run(rest * REST)
            if drawing is not None:
                found.append((len(drawing.certificate), number))
        return RESTS[min(found)[1]] if found else RESTS[0]

    def run(self, tape: bytes) -> Drawing | None:
        """The first object that the tape gives; None where the drawing ends without one."""
        if tape not in self.known:
            if len(self.known) == KEPT:
                self.known.popitem(last=False)
            self.known[tape] = self._run(tape)
        return self.known[tape]

    def _run(self, tape: bytes) -> Drawing | None:
        """One call of the program."""
        with open(os.path.join(self.folder.name, "tape"), "wb") as file:
            file.write(tape)
        ran = self.program.run(*self.words, folder=self.folder.name).needed(0, 5, 6, 7)
        if ran.status != 0:
            return None
        entry = next(iter(Certificate(ran.output.splitlines(keepends=True))))
        return Drawing(self.words, self.text, tape, ran.output, self.reader.read(entry.text))

    def draw(self, bits: Sequence[int]) -> Drawing | None:
        """The first object of the tape that differs from its rest where the bits are 1."""
        text = "".join("1" if bit else "0" for bit in bits)
        text += "0" * (-len(text) % 8)
        changes = int(text, 2).to_bytes(len(text) // 8, "big") if text else b""
        rest = self.rest * (len(changes) + REST)
        head = bytes(change ^ byte for change, byte in zip(changes, rest))
        return self.run(head + self.rest * REST)


BYTE = strategies.binary(min_size=1, max_size=1)


def drawn(draw, source: Source) -> Drawing:
    """Bits until a byte 0 comes, about one in 256; then the object."""
    bits: list[int] = []
    while len(bits) < MOST_BITS:
        byte = draw(BYTE)[0]
        if byte == 0:
            break
        bits.append(1 - byte % 2)
    drawing = source.draw(bits)
    if drawing is None:
        reject()
    RECORDER.add(drawing)
    return drawing


@strategies.composite
def _drawings(draw, source: Source) -> Drawing:
    """The runs."""
    return drawn(draw, source)


@strategies.composite
def _objects(draw, source: Source) -> Tree:
    """Their objects."""
    return drawn(draw, source).tree


def source_of(
    spec: Spec | str, x: str, min_size: int, max_size: int, turns: int, program: str | None
) -> Source:
    """A source over a specification: its text, a file's name, or read."""
    if isinstance(spec, str):
        spec = read_spec(spec) if "\n" in spec else read_spec_file(spec)
    return Source(spec, x, (min_size, max_size), turns, Program(program))


def drawings(
    spec: Spec | str,
    x: str,
    *,
    min_size: int = 0,
    max_size: int = 100,
    turns: int = 100_000,
    program: str | None = None,
) -> strategies.SearchStrategy:
    """Runs of `boltz sample`, each with its object.

    The specification is a text, the name of a file, or one that was read.
    """
    return _drawings(source_of(spec, x, min_size, max_size, turns, program))


def objects(
    spec: Spec | str,
    x: str,
    *,
    min_size: int = 0,
    max_size: int = 100,
    turns: int = 100_000,
    program: str | None = None,
) -> strategies.SearchStrategy:
    """The objects of such runs, as trees."""
    return _objects(source_of(spec, x, min_size, max_size, turns, program))
