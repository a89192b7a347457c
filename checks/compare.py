#!/usr/bin/env python3
"""Compares the built program with a slow model of drawings, on random specifications and tapes.

    python3 checks/compare.py [PROGRAM] [--cases N] [--seed N]

The specifications are unlabelled, of up to three classes that may refer to each other, with unions and
products alone. The model has values in whole numbers of units of 2^-48. It shares no code with the
program: it follows the definitions of crates/rounded_map/specs (values), newton_upper/specs (the
candidates for a base; a case in which none is post-fixed isn't compared), oracle_memo/specs (levels),
choice_draw/specs (what a cell decides) and size_window/specs (turns).
"""
import hashlib
import os
import random
import subprocess
import sys
import tempfile

HERE = os.path.dirname(os.path.abspath(__file__))
PROGRAM = os.path.join(HERE, "..", "crates", "boltz_cli", "out", "boltz_cli")
BITS = 48
ONE = 1 << BITS
GREATEST = (1 << 64) - 1
MOST_BITS = 60
MOST_ATOMS = 1000
NAMES = "ABC"


class Node:
    """A node: its kind ("E", "Z", a class's name, "+" or "*"), its parts, and its number."""

    def __init__(self, kind, parts=()):
        self.kind, self.parts, self.number = kind, list(parts), None

    def text(self, inner=False):
        if self.kind == "+":
            text = " + ".join(part.text() for part in self.parts)
            return "(%s)" % text if inner else text
        return "*".join(part.text(True) for part in self.parts) if self.kind == "*" else self.kind

    def all(self):
        """The nodes of this one, each after its parts."""
        return [node for part in self.parts for node in part.all()] + [self]


class Ended(Exception):
    """The drawing ends before its object is made: why, the status, and a line before the last."""

    def __init__(self, why, status, line=""):
        super().__init__(why)
        self.why, self.status, self.line = why, status, line


# Random cases.

def random_product(dice, factors, guarded):
    """A product of factors, or one of them. Where it is guarded, its first factor is an atom."""
    parts = [Node("Z")] if guarded else []
    while len(parts) < 1 or (len(parts) < 4 and dice.random() < 0.6):
        if dice.random() < 0.1:
            parts.append(Node("+", [Node(dice.choice("EZ")) for _ in range(dice.randint(2, 3))]))
        else:
            parts.append(Node(dice.choice(factors)))
    return parts[0] if len(parts) == 1 else Node("*", parts)


def random_body(dice, names, later):
    """A union: an option without classes, then some that name later classes, or any behind an atom."""
    options = [random_product(dice, "EZ", False)]
    while len(options) < 2 or (len(options) < 4 and dice.random() < 0.4):
        guarded = dice.random() < 0.7
        options.append(random_product(dice, "EZ" + (2 * names if guarded else 2 * later), guarded))
    dice.shuffle(options)
    options = [part for option in options for part in (option.parts if option.kind == "+" else [option])]
    return Node("+", options)


def random_classes(dice):
    """The bodies of the classes, with numbered nodes."""
    names = NAMES[:dice.randint(1, 3)]
    bodies = [random_body(dice, names, names[c + 1:]) for c in range(len(names))]
    for number, node in enumerate(node for body in bodies for node in body.all()):
        node.number = number
    return bodies


def random_fraction(dice):
    """x: mostly small, often of small numbers, where thresholds are dyadic or thirds."""
    greatest = dice.choice([1, 2, 3, 4, 8, 16, 100, 1000000])
    numerator = dice.randint(1, greatest)
    return numerator, min(numerator * dice.choice([1, 2, 3, 4, 5, 6, 8, 12]) + dice.randint(0, greatest), 1000000)


# Values.

class Values:
    """Values of the nodes of a specification at x."""

    def __init__(self, bodies, x):
        self.bodies, self.nodes = bodies, [node for body in bodies for node in body.all()]
        self.roots = [body.number for body in bodies]
        num, den = x
        self.atom_low, self.atom_high = num * ONE // den, -(-num * ONE // den)

    def low(self, classes):
        """The lower value of each node."""
        out = []
        for node in self.nodes:
            parts = [out[part.number] for part in node.parts]
            if node.kind in NAMES:
                value = classes[NAMES.index(node.kind)]
            elif node.kind == "*":
                value = parts[0]
                for part in parts[1:]:
                    value = min(value * part // ONE, GREATEST)
            else:
                value = {"E": ONE, "Z": self.atom_low, "+": sum(parts)}[node.kind]
            out.append(min(value, GREATEST))
        return out

    def high(self, classes):
        """The upper value of each node, None where any node has none."""
        out = []
        for node in self.nodes:
            parts = [out[part.number] for part in node.parts]
            if node.kind in NAMES:
                value = classes[NAMES.index(node.kind)]
            elif node.kind == "*":
                value = product_high(parts)
            else:
                value = {"E": ONE, "Z": self.atom_high, "+": sum(parts)}[node.kind]
            if value is None or value > GREATEST:
                return None
            out.append(value)
        return out

    def slope(self, values, classes):
        """The derivative of each node along a vector at upper values, None where any node has none."""
        out = []
        for node in self.nodes:
            if node.kind in NAMES:
                value = classes[NAMES.index(node.kind)]
            elif node.kind == "*":
                value = self.product_slope(node, values, out)
            else:
                value = sum(out[part.number] for part in node.parts)
            if value is None or value > GREATEST:
                return None
            out.append(value)
        return out

    def product_slope(self, node, values, out):
        total = 0
        for place in node.parts:
            term = product_high([(out if part is place else values)[part.number] for part in node.parts])
            if term is None:
                return None
            total += term
        return total

    def sweep_low(self, classes):
        out = self.low(classes)
        return [max(old, out[root]) for old, root in zip(classes, self.roots)]

    def sweep_high(self, classes):
        out = self.high(classes)
        return [min(old, out[root]) for old, root in zip(classes, self.roots)]

    def sweep_slope(self, values, classes):
        out = self.slope(values, classes)
        return None if out is None else [256 + out[root] for root in self.roots]

    def is_base(self, classes):
        out = self.high(classes)
        return out is not None and all(out[root] <= entry for entry, root in zip(classes, self.roots))


def product_high(parts):
    """The product, rounded up after each part."""
    value = parts[0]
    for part in parts[1:]:
        value = -(-value * part // ONE)
        if value > GREATEST:
            return None
    return value


def repeated(sweep, vector, times):
    """The vector after so many sweeps; one that a sweep doesn't change stays as it is."""
    for _ in range(times):
        new = sweep(vector)
        if new is None or max(new) > GREATEST:
            return None
        if new == vector:
            break
        vector = new
    return vector


def base_of(values):
    """The first post-fixed candidate, if there is one."""
    zeros = [0] * len(values.bodies)
    low, done = zeros, 0
    for turn in range(1, 7):
        low, done = repeated(values.sweep_low, low, 4 ** turn - done), 4 ** turn
        at = values.high(low)
        along = at and repeated(lambda vector: values.sweep_slope(at, vector), zeros, min(done, 256))
        for j in range((BITS - 8) // 2 + 1 if along else 0):
            candidate = [entry + 4 ** j * more for entry, more in zip(low, along)]
            if max(candidate) <= GREATEST and values.is_base(candidate):
                return candidate
    return None


class Table:
    """Bounds of the nodes at the levels from 1 on, made when they are asked for."""

    def __init__(self, values, base):
        self.values, self.low, self.high = values, [0] * len(base), base
        self.levels, self.done = [], 0

    def level(self, number):
        while len(self.levels) < number:
            more = 4 ** (len(self.levels) + 1) - self.done
            self.low = repeated(self.values.sweep_low, self.low, more)
            self.high = repeated(self.values.sweep_high, self.high, more)
            self.done += more
            low, high = self.values.low(self.low), self.values.high(self.high)
            if self.levels:
                low = [max(pair) for pair in zip(low, self.levels[-1][0])]
                high = [min(pair) for pair in zip(high, self.levels[-1][1])]
            self.levels.append((low, high))
        return self.levels[number - 1]


# Draws.

def aimed_number(dice, values, table):
    """60 bits at the end of some option of the first union, or a few units beside it."""
    low, high = table.level(dice.choice([1, 2, 3]))
    union = values.bodies[0]
    upto = sum(low[part.number] for part in union.parts[:dice.randrange(1, len(union.parts))])
    number = (upto << MOST_BITS) // high[union.number] + dice.choice([0, 0, 0, 1, -1, 1 << 8, 1 << 13, -(1 << 13)])
    return min(max(number, 0), (1 << MOST_BITS) - 1)


def random_tape(dice, values, table):
    """Bytes at random, or bits that stay beside the end of an option for long."""
    if dice.random() < 0.5:
        return dice.randbytes(dice.choice([0, 1, 1, 2, 3, 12, 100]))
    tape = (aimed_number(dice, values, table) << 4 | dice.getrandbits(4)).to_bytes(8, "big") + dice.randbytes(40)
    return tape[:dice.choice([4, 7, 8, 16, 48])]


class Drawing:
    """Attempts until an object is made: the bits used, the turns made, and the attempts thrown away."""

    def __init__(self, bodies, table, tape):
        self.bodies, self.table = bodies, table
        self.bits = "".join("{:08b}".format(byte) for byte in tape)
        self.used = self.turns = self.thrown = self.place = 0
        self.cells, self.size = [], 0

    def make(self):
        """The text of the first object of at most 1000 atoms."""
        while True:
            text = self.attempt()
            if text is not None:
                return text
            self.thrown += 1

    def attempt(self):
        """The text of an object, None where it has too many atoms."""
        self.turns += 1
        self.place, self.cells, self.size = self.used, [], 0
        text, pending = [], [self.bodies[0]]
        while pending:
            node = pending.pop()
            if isinstance(node, str):
                text.append(node)
                continue
            self.turns += 1
            if node.kind == "+":
                option = self.choose(node)
                text.append("%d." % option)
                pending.append(node.parts[option])
            elif node.kind == "*":
                pending.append(")")
                for part in reversed(node.parts):
                    pending += [part, " "]
                pending[-1] = "("
            elif node.kind in NAMES:
                pending.append(self.bodies[NAMES.index(node.kind)])
            else:
                self.size += node.kind == "Z"
                if self.size > MOST_ATOMS:
                    return None
                text.append(node.kind)
        return "".join(text)

    def choose(self, node):
        """The option that the least number of bits decides."""
        k = 0
        for b in range(1, MOST_BITS + 1):
            if self.used == len(self.bits):
                raise Ended("tape-ended", 5)
            k = 2 * k + int(self.bits[self.used])
            self.used += 1
            option = decided(node, self.table.level(-(-b // 10)), k, b)
            if option is not None:
                self.cells.append("%d/%d" % (k, b))
                return option
        low, high = self.table.level(6)
        line = "undecided node %d cell %d/%d within %d %d\n"
        raise Ended("undecided", 6, line % (node.number, k, MOST_BITS, low[node.number], high[node.number]))


def decided(node, bounds, k, b):
    """The option whose share of the node holds all of the cell from k / 2^b to (k + 1) / 2^b, if it is sure."""
    lows, highs = bounds
    low, high = lows[node.number], highs[node.number]
    ends_low = begins_high = 0
    for option, part in enumerate(node.parts):
        ends_low = min(ends_low + lows[part.number], GREATEST)
        is_last = option + 1 == len(node.parts)
        if is_last or (k + 1) * high <= ends_low << b:
            is_reached = option == 0 or min(high, begins_high) << b <= k * low
            return option if is_reached else None
        begins_high += highs[part.number]
    return None


def expected(spec, bodies, x, base, table, tape):
    """The status, and the text that is to be written."""
    digest = hashlib.sha256(spec.encode()).hexdigest()
    text = "boltzmann 2\nmode unlabelled\nspec %s\nx %d/%d\nfraction 48\nwindow 0 1000\n" % (digest, *x)
    text += "".join("base %s %d\n" % entry for entry in zip(NAMES, base))
    drawing = Drawing(bodies, table, tape)
    try:
        made = drawing.make()
        text += "object 1 at %d size %d\ntext %s\n" % (drawing.place, drawing.size, made)
        text += " ".join(["cells"] + drawing.cells) + "\n"
        why, status, kept = "done", 0, 1
    except Ended as ended:
        text += ended.line
        why, status, kept = ended.why, ended.status, 0
    counts = (why, kept, drawing.thrown, drawing.used, drawing.turns)
    return status, text + "end %s kept %d thrown %d bits %d turns %d\n" % counts


def random_case(dice):
    """A specification's text, x, a tape, and what the program is to answer and write."""
    base = None
    while base is None:
        bodies, x = random_classes(dice), random_fraction(dice)
        values = Values(bodies, x)
        base = base_of(values)
    table = Table(values, base)
    tape = random_tape(dice, values, table)
    spec = "unlabelled\n" + "".join("%s = %s\n" % (name, body.text()) for name, body in zip(NAMES, bodies))
    return spec, x, tape, expected(spec, bodies, x, base, table, tape)


def answer(program, folder, text, x, tape):
    """What the program answers and writes."""
    for name, content in (("spec", text.encode()), ("tape", tape)):
        with open(os.path.join(folder, name), "wb") as file:
            file.write(content)
    words = [program, "sample", "spec", "%d/%d" % x, "--tape", "tape"]
    ran = subprocess.run(words, cwd=folder, stdin=subprocess.DEVNULL, stdout=subprocess.PIPE,
                         stderr=subprocess.STDOUT, timeout=60)
    return ran.returncode, ran.stdout.decode("latin1")


def option(name, usual):
    """The number after an option's name."""
    return int(sys.argv[sys.argv.index(name) + 1]) if name in sys.argv else usual


def main():
    program = sys.argv[1] if len(sys.argv) > 1 and not sys.argv[1].startswith("-") else PROGRAM
    cases, dice, failed = option("--cases", 2000), random.Random(option("--seed", 1)), 0
    with tempfile.TemporaryDirectory() as folder:
        for _ in range(cases):
            text, x, tape, wanted = random_case(dice)
            got = answer(os.path.abspath(program), folder, text, x, tape)
            if got != wanted:
                failed += 1
                print("%r at %d/%d, tape %s:\n  got %r\n  wanted %r" % (text, *x, tape.hex(), got, wanted))
    print("%d passed, %d failed" % (cases - failed, failed))
    return 1 if failed else 0


if __name__ == "__main__":
    sys.exit(main())
