#!/usr/bin/env python3
"""Makes the tables of draws in checks/draws.txt anew by a slow model, and compares; then draws objects of
the same specifications by the model and by the built program, and compares their cells.

    python3 checks/draws.py [PROGRAM]

The model shares no code with the program, nor with the one that wrote the tables. Values are in whole
numbers of units of 2^-48. The base and the bounds of each level are found by sweeps, the bits by
ChaCha20, and a draw looks at all options at each bit.
"""
import os
import subprocess
import sys
import tempfile

HERE = os.path.dirname(os.path.abspath(__file__))
PROGRAM = os.path.join(HERE, "..", "crates", "boltz_cli", "out", "boltz_cli")
TABLES = os.path.join(HERE, "draws.txt")
# How many objects of each specification the program draws.
OBJECTS = 100
ONE = 1 << 48
GREATEST = (1 << 64) - 1
MOST_BITS = 60

TREES = ("+", ["E", ("*", ["Z", "C", "C"])])
# Each table's specification (one class C), x, room and seed.
CASES = {
    "PARTS_OF_TREES": (TREES, (2499, 10000), 1000, 1),
    "SIXTY_FOUR_PARTS": (("+", ["Z"] * 64), (1, 2), 1000, 2),
    "SEQUENCES": (("Seq", ["Z"]), (99, 100), 1000, 3),
    "SEQUENCES_IN_LITTLE_ROOM": (("Seq", ["Z"]), (99, 100), 10, 4),
    "SETS": (("Set", ["Z"]), (1, 1), 1000, 5),
    "LARGE_SETS": (("Set", ["Z"]), (10, 1), 200, 6),
    "SETS_IN_LITTLE_ROOM": (("Set", ["Z"]), (10, 1), 10, 7),
    "CYCLES": (("Cyc", ["Z"]), (1, 2), 1000, 8),
    "LARGE_CYCLES": (("Cyc", ["Z"]), (99, 100), 200, 9),
}


class NoValue(Exception):
    """An upper value isn't there."""


# The bits of a seeded tape.

def words(seed):
    """The words of ChaCha20 with stream 0, under the seed's 8 bytes, least first, and zeros."""
    block = 0
    while True:
        start = [0x61707865, 0x3320646E, 0x79622D32, 0x6B206574, seed & 0xFFFFFFFF, seed >> 32]
        start += [0] * 6 + [block & 0xFFFFFFFF, block >> 32, 0, 0]
        state = list(start)
        for _ in range(10):
            for quarter in ((0, 4, 8, 12), (1, 5, 9, 13), (2, 6, 10, 14), (3, 7, 11, 15),
                            (0, 5, 10, 15), (1, 6, 11, 12), (2, 7, 8, 13), (3, 4, 9, 14)):
                turn_quarter(state, *quarter)
        yield from ((a + b) & 0xFFFFFFFF for a, b in zip(state, start))
        block += 1


def turn_quarter(state, a, b, c, d):
    for x, y, z, by in ((a, b, d, 16), (c, d, b, 12), (a, b, d, 8), (c, d, b, 7)):
        state[x] = (state[x] + state[y]) & 0xFFFFFFFF
        mixed = state[z] ^ state[x]
        state[z] = (mixed << by | mixed >> (32 - by)) & 0xFFFFFFFF


def bits_of(seed):
    for word in words(seed):
        yield from (word >> place & 1 for place in range(31, -1, -1))


# Values, to both sides.

def quotient(n, d, up):
    return -(-n // d) if up else n // d


def checked(value, up):
    """An upper value that fits; a lower one stops at the greatest number."""
    if up and value > GREATEST:
        raise NoValue
    return min(value, GREATEST)


def terms(kind, a, count, up):
    """The terms 0 to count - 1 of a series at a. In the tables none passes 64 bits."""
    power, found = ONE, []
    for j in range(count):
        if j:
            power = quotient(power * a, ONE * (j if kind == "Set" else 1), up)
        found.append(quotient(power, j, up) if kind == "Cyc" and j else 0 if kind == "Cyc" else power)
    return found


def series(kind, a, up):
    """The value of all sequences, sets or cycles of parts of the value a."""
    if kind == "Set":
        if up and a > 16 * ONE:
            raise NoValue
        found = terms(kind, a, 129, up)
        if max(found) > GREATEST:
            return checked(GREATEST + 1, up)
        return checked(sum(found[:128]) + (2 * found[128] if up else 0), up)
    if a >= ONE:
        return checked(GREATEST + 1, up)
    if kind == "Seq":
        return checked(quotient(ONE * ONE, ONE - a, up) - (0 if up or a == 0 else 1), up)
    power, total, j = a, 0, 1
    while True:
        total += quotient(power, j, up)
        if power <= 1 or j == 4096:
            break
        power, j = quotient(power * a, ONE, up), j + 1
    if up:
        power = quotient(power * a, ONE, up)
        total += quotient(power * ONE, (j + 1) * (ONE - a), up)
    return checked(total, up)


def times(a, b, up):
    return checked(quotient(a * b, ONE, up), up)


def product(values, up):
    result = values[0]
    for value in values[1:]:
        result = times(result, value, up)
    return result


def value(node, x, c, up):
    """The value of a node at x and the class's value c."""
    if node == "E":
        return ONE
    if node == "Z":
        return checked(quotient(x[0] * ONE, x[1], up), up)
    if node == "C":
        return c
    kind, parts = node
    values = [value(part, x, c, up) for part in parts]
    if kind == "+":
        return checked(sum(values), up)
    return product(values, up) if kind == "*" else series(kind, values[0], up)


def derivative(node, x, c, d):
    """The derivative of a node along d, rounded up."""
    if node in ("E", "Z"):
        return 0
    if node == "C":
        return d
    kind, parts = node
    values = [value(part, x, c, True) for part in parts]
    along = [derivative(part, x, c, d) for part in parts]
    if kind == "+":
        return checked(sum(along), True)
    if kind == "*":
        each = [product(values[:i] + [along[i]] + values[i + 1:], True) for i in range(len(parts))]
        return checked(sum(each), True)
    sequence = series("Seq" if kind != "Set" else "Set", values[0], True)
    outer = times(sequence, sequence, True) if kind == "Seq" else sequence
    return times(outer, along[0], True)


# The base and the levels.

def is_post_fixed(node, x, c):
    try:
        return c <= GREATEST and value(node, x, c, True) <= c
    except NoValue:
        return False


def candidates(node, x, start, sweeps):
    try:
        d = 0
        for _ in range(min(sweeps, 256)):
            d = checked(derivative(node, x, start, d) + 256, True)
        return [start + d * 4 ** j for j in range(21)]
    except NoValue:
        return []


def base(node, x):
    """The first candidate that is post-fixed."""
    start, done = 0, 0
    for turn in range(1, 7):
        while done < 4 ** turn:
            start, done = max(start, value(node, x, start, False)), done + 1
        for candidate in candidates(node, x, start, 4 ** turn):
            if is_post_fixed(node, x, candidate):
                return candidate
    raise NoValue


class Levels:
    """The bounds of a node's own value and of its parts' values at each level."""

    def __init__(self, node, x):
        self.node, self.x, self.low, self.high, self.done = node, x, 0, base(node, x), 0
        self.found = []

    def at(self, level):
        while len(self.found) < level:
            self.raise_one()
        return self.found[level - 1]

    def raise_one(self):
        while self.done < 4 ** (len(self.found) + 1):
            self.low = max(self.low, value(self.node, self.x, self.low, False))
            self.high = min(self.high, value(self.node, self.x, self.high, True))
            self.done += 1
        nodes = [self.node] + self.node[1]
        bounds = [(value(node, self.x, self.low, False), value(node, self.x, self.high, True)) for node in nodes]
        if self.found:
            bounds = [(max(a, c), min(b, d)) for (a, b), (c, d) in zip(bounds, self.found[-1])]
        self.found.append(bounds)


# Draws.

def option_values(node, bounds, room):
    """The first option, and the lower and upper values up to each option from it on."""
    (_, cap), kind = bounds[0], node[0]
    if kind == "+":
        lows, highs, first = [b[0] for b in bounds[1:]], [b[1] for b in bounds[1:]], 0
    else:
        first = 1 if kind == "Cyc" else 0
        lows = terms(kind, bounds[1][0], room + 1, False)[first:]
        highs = terms(kind, bounds[1][1], room + 1, True)[first:]
    return first, upto(lows, GREATEST), upto(highs, cap)


def upto(values, cap):
    total, found = 0, []
    for each in values:
        total = min(total + each, cap)
        found.append(total)
    return found


def decided(node, bounds, first, lows, highs, k, b):
    """The option that the cell decides, or "over"; None where it straddles."""
    low, high = bounds[0]
    last = len(lows) - 1
    for i, least in enumerate(lows):
        if (node[0] == "+" and i == last) or (k + 1) * high <= least << b:
            if i == 0 or k * low >= highs[i - 1] << b:
                return first + i
            break
    if node[0] != "+" and k * low >= (highs[last] if highs else 0) << b:
        return "over"
    return None


def drawn(node, levels, values, room, bits):
    """A draw: what it decides, and the cell of the bits that it takes."""
    k = 0
    for b in range(1, MOST_BITS + 1):
        k = 2 * k + next(bits)
        level = -(-b // 10)
        bounds = levels.at(level)
        if level not in values:
            values[level] = option_values(node, bounds, room)
        option = decided(node, bounds, *values[level], k, b)
        if option is not None:
            return option, k, b
    return "straddles", k, MOST_BITS


def whole(m, bits):
    """A whole number below m, and the cell of the bits that it takes."""
    k = 0
    for b in range(1, MOST_BITS + 1):
        k = 2 * k + next(bits)
        if k * m >> b == ((k + 1) * m - 1) >> b:
            return k * m >> b, k, b
    return "straddles", k, MOST_BITS


def table(name, count):
    """So many draws of a table, each with its number of bits."""
    if name == "WHOLE_NUMBERS":
        bits = bits_of(10)
        draws = [whole(2 + 10 * i, bits) for i in range(count)]
    else:
        node, x, room, seed = CASES[name]
        levels, values, bits = Levels(node, x), {}, bits_of(seed)
        draws = [drawn(node, levels, values, room, bits) for _ in range(count)]
    return ["%s/%d" % (option, b) for option, _, b in draws]


# Objects, whose labels are drawn after their shape.

def is_labelled(node):
    return node[0] in ("Set", "Cyc")


def attempt(node, levels, values, room, bits):
    """The size of the object that an attempt makes, None where it goes over the room; and the cells."""
    cells, size, waiting = [], 0, 1
    while waiting:
        option, k, b = drawn(node, levels, values, room, bits)
        cells.append((k, b))
        if option == "over":
            return None, cells
        if node[0] != "+":
            size, waiting = option, 0
        elif node[1][option] == "E":
            waiting -= 1
        else:
            size, waiting = size + 1, waiting + (1 if node[1][option] != "Z" else -1)
        if size > room:
            return None, cells
    if is_labelled(node):
        cells += [whole(m, bits)[1:] for m in range(size, 1, -1)]
    return size, cells


def objects(name):
    """The lines of objects and cells that the program prints, and the counts of its last line."""
    node, x, room, seed = CASES[name]
    levels, values, bits = Levels(node, x), {}, bits_of(seed)
    lines, kept, thrown, used = [], 0, 0, 0
    while kept < OBJECTS:
        size, cells = attempt(node, levels, values, room, bits)
        if size is None:
            thrown += 1
        else:
            kept += 1
            lines.append("object %d at %d size %d" % (kept, used, size))
            lines.append("cells" + "".join(" %d/%d" % cell for cell in cells))
        used += sum(b for _, b in cells)
    return lines, "end done kept %d thrown %d bits %d" % (kept, thrown, used)


def text_of(node):
    if isinstance(node, str):
        return node
    kind, parts = node
    if kind in "+*":
        return kind.join(text_of(part) for part in parts)
    return "%s(%s)" % (kind, text_of(parts[0]))


def difference(program, name):
    """What differs between the objects of the program and those of the model, None where nothing does."""
    node, x, room, seed = CASES[name]
    with tempfile.TemporaryDirectory() as folder:
        with open(os.path.join(folder, "spec"), "w") as file:
            mode = "labelled" if is_labelled(node) else "unlabelled"
            file.write("%s\nC = %s\n" % (mode, text_of(node)))
        words = ["sample", "spec", "%d/%d" % x, "--seed", str(seed), "--max", str(room), "--count", str(OBJECTS)]
        ran = subprocess.run([program] + words, cwd=folder, stdin=subprocess.DEVNULL,
                             stdout=subprocess.PIPE, stderr=subprocess.STDOUT, timeout=120)
    got = [line.rstrip() for line in ran.stdout.decode(errors="replace").split("\n")]
    lines, end = objects(name)
    wanted = [line for line in got if line.startswith(("object ", "cells"))]
    for i, line in enumerate(lines):
        if i >= len(wanted) or wanted[i] != line:
            return "%r, and the model has %r" % (wanted[i:i + 1] or got[-3:], line)
    last = [line for line in got if line.startswith("end ")]
    return None if last and last[0].startswith(end + " ") else "%r, and the model has %r" % (last, end)


def main():
    program = os.path.abspath(sys.argv[1] if len(sys.argv) > 1 else PROGRAM)
    with open(TABLES, encoding="utf-8") as file:
        blocks = [block for block in file.read().split("\n\n") if not block.startswith("#")]
    passed = failed = 0
    for block in blocks:
        name, _, text = block.partition("\n")
        draws = text.split()
        for i, (got, wanted) in enumerate(zip(draws, table(name, len(draws)))):
            if got == wanted:
                passed += 1
            else:
                failed += 1
                print("%s: draw %d is %s, and the model's is %s" % (name, i, got, wanted))
    for name in CASES:
        line = difference(program, name)
        passed, failed = passed + (line is None), failed + (line is not None)
        if line is not None:
            print("%s: the program has %s" % (name, line))
    print("%d passed, %d failed" % (passed, failed))
    return 1 if failed or len(blocks) != len(CASES) + 1 else 0


if __name__ == "__main__":
    sys.exit(main())
