#!/usr/bin/env python3
"""Checks certificates that the built program prints, by docs/formats.md and docs/rules.md alone.

    python3 checks/certificates.py PROGRAM

It shares no code with the program and none with the other checks. Of the certificates of every example, at 40, 48
and 52 fraction bits and with several seeds, the lines are read, the digest is compared with that of the canonical
text, the base is tested to be post-fixed, and places, numbers and the closing are compared. Where a specification has
unions, products and leaves alone, each entry's cells are drawn again, and its size and text compared.
"""
import hashlib
import os
import re
import subprocess
import sys

ROOT = os.path.join(os.path.dirname(os.path.abspath(__file__)), "..")
EXAMPLES = os.path.join(ROOT, "examples")
SEEDS = range(1, 4)
GREATEST = 2 ** 64 - 1
HEADER = ("boltzmann 2", r"mode (unlabelled|labelled)", r"spec ([0-9a-f]{64})", r"x (\d+)/(\d+)", r"fraction (\d+)",
          r"window (\d+) (\d+)")


class Wrong(Exception):
    """What isn't as the pages say."""


# The specification, from its canonical text.

def read_spec(text):
    """The names, the bodies' numbers and the nodes: (kind, parts, word or range)."""
    lines = text.splitlines()[1:]
    names, bodies, nodes = [line.split(" = ")[0] for line in lines], [], []
    for line in lines:
        tokens = re.findall(r"[EZ]:\w+|\w+|[<>]=|[=+*()]", line.split(" = ", 1)[1])
        bodies.append(read_joined(tokens, names, nodes, "+"))
    return names, bodies, nodes


def read_joined(tokens, names, nodes, sign):
    parts = []
    while True:
        parts.append(read_joined(tokens, names, nodes, "*") if sign == "+" else read_factor(tokens, names, nodes))
        if not tokens or tokens[0] != sign:
            break
        tokens.pop(0)
    return parts[0] if len(parts) == 1 else added(nodes, sign, parts, None)


def read_factor(tokens, names, nodes):
    token = tokens.pop(0)
    if token == "(":
        part = read_joined(tokens, names, nodes, "+")
        tokens.pop(0)
        return part
    if token in ("Seq", "Set", "Cyc"):
        low, high = (1 if token == "Cyc" else 0), None
        if tokens[0] != "(":
            sign, number = tokens.pop(0), int(tokens.pop(0))
            low, high = (number if sign != "<=" else low), (number if sign != ">=" else None)
        tokens.pop(0)
        part = read_joined(tokens, names, nodes, "+")
        tokens.pop(0)
        return added(nodes, token, [part], (low, high))
    if token[0] in "EZ" and token[1:2] in ("", ":"):
        return added(nodes, token[0], [], token[2:] or token)
    return added(nodes, "class", [names.index(token)], None)


def added(nodes, *node):
    nodes.append(node)
    return len(nodes) - 1


# Upper values, section 1 and 2; None where there is none.

def above(n, d):
    return -(-n // d)


def fits(value):
    return value if value is not None and value <= GREATEST else None


def seq_up(a, one):
    return fits(above(one * one, one - a)) if a < one else None


def terms_up(kind, a, one, last):
    """The terms 0 to last of a number of parts; None where one is above the greatest. A power may be above it."""
    power, out = one, []
    for j in range(last + 1):
        if j:
            power = above(power * a, j * one if kind == "Set" else one)
        out.append(above(power, j) if kind == "Cyc" and j else power)
    return out if max(out) <= GREATEST else None


def counted_up(kind, a, low, high, one):
    if high is not None:
        terms = terms_up(kind, a, one, high)
        return terms and fits(sum(terms[low:high + 1]))
    if kind == "Seq":
        power, whole = terms_up(kind, a, one, low), seq_up(a, one)
        if power is None or whole is None:
            return None
        return whole if low == 0 else fits(above(power[low] * whole, one))
    if kind == "Set":
        terms = terms_up(kind, a, one, 128) if a <= 16 * one else None
        return terms and fits(sum(terms[low:128]) + 2 * terms[128])
    if a >= one:
        return None
    powers = [None, a]
    while powers[-1] > 1 and len(powers) <= 4096:
        powers.append(above(powers[-1] * a, one))
    last = max(len(powers) - 1, low - 1)
    while len(powers) <= last + 1:
        powers.append(above(powers[-1] * a, one))
    rest = above(powers[last + 1] * one, (last + 1) * (one - a))
    return fits(sum(above(powers[j], j) for j in range(low, last + 1)) + rest)


def values(nodes, vector, x, one, up):
    """The values of all nodes at a vector; lower ones for leaves, unions and products alone."""
    out = []
    for kind, parts, more in nodes:
        if kind == "class":
            value = vector[parts[0]]
        elif kind in "EZ":
            value = one if kind == "E" else above(x[0] * one, x[1]) if up else x[0] * one // x[1]
        elif any(out[part] is None for part in parts):
            value = None
        elif kind == "+":
            value = sum(out[part] for part in parts)
        elif kind == "*":
            value = out[parts[0]]
            for part in parts[1:]:
                if value is not None:
                    value = above(value * out[part], one) if up else min(value * out[part] // one, GREATEST)
                    value = fits(value) if up else value
        else:
            value = counted_up(kind, out[parts[0]], *more, one)
        out.append(fits(value) if up else min(value, GREATEST))
    return out


# Levels and draws, sections 4 to 6.

class Levels:
    """The bounds of the nodes by level."""

    def __init__(self, spec, base, x, one):
        self.spec, self.x, self.one, self.bounds = spec, x, one, []
        self.low, self.high, self.done = [0] * len(base), list(base), 0

    def at(self, level):
        _, bodies, nodes = self.spec
        while len(self.bounds) < level:
            while self.done < 4 ** (len(self.bounds) + 1):
                low = values(nodes, self.low, self.x, self.one, False)
                high = values(nodes, self.high, self.x, self.one, True)
                new = ([max(old, low[e]) for old, e in zip(self.low, bodies)],
                       [min(old, high[e]) for old, e in zip(self.high, bodies)])
                self.done = self.done + 1 if new != (self.low, self.high) else 4 ** 6
                self.low, self.high = new
            low = values(nodes, self.low, self.x, self.one, False)
            high = values(nodes, self.high, self.x, self.one, True)
            if self.bounds:
                low, high = list(map(max, low, self.bounds[-1][0])), list(map(min, high, self.bounds[-1][1]))
            self.bounds.append((low, high))
        return self.bounds[level - 1]


def decided(levels, e, k, b):
    low, high = levels.at(above(b, 10))
    parts = levels.spec[2][e][1]
    for i in range(len(parts)):
        upto = min(sum(low[part] for part in parts[:i + 1]), GREATEST)
        if i == len(parts) - 1 or (k + 1) * high[e] <= upto << b:
            before = min(high[e], sum(high[part] for part in parts[:i]))
            return i if i == 0 or k * low[e] >= before << b else None
    return None


def made(levels, bits, room):
    """The text, the size and the cells that bits make, all of them being used."""
    _, bodies, nodes = levels.spec
    text, cells, size, pending, place = [], [], 0, [bodies[0]], 0
    while pending:
        e = pending.pop()
        if isinstance(e, str):
            text.append(e)
            continue
        kind, parts, word = nodes[e]
        if kind == "class":
            pending.append(bodies[parts[0]])
        elif kind in "EZ":
            size += kind == "Z"
            text.append(word)
        elif kind == "*":
            pending += [")"] + [step for part in reversed(parts) for step in (part, " ")]
            pending[-1] = "("
        else:
            k = b = 0
            option = None
            while option is None:
                if place == len(bits) or b == 60:
                    raise Wrong("cells")
                k, b, place = 2 * k + int(bits[place]), b + 1, place + 1
                option = decided(levels, e, k, b)
            cells.append("%d/%d" % (k, b))
            text.append("%d." % option)
            pending.append(parts[option])
    if place != len(bits) or size > room:
        raise Wrong("cells")
    return "".join(text), size, cells


def matched(pattern, line):
    found = re.fullmatch(pattern, line)
    if not found:
        raise Wrong("the line %r" % line)
    return found.groups()


def check(text, canonical, replay=True):
    """The number of entries and of those that were drawn again."""
    lines = text.splitlines()
    head = [matched(pattern, line) for pattern, line in zip(HEADER, lines)]
    (_, (mode,), (digest,), x, (fraction,), (least, most)) = head
    spec = names, bodies, nodes = read_spec(canonical)
    if mode != canonical.split()[0] or digest != hashlib.sha256(canonical.encode()).hexdigest():
        raise Wrong("mode or digest")
    at, base, one = 6, [], 1 << int(fraction)
    for name in names:
        base.append(int(matched("base %s (\\d+)" % name, lines[at])[0]))
        at += 1
    x = tuple(map(int, x))
    upper = values(nodes, base, x, one, True)
    if any(upper[e] is None or upper[e] > entry for e, entry in zip(bodies, base)):
        raise Wrong("the base isn't post-fixed")
    plain = replay and all(node[0] in ("E", "Z", "class", "+", "*") for node in nodes)
    levels, entries, drawn, after = Levels(spec, base, x, one), 0, 0, 0
    while lines[at].startswith("object"):
        number, place, size = map(int, matched(r"object (\d+) at (\d+) size (\d+)", lines[at]))
        (written,), (cells,) = matched("text (.+)", lines[at + 1]), matched("cells((?: \\d+/\\d+)*)", lines[at + 2])
        pairs = [tuple(map(int, cell.split("/"))) for cell in cells.split()]
        bits = "".join("{:0{}b}".format(k, b) for k, b in pairs)
        if number != entries + 1 or place < after or not int(least) <= size <= int(most):
            raise Wrong("entry %d" % number)
        if plain and made(levels, bits, int(most)) != (written, size, cells.split()):
            raise Wrong("entry %d" % number)
        entries, drawn, after, at = number, drawn + plain, place + len(bits), at + 3
    kept, _, used, _ = map(int, matched(r"end done kept (\d+) thrown (\d+) bits (\d+) turns (\d+)", lines[at]))
    if kept != entries or used < after or len(lines) != at + 1:
        raise Wrong("the closing")
    return entries, drawn


def main(words):
    if len(words) != 1:
        sys.exit(__doc__)
    with open(os.path.join(EXAMPLES, "README.md"), encoding="utf-8") as file:
        rows = re.findall(r"^\| \[(\w+)\]\(.*\| (\d+/\d+) \| [\d.]+ \|$", file.read(), re.M)
    certificates = entries = drawn = bad = refused = 0
    for name, x in rows:
        path = os.path.join(EXAMPLES, name + ".boltz")
        canonical = printed(words[0], "spec", path).rsplit("end done", 1)[0]
        for fraction in ("40", "48", "52"):
            for seed in SEEDS:
                text = printed(words[0], "sample", path, x, "--seed", str(seed), "--max", "300", "--count", "10",
                               "--turns", "1000000", "--fraction", fraction)
                if text.startswith("refused upper"):
                    refused += 1
                    continue
                try:
                    certificates += 1
                    entries, drawn = map(sum, zip((entries, drawn), check(text, canonical)))
                except Wrong as wrong:
                    print("%s at %s, %s fraction bits, seed %d: %s" % (name, x, fraction, seed, wrong))
                    bad += 1
    print("certificates: %d with %d entries, %d of them drawn again; %d without a base; %d are wrong" % (
        certificates, entries, drawn, refused, bad))
    return 1 if bad else 0


def printed(program, *words):
    return subprocess.run([program, *words], stdout=subprocess.PIPE).stdout.decode()


if __name__ == "__main__":
    sys.exit(main(sys.argv[1:]))
