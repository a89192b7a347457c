#!/usr/bin/env python3
"""What `verify` is to answer about a certificate, by docs/formats.md and docs/rules.md alone.

It shares no code with the program. The upper values and the tables come from checks/certificates.py; here are the
lower values, every draw, the labels, the objects' texts, a strict reader, and the tests in their order.
"""
import hashlib
import re

from certificates import GREATEST, Levels as UpperLevels, above, counted_up, decided, fits, read_spec, values

NUMBER = rb"(0|[1-9][0-9]{0,19})"
NAME = rb"([A-Za-z][A-Za-z0-9_]{0,31})"
WORDS = (b"done", b"tape-ended", b"undecided", b"turn-limit", b"read-fault")
LIMIT = 10 ** 6
MOST_BITS = 60
MOST_PARTS = 64


class Refused(Exception):
    """A certificate that can't be read: the line."""


class Invalid(Exception):
    """A test that fails: the line, the reason."""


# The reader.

class Lines:
    """The lines of a certificate, one after the other; each ends with a line feed."""

    def __init__(self, content):
        self.lines, self.at = content.split(b"\n"), 0
        self.rest = self.lines.pop()

    def next(self, pattern, *limits):
        """The fields of the next line, numbers being below their limits; the line number is `at` afterwards."""
        found = self.peek(pattern, *limits)
        if found is None:
            raise Refused(self.at + 1)
        self.at += 1
        return found

    def peek(self, pattern, *limits):
        found = self.at < len(self.lines) and re.fullmatch(pattern, self.lines[self.at])
        if not found:
            return None
        fields = found.groups()
        return fields if all(int(field) < limit for field, limit in zip(fields, limits)) else None


class Certificate:
    """What a certificate has in it, with the numbers of the lines."""

    def __init__(self, content):
        lines = Lines(content)
        self.version = 2 if lines.next(rb"boltzmann ([12])")[0] == b"2" else 1
        self.mode = lines.next(rb"mode (unlabelled|labelled)")[0].decode()
        self.digest = lines.next(rb"spec ([0-9a-f]{64})")[0].decode() if self.version == 2 else None
        self.x = tuple(map(int, lines.next(rb"x %s/%s" % (NUMBER, NUMBER), LIMIT + 1, LIMIT + 1)))
        if 0 in self.x:
            raise Refused(lines.at)
        self.fraction = int(lines.next(rb"fraction %s" % NUMBER, 2 ** 32)[0])
        self.window = tuple(map(int, lines.next(rb"window %s %s" % (NUMBER, NUMBER), 2 ** 64, 2 ** 64)))
        self.base, self.header = [], lines.at
        while (found := lines.peek(rb"base %s %s" % (NAME, NUMBER))) is not None:
            name = found[0].decode()
            if int(found[1]) > GREATEST or name in ("E", "Z", "Seq", "Set", "Cyc") or name in dict(self.base):
                raise Refused(lines.at + 1)
            self.base.append((name, int(found[1])))
            lines.at += 1
        self.entries = []
        while lines.at < len(lines.lines) and lines.lines[lines.at].startswith(b"object "):
            self.entries.append(self.entry(lines))
        self.closing(lines)

    def entry(self, lines):
        found = lines.next(rb"object %s at %s size %s" % ((NUMBER,) * 3), *[2 ** 64] * 3)
        number, place, size = map(int, found)
        at = lines.at
        text, = lines.next(rb"text ([ -~]+)")
        cells, = lines.next(rb"cells((?: (?:0|[1-9][0-9]*)/[1-9][0-9]?)*)")
        cells = [tuple(map(int, cell.split(b"/"))) for cell in cells.split()]
        if any(b > MOST_BITS or k >= 1 << b for k, b in cells):
            raise Refused(lines.at)
        return at, number, place, size, text.decode(), cells

    def closing(self, lines):
        node = lines.peek(rb"undecided node %s cell %s/60 within %s %s" % ((NUMBER,) * 4),
                          2 ** 32, 2 ** 60, 2 ** 64, 2 ** 64)
        label = lines.peek(rb"undecided label %s cell %s/60" % ((NUMBER,) * 2), 2 ** 64, 2 ** 60)
        lines.at += bool(node or label)
        word, kept, *_ = lines.next(rb"end ([a-z-]+) kept %s thrown %s bits %s turns %s" % ((NUMBER,) * 4))
        numbers = [int(number) for number in (kept, *_)]
        if word not in WORDS or max(numbers) > GREATEST or (word == b"undecided") != bool(node or label):
            raise Refused(lines.at)
        self.kept, self.closed = numbers[0], lines.at
        if lines.at != len(lines.lines) or lines.rest:
            raise Refused(lines.at + 1)


# Lower values, and the values from low to i.

def seq_low(a, one):
    return min(one * one // (one - a) - (a > 0), GREATEST) if a < one else GREATEST


def terms_low(kind, a, one, last):
    power, out = one, []
    for j in range(last + 1):
        if j:
            power = power * a // (j * one if kind == "Set" else one)
        out.append(power // j if kind == "Cyc" and j else power)
    return out


def sum_low(terms, low):
    """The sum from the term low on: 0 where one before it is above the greatest."""
    return 0 if max(terms[:low], default=0) > GREATEST else min(sum(terms[low:]), GREATEST)


def counted_low(kind, a, low, high, one):
    if high is not None:
        return sum_low(terms_low(kind, a, one, high), low)
    if kind == "Seq":
        return min(terms_low(kind, a, one, low)[low] * seq_low(a, one) // one, GREATEST) if low else seq_low(a, one)
    if kind == "Set":
        return sum_low(terms_low(kind, a, one, 127), low)
    if a >= one:
        return GREATEST
    last, power = 1, a
    while power > 1 and last < 4096:
        last, power = last + 1, power * a // one
    return sum_low(terms_low(kind, a, one, max(last, low - 1)), low)


def low_values(nodes, vector, x, one):
    out = []
    for kind, parts, more in nodes:
        if kind == "class":
            value = vector[parts[0]]
        elif kind in "EZ":
            value = one if kind == "E" else x[0] * one // x[1]
        elif kind == "+":
            value = sum(out[part] for part in parts)
        elif kind == "*":
            value = out[parts[0]]
            for part in parts[1:]:
                value = min(value * out[part] // one, GREATEST)
        else:
            value = counted_low(kind, out[parts[0]], *more, one)
        out.append(min(value, GREATEST))
    return out


class Levels(UpperLevels):
    """The bounds of the nodes by level, those of numbers of parts too."""

    def at(self, level):
        _, bodies, nodes = self.spec
        while len(self.bounds) < level:
            while self.done < 4 ** (len(self.bounds) + 1):
                low, high = self.sides()
                new = ([max(old, low[e]) for old, e in zip(self.low, bodies)],
                       [min(old, high[e]) for old, e in zip(self.high, bodies)])
                self.done = self.done + 1 if new != (self.low, self.high) else 4 ** 6
                self.low, self.high = new
            low, high = self.sides()
            if self.bounds:
                low, high = list(map(max, low, self.bounds[-1][0])), list(map(min, high, self.bounds[-1][1]))
            self.bounds.append((low, high))
        return self.bounds[level - 1]

    def sides(self):
        nodes = self.spec[2]
        return (low_values(nodes, self.low, self.x, self.one), values(nodes, self.high, self.x, self.one, True))


# Draws, section 5 and 6.

class Bits:
    """The bits of an entry, and the cells that were drawn of them."""

    def __init__(self, cells):
        self.bits, self.at, self.cells = "".join("{:0{}b}".format(k, b) for k, b in cells), 0, []

    def draw(self, decide):
        k = b = 0
        while b < MOST_BITS and self.at < len(self.bits):
            k, b, self.at = 2 * k + int(self.bits[self.at]), b + 1, self.at + 1
            answer = decide(k, b)
            if answer is not None:
                self.cells.append((k, b))
                return answer
        raise ValueError("no number is decided")


def running_sums(kind, a, one, least, last):
    """The places from the least to the last with the sums of the lower terms up to each; not those after a power that
    is 0, since the sums stay the same from there on."""
    power, total = one, 0
    for i in range(last + 1):
        if i:
            power = power * a // (i * one if kind == "Set" else one)
        if i >= least:
            total += power // i if kind == "Cyc" and i else power
            yield i, min(total, GREATEST)
            if power == 0:
                return


def number_of_parts(levels, e, room, k, b):
    """The number of parts that the cell decides, None where it is open."""
    kind, (part,), (least, most) = levels.spec[2][e]
    low, high = levels.at(above(b, 10))
    last = room if most is None else min(most, room)
    sums = running_sums(kind, low[part], levels.one, least, last)
    option = next((i for i, total in sums if (k + 1) * high[e] <= total << b), most if most == last else None)
    if option is not None:
        return option if k * low[e] >= upto(levels, kind, high, e, part, least, option - 1) << b else None
    if (most is None or most > room) and k * low[e] >= upto(levels, kind, high, e, part, least, room) << b:
        raise ValueError("the size limit is exceeded")
    return None


def upto(levels, kind, high, e, part, least, i):
    """The upper value from low to i, with the node's as cap."""
    if i < least:
        return 0
    value = counted_up(kind, high[part], least, i, levels.one)
    return high[e] if value is None else min(value, high[e])


def without_atoms(spec):
    """The nodes that have an object of size 0."""
    _, bodies, nodes = spec
    found, before = set(), None
    while before != len(found):
        before = len(found)
        for e, (kind, parts, more) in enumerate(nodes):
            has = [(bodies[part] if kind == "class" else part) in found for part in parts]
            if kind == "E" or (kind == "+" and any(has)) or (kind in ("class", "*") and all(has)) or (
                    kind in ("Seq", "Set", "Cyc") and (more[0] == 0 or has[0])):
                found.add(e)
    return found


class Made:
    """An object drawn from bits: its pieces in the order of drawing, and its atoms."""

    def __init__(self, levels, empty, labelled, bits, room):
        self.atoms, self.labelled = 0, labelled
        self.levels, self.empty, self.bits, self.room = levels, empty, bits, room
        self.tree = self.visit(levels.spec[1][0])

    def visit(self, e):
        """A leaf's word with its atom's number, or what is before, between and after, and the parts."""
        kind, parts, word = self.levels.spec[2][e]
        if kind == "class":
            return self.visit(self.levels.spec[1][parts[0]])
        if kind == "E":
            return word, None
        if kind == "Z":
            if self.atoms == self.room:
                raise ValueError("the size limit is exceeded")
            self.atoms += 1
            return word, self.atoms - 1
        if kind == "+":
            option = self.bits.draw(lambda k, b: decided(self.levels, e, k, b))
            return "%d." % option, [self.visit(parts[option])]
        if kind != "*":
            room = MOST_PARTS if parts[0] in self.empty else self.room - self.atoms
            parts = parts * self.bits.draw(lambda k, b: number_of_parts(self.levels, e, room, k, b))
        return kind, [self.visit(part) for part in parts]

    def label(self):
        """Draws the labels, in the order of drawing."""
        left, self.labels = list(range(1, self.atoms + 1)), []
        for m in range(self.atoms, 0, -1):
            i = 0 if m == 1 else self.bits.draw(
                lambda k, b: k * m >> b if (k + 1) * m <= ((k * m >> b) + 1) << b else None)
            self.labels.append(left.pop(i))

    def text(self):
        return self.written(self.tree)[0]

    def written(self, tree):
        """The text of a piece, and its least label, None where it has none."""
        word, more = tree
        if more is None or isinstance(more, int):
            if more is None or not self.labelled:
                return word, None
            return "%s#%d" % (word, self.labels[more]), self.labels[more]
        parts = [self.written(part) for part in more]
        least = min((label for _, label in parts if label is not None), default=None)
        if word == "Set":
            parts = sorted(parts, key=lambda part: part[1] or 0)
        if word == "Cyc" and least is not None:
            first = [label for _, label in parts].index(least)
            parts = parts[first:] + parts[:first]
        before, after = {"*": "()", "Seq": "[]", "Set": "{}", "Cyc": "<>"}.get(word, (word, ""))
        return before + " ".join(text for text, _ in parts) + after, least


# The tests, in their order.

class Verifier:
    """The tests of certificates of one specification."""

    def __init__(self, canonical):
        self.spec, self.mode = read_spec(canonical), canonical.split()[0]
        self.digest, self.levels = hashlib.sha256(canonical.encode()).hexdigest(), {}
        self.empty = without_atoms(self.spec)

    def answer(self, content):
        """The line that `verify` prints."""
        try:
            certificate = Certificate(content)
            self.check_header(certificate)
            self.check_entries(certificate)
        except Refused as refused:
            return "refused certificate line %d" % refused.args
        except Invalid as invalid:
            return "invalid line %d %s" % invalid.args
        return "end valid entries %d" % len(certificate.entries)

    def check_header(self, certificate):
        more = certificate.version - 1
        if certificate.mode != self.mode:
            raise Invalid(2, "mode")
        if more and certificate.digest != self.digest:
            raise Invalid(3, "spec")
        if certificate.fraction not in ((40, 48, 52) if more else (48,)):
            raise Invalid(4 + more, "fraction")
        if not certificate.window[0] <= certificate.window[1] <= LIMIT:
            raise Invalid(5 + more, "window")
        names, found = self.spec[0], [name for name, _ in certificate.base]
        if names != found:
            same = next((i for i, (a, b) in enumerate(zip(names, found)) if a != b), min(len(names), len(found)))
            raise Invalid(certificate.header + 1 + same, "base")
        base, one = tuple(value for _, value in certificate.base), 1 << certificate.fraction
        upper = values(self.spec[2], base, certificate.x, one, True)
        for c, e in enumerate(self.spec[1]):
            if upper[e] is None or upper[e] > base[c]:
                raise Invalid(certificate.header + 1 + c, "base")

    def check_entries(self, certificate):
        key = (tuple(value for _, value in certificate.base), certificate.x, certificate.fraction)
        if key not in self.levels:
            if len(self.levels) > 200:
                self.levels.clear()
            self.levels[key] = Levels(self.spec, key[0], key[1], 1 << key[2])
        after = 0
        for i, (at, number, place, size, text, cells) in enumerate(certificate.entries):
            if number != i + 1 or place < after:
                raise Invalid(at, "object")
            after = place + sum(b for _, b in cells)
            try:
                bits = Bits(cells)
                made = Made(self.levels[key], self.empty, self.mode == "labelled", bits, certificate.window[1])
                if made.labelled:
                    made.label()
                if bits.cells != cells or bits.at != len(bits.bits):
                    raise ValueError("other cells")
            except ValueError:
                raise Invalid(at + 2, "cells")
            if size != made.atoms or size < certificate.window[0]:
                raise Invalid(at, "object")
            if text != made.text():
                raise Invalid(at + 1, "text")
        if certificate.kept != len(certificate.entries):
            raise Invalid(certificate.closed, "closing")
