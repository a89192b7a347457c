#!/usr/bin/env python3
"""Compares what the built program says of numbers of objects and of ranks with published and enumerated ones.

    python3 checks/ranks.py PROGRAM

- `count` of twelve specifications, with the published numbers of their objects of sizes 0 to 20.
- `unrank` and `rank` of ten specifications: the objects of the sizes 0 to 6 are enumerated here, in the order of
  docs/formats.md; the object of each rank, and the rank of each object, are asked for.
- `sample` at one size gives objects whose ranks are below the count.
"""
import os
import subprocess
import sys
import tempfile

# The texts of specifications, and the published numbers of objects (oeis.org).
PUBLISHED = [
    ("Catalan numbers (A000108): binary trees by nodes", "B = E + Z*B*B", [
        1, 1, 2, 5, 14, 42, 132, 429, 1430, 4862, 16796, 58786, 208012, 742900, 2674440, 9694845, 35357670,
        129644790, 477638700, 1767263190, 6564120420]),
    ("Catalan numbers: plane trees by nodes", "T = Z*Seq(T)", [
        0, 1, 1, 2, 5, 14, 42, 132, 429, 1430, 4862, 16796, 58786, 208012, 742900, 2674440, 9694845, 35357670,
        129644790, 477638700, 1767263190]),
    ("Motzkin numbers (A001006): trees of one or two branches", "M = Z + Z*M + Z*M*M", [
        0, 1, 1, 2, 4, 9, 21, 51, 127, 323, 835, 2188, 5798, 15511, 41835, 113634, 310572, 853467, 2356779,
        6536382, 18199284]),
    ("Fibonacci numbers (A000045): words without two b together", "W = T*Seq(Z:a*T)\nT = E + Z:b", [
        1, 2, 3, 5, 8, 13, 21, 34, 55, 89, 144, 233, 377, 610, 987, 1597, 2584, 4181, 6765, 10946, 17711]),
    ("Powers of 2 (A011782): compositions", "C = Seq(N)\nN = Z*Seq(Z)", [
        1, 1, 2, 4, 8, 16, 32, 64, 128, 256, 512, 1024, 2048, 4096, 8192, 16384, 32768, 65536, 131072, 262144,
        524288]),
    ("Powers of 2 (A000079): binary words", "W = Seq(Z:a + Z:b)", [2 ** n for n in range(21)]),
    ("Large Schroeder numbers (A006318)", "S = E + Z:u*S + Z:v*S*S", [
        1, 2, 6, 22, 90, 394, 1806, 8558, 41586, 206098, 1037718, 5293446, 27297738, 142078746, 745387038,
        3937603038, 20927156706, 111818026018, 600318853926, 3236724317174, 17518619320890]),
    ("Little Schroeder numbers (A001003): trees by leaves", "T = Z + T*T*Seq(T)", [
        0, 1, 1, 3, 11, 45, 197, 903, 4279, 20793, 103049, 518859, 2646723, 13648869, 71039373, 372693519,
        1968801519, 10463578353, 55909013009, 300159426963, 1618362158587]),
    ("Ternary trees (A001764)", "T = E + Z*T*T*T", [
        1, 1, 3, 12, 55, 273, 1428, 7752, 43263, 246675, 1430715, 8414640, 50067108, 300830572, 1822766520,
        11124755664, 68328754959, 422030545335, 2619631042665, 16332922290300, 102240109897695]),
    ("Tribonacci numbers (A000073): compositions of parts 1, 2, 3", "C = Seq(Z + Z*Z + Z*Z*Z)", [
        1, 1, 2, 4, 7, 13, 24, 44, 81, 149, 274, 504, 927, 1705, 3136, 5768, 10609, 19513, 35890, 66012, 121415]),
    ("Padovan numbers (A182097): compositions of parts 2 and 3", "C = Seq(Z*Z + Z*Z*Z)", [
        1, 0, 1, 1, 1, 2, 2, 3, 4, 5, 7, 9, 12, 16, 21, 28, 37, 49, 65, 86, 114]),
    ("Pell numbers (A000129)", "C = Seq(Z:a + Z:b + Z*Z)", [
        1, 2, 5, 12, 29, 70, 169, 408, 985, 2378, 5741, 13860, 33461, 80782, 195025, 470832, 1136689, 2744210,
        6625109, 15994428, 38613965]),
]

# Ten specifications as tables: the classes' bodies, as nested tuples, beside their text.
BINARY = ("+", "E", ("*", "Z", ("B",), ("B",)))
RANKED = [
    ("B = E + Z*B*B", {"B": BINARY}),
    ("T = Z*Seq(T)", {"T": ("*", "Z", ("Seq", ("T",)))}),
    ("M = Z + Z*M + Z*M*M", {"M": ("+", "Z", ("*", "Z", ("M",)), ("*", "Z", ("M",), ("M",)))}),
    ("W = T*Seq(Z:a*T)\nT = E + Z:b", {
        "W": ("*", ("T",), ("Seq", ("*", "Z:a", ("T",)))), "T": ("+", "E", "Z:b")}),
    ("C = Seq(N)\nN = Z*Seq(Z)", {"C": ("Seq", ("N",)), "N": ("*", "Z", ("Seq", "Z"))}),
    ("W = Seq(Z:a + Z:b)", {"W": ("Seq", ("+", "Z:a", "Z:b"))}),
    ("S = E:e + Z:u*S", {"S": ("+", "E:e", ("*", "Z:u", ("S",)))}),
    ("T = Z + T*T*Seq(T)", {"T": ("+", "Z", ("*", ("T",), ("T",), ("Seq", ("T",))))}),
    ("P = A*Q*A\nQ = E + Z*Z + Z\nA = Seq(Q*Z)", {
        "P": ("*", ("A",), ("Q",), ("A",)), "Q": ("+", "E", ("*", "Z", "Z"), "Z"), "A": ("Seq", ("*", ("Q",), "Z"))}),
    ("U = (Z + Z:x) + (E + Z*U)", {"U": ("+", ("+", "Z", "Z:x"), ("+", "E", ("*", "Z", ("U",))))}),
]
SIZES = range(7)
# The most objects of one size that are asked for, one by one; the first of them.
MOST = 150


class Objects:
    """The objects of a specification, as texts, in their order."""

    def __init__(self, bodies):
        self.bodies, self.known = bodies, {}
        self.least_sizes = dict.fromkeys(bodies, SIZES[-1] + 1)
        for _round in bodies:
            for name, body in bodies.items():
                self.least_sizes[name] = self.least(body)

    def least(self, node):
        """The least size of the node's objects, by what is known of the classes'."""
        if isinstance(node, str):
            return int(node[0] == "Z")
        if len(node) == 1:
            return self.least_sizes[node[0]]
        sizes = [self.least(part) for part in node[1:]]
        return {"+": min, "*": sum, "Seq": lambda _: 0}[node[0]](sizes)

    def of(self, node, size):
        key = (node, size)
        if key not in self.known:
            self.known[key] = list(self.made(node, size))
        return self.known[key]

    def made(self, node, size):
        if isinstance(node, str):
            if size == (node[0] == "Z"):
                yield node[2:] or node
        elif len(node) == 1:
            yield from self.of(self.bodies[node[0]], size)
        elif node[0] == "+":
            for option, part in enumerate(node[1:]):
                for text in self.of(part, size):
                    yield "%d.%s" % (option, text)
        elif node[0] == "*":
            for texts in self.lists(node[1:], size):
                yield "(%s)" % " ".join(texts)
        else:
            for texts in self.sequences(node[1], size):
                yield "[%s]" % " ".join(texts)

    def lists(self, parts, size):
        """Lists of an object of each part: by the first one's size, then by the first, then by the others."""
        if not parts:
            if size == 0:
                yield []
            return
        most = size - sum(self.least(part) for part in parts[1:])
        for first_size in range(most + 1):
            for first in self.of(parts[0], first_size):
                for others in self.lists(parts[1:], size - first_size):
                    yield [first] + others

    def sequences(self, part, size):
        if size == 0:
            yield []
        for first_size in range(1, size + 1):
            for first in self.of(part, first_size):
                for others in self.sequences(part, size - first_size):
                    yield [first] + others


class Program:
    def __init__(self, path, folder):
        self.path, self.folder, self.runs = path, folder, 0

    def write(self, name, text):
        with open(os.path.join(self.folder, name), "w", encoding="ascii") as file:
            file.write(text)

    def lines(self, *words):
        """What a run writes, as lines; it has to end well."""
        self.runs += 1
        ran = subprocess.run([self.path] + [str(word) for word in words], cwd=self.folder, stdout=subprocess.PIPE,
                             timeout=120)
        if ran.returncode:
            raise SystemExit("%s: status %d, %r" % (" ".join(map(str, words)), ran.returncode, ran.stdout[-200:]))
        return ran.stdout.decode("ascii").splitlines()


def same(what, got, wanted):
    if got != wanted:
        raise SystemExit("%s: %r, wanted %r" % (what, got, wanted))


def check_counts(program):
    for name, text, counts in PUBLISHED:
        program.write("s", "unlabelled\n%s\n" % text)
        wanted = ["size %d %d" % pair for pair in enumerate(counts)] + ["end done"]
        same(name, program.lines("count", "s", len(counts) - 1), wanted)


def check_ranks(program):
    for text, bodies in RANKED:
        program.write("s", "unlabelled\n%s\n" % text)
        objects, root = Objects(bodies), (next(iter(bodies)),)
        numbers = program.lines("count", "s", SIZES[-1])
        for size in SIZES:
            wanted = objects.of(root, size)
            same(text, numbers[size], "size %d %d" % (size, len(wanted)))
            for rank, object_text in list(enumerate(wanted))[:MOST]:
                same(text, program.lines("unrank", "s", size, rank), [object_text, "end done"])
                program.write("o", object_text)
                same(object_text, program.lines("rank", "s", "o"), ["rank %d of %d" % (rank, len(wanted)), "end done"])


def check_samples(program):
    for text, x, size in [("B = E + Z*B*B", "24/100", 12), ("M = Z + Z*M + Z*M*M", "3/10", 9),
                          ("W = T*Seq(Z:a*T)\nT = E + Z:b", "1/2", 10)]:
        program.write("s", "unlabelled\n%s\n" % text)
        number = int(program.lines("count", "s", size)[size].split()[2])
        drawn = program.lines("sample", "s", x, "--seed", 1, "--min", size, "--max", size, "--count", 20)
        texts = [line[5:] for line in drawn if line.startswith("text ")]
        same(text, len(texts), 20)
        for object_text in texts:
            program.write("o", object_text + "\n")
            words = program.lines("rank", "s", "o")[0].split()
            same(object_text, (int(words[1]) < number, int(words[3])), (True, number))


def main():
    with tempfile.TemporaryDirectory() as folder:
        program = Program(os.path.abspath(sys.argv[1]), folder)
        check_counts(program)
        check_ranks(program)
        check_samples(program)
        print("counts and ranks: %d runs, none different" % program.runs)


if __name__ == "__main__":
    main()
