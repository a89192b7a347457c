#!/usr/bin/env python3
"""Compares pointed specifications with plain ones, and sums chances, with the built program.

    python3 checks/points_and_chances.py PROGRAM

- For each specification of examples/ without labels and bounds on numbers of parts, the pointed one has n times as
  many objects of size n. The others are refused for labels or a range, by `count` and by `point` alike.
- For three specifications with rational class values: the chances of all objects of one size, asked for one by one,
  add up to the size's own, which is the number of objects times x^n over the class value.
"""
import glob
import os
import re
import subprocess
import sys
import tempfile
from fractions import Fraction

EXAMPLES = os.path.join(os.path.dirname(os.path.abspath(__file__)), "..", "examples")
MOST = 12
# A specification's text, an x, the value of its first class there, and the greatest size.
VALUED = [
    ("C = Z + Z*Z + Z", "1/2", Fraction(5, 4), 2),
    ("B = E + Z*B*B", "3/16", Fraction(4, 3), 5),
    ("W = Seq(Z:a + Z:b)", "1/4", Fraction(2), 4),
]


def run(program, folder, *words):
    """The status of a run, and what it writes, as lines."""
    ran = subprocess.run([program] + [str(word) for word in words], cwd=folder, stdout=subprocess.PIPE, timeout=120)
    return ran.returncode, ran.stdout.decode("ascii").splitlines()


def counts(program, folder, name, most):
    """The numbers of objects of the sizes up to `most`."""
    status, lines = run(program, folder, "count", name, most)
    if status or len(lines) != most + 2:
        raise SystemExit("count %s: status %d, %r" % (name, status, lines[-1:]))
    return [int(line.split()[2]) for line in lines[:-1]]


def is_plain(path):
    """Whether a specification is unlabelled and has no bound on a number of parts."""
    with open(path, encoding="ascii") as file:
        text = "\n".join(line.split("#")[0] for line in file)
    return text.split()[0] == "unlabelled" and not re.search(r"\bSeq\s*[<>=]", text)


def check_refused(program, folder, path):
    """Labels and ranges are refused by both commands."""
    for words, status in ((("count", path, MOST), 15), (("point", path), 13)):
        got, lines = run(program, folder, *words)
        if got != status or not re.fullmatch(r"refused (rank|point) (labelled|range node \d+)", lines[0]):
            raise SystemExit("%s: status %d, %r" % (" ".join(map(str, words)), got, lines))


def write(folder, name, text):
    with open(os.path.join(folder, name), "w", encoding="ascii") as file:
        file.write(text)


def check_points(program, folder):
    """How many specifications were compared."""
    compared = 0
    for path in sorted(glob.glob(os.path.join(EXAMPLES, "*.boltz"))):
        if not is_plain(path):
            check_refused(program, folder, path)
            continue
        plain = counts(program, folder, path, MOST)
        status, lines = run(program, folder, "point", path)
        if status:
            raise SystemExit("point %s: status %d, %r" % (path, status, lines[-1:]))
        write(folder, "pointed", "\n".join(lines[:-1]) + "\n")
        pointed = counts(program, folder, "pointed", MOST)
        if pointed != [size * number for size, number in enumerate(plain)]:
            raise SystemExit("%s: pointed %r, plain %r" % (path, pointed, plain))
        compared += 1
    if not compared:
        raise SystemExit("no example was pointed")
    return compared


def scaled(mantissa, exponent):
    return Fraction(int(mantissa)) * Fraction(2) ** int(exponent)


def chance(program, folder, x):
    """Both bounds of the chance of the object in the file `o`."""
    status, lines = run(program, folder, "chance", "s", x, "o")
    words = lines[0].split()
    if status or words[:2] != ["chance", "lo"] or words[4] != "hi" or lines[1:] != ["end done"]:
        raise SystemExit("chance: status %d, %r" % (status, lines))
    return scaled(*words[2:4]), scaled(*words[5:7])


def check_chances(program, folder):
    """How many chances were asked for."""
    asked = 0
    for text, x, value, most in VALUED:
        write(folder, "s", "unlabelled\n%s\n" % text)
        for size, number in enumerate(counts(program, folder, "s", most)):
            low = high = Fraction(0)
            for rank in range(number):
                _status, lines = run(program, folder, "unrank", "s", size, rank)
                write(folder, "o", lines[0])
                bounds = chance(program, folder, x)
                low, high, asked = low + bounds[0], high + bounds[1], asked + 1
            exact = number * Fraction(x) ** size / value
            if not (low <= exact <= high and high - low <= exact / 2 ** 32):
                raise SystemExit("%s, size %d: from %s to %s, wanted %s" % (text, size, low, high, exact))
    return asked


def main():
    program = os.path.abspath(sys.argv[1])
    with tempfile.TemporaryDirectory() as folder:
        print("%d specifications pointed, %d chances summed, none different"
              % (check_points(program, folder), check_chances(program, folder)))


if __name__ == "__main__":
    main()
