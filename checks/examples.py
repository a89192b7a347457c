#!/usr/bin/env python3
"""Draws every specification of examples/ with the built program, and compares with the table of examples/README.md;
has every drawing, and those of the stored runs, verified and migrated.

    python3 checks/examples.py PROGRAM

For each file 300 objects are drawn from a seed at the table's x: the run ends well, each text is that of an object
of the printed size, and the mean of the sizes is near the table's. The numbers of objects by size are counted from
the specification, and compared with the table's. Texts are read, and objects counted, by the companions' modules.

Each drawing is valid by `verify`. `migrate` writes it as it is, and also where it is given it in version 1; what it
writes is valid again.
"""
import glob
import math
import os
import re
import subprocess
import sys
import tempfile

ROOT = os.path.join(os.path.dirname(os.path.abspath(__file__)), "..")
sys.dont_write_bytecode = True
sys.path.insert(0, os.path.join(ROOT, "companions"))

from boltz.certificate import Certificate  # noqa: E402
from boltz.objects import ObjectReader  # noqa: E402
from boltz.series import size_weights  # noqa: E402
from boltz.spec import read_spec_file  # noqa: E402

EXAMPLES = os.path.join(ROOT, "examples")
ROWS = os.path.join(ROOT, "checks", "rows")
OBJECTS = 300
# How many standard errors the mean of the sizes may be off.
MOST_OFF = 5.0


def table():
    """The rows of the page: the file, the first numbers of objects, x and the mean."""
    with open(os.path.join(EXAMPLES, "README.md"), encoding="utf-8") as file:
        for line in file:
            found = re.match(r"\| \[(\w+)\]\(\1\.boltz\) \| [^|]* \| ([0-9, ]+)[^|]*\| (\S+) \| (\S+) \|$", line)
            if found:
                name, counts, x, mean = found.groups()
                yield name, [int(count) for count in counts.split(",")], x, float(mean)


def count_objects(spec, most):
    """The numbers of objects of the sizes from 0 to `most`."""
    labelled = spec.mode == "labelled"
    weights = size_weights(spec, 1.0, most)
    return [round(weight * (math.factorial(size) if labelled else 1)) for size, weight in enumerate(weights)]


def in_version_1(text):
    """The lines of a certificate in version 1; None where its fraction bits aren't those of that version."""
    lines = text.split(b"\n")
    return b"\n".join([b"boltzmann 1", lines[1]] + lines[3:]) if lines[4] == b"fraction 48" else None


def certificate_faults(program, spec, text):
    """What is wrong with the answers of `verify` and `migrate` to what `sample` printed, in words."""
    with tempfile.TemporaryDirectory() as folder:
        path = os.path.join(folder, "certificate")

        def answer(command, certificate):
            with open(path, "wb") as file:
                file.write(certificate)
            ran = subprocess.run([program, command, spec, path], stdout=subprocess.PIPE, timeout=120)
            return ran.returncode, ran.stdout

        valid = 0, b"end valid entries %d\n" % len(re.findall(rb"^object ", text, re.M))
        for version in filter(None, (text, in_version_1(text))):
            got = answer("verify", version)
            if got != valid:
                yield "verify answers %r" % (got,)
            status, migrated = answer("migrate", version)
            if (status, migrated) != (0, text):
                yield "migrate answers %d, %r .." % (status, migrated[:200])
            got = answer("verify", migrated)
            if got != valid:
                yield "verify answers %r to what migrate wrote" % (got,)


def stored_drawings():
    """The stored runs of `sample` without `--fast` that drew: their names, specifications and texts."""
    for name in sorted(os.listdir(ROWS)):
        row = os.path.join(ROWS, name)
        with open(os.path.join(row, "args")) as args, open(os.path.join(row, "stdout"), "rb") as stdout:
            words, text = args.read().splitlines(), stdout.read()
        if words[:1] == ["sample"] and text.startswith(b"boltzmann 2\n"):
            yield name, os.path.join(row, "s"), text


def faults(program, name, counts, x, mean):
    """What is wrong with a row, in words."""
    path = os.path.join(EXAMPLES, name + ".boltz")
    spec = read_spec_file(path)
    if count_objects(spec, len(counts) - 1) != counts:
        yield "the numbers of objects are %s" % count_objects(spec, len(counts) - 1)
    words = [program, "sample", path, x, "--seed", "1", "--max", "1000000", "--count", str(OBJECTS)]
    ran = subprocess.run(words + ["--turns", "50000000"], stdout=subprocess.PIPE)
    if ran.returncode:
        yield "the run ends with status %d" % ran.returncode
        return
    reader, sizes = ObjectReader(spec), []
    for entry in Certificate(ran.stdout.splitlines(keepends=True)):
        tree = reader.read(entry.text)
        if tree.size() != entry.size or tree.text() != entry.text:
            yield "object %d isn't one of its size: %s" % (entry.number, entry.text)
        sizes.append(entry.size)
    if len(sizes) != OBJECTS:
        yield "%d objects are printed" % len(sizes)
    got = sum(sizes) / len(sizes)
    error = math.sqrt(sum((size - got) ** 2 for size in sizes) / (len(sizes) - 1) / len(sizes))
    if abs(got - mean) > MOST_OFF * error + 0.01:
        yield "the mean is %.2f with standard error %.2f" % (got, error)
    yield from certificate_faults(program, path, ran.stdout)


def main(words):
    if len(words) != 1:
        sys.exit(__doc__)
    program, bad = os.path.abspath(words[0]), 0
    rows = list(table())
    files = sorted(os.path.basename(path)[:-6] for path in glob.glob(os.path.join(EXAMPLES, "*.boltz")))
    if sorted(row[0] for row in rows) != files:
        print("the page names %s" % sorted(row[0] for row in rows))
        bad += 1
    for row in rows:
        for fault in faults(program, *row):
            print("%s: %s" % (row[0], fault))
            bad += 1
    drawings = list(stored_drawings())
    for name, spec, text in drawings:
        for fault in certificate_faults(program, spec, text):
            print("%s: %s" % (name, fault))
            bad += 1
    print("examples: %d specifications, %d objects drawn of each, %d stored drawings, %d faults"
          % (len(rows), OBJECTS, len(drawings), bad))
    return 1 if bad or not drawings else 0


if __name__ == "__main__":
    sys.exit(main(sys.argv[1:]))
