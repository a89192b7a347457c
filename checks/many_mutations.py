#!/usr/bin/env python3
"""Changes a great many specifications, certificates and objects a little, and gives each to the built program.

    python3 checks/many_mutations.py [PROGRAM] [--cases N] [--seed N] [--processes N] [--kinds spec,certificate,object]

Each kind has N cases, some thousand a second: checks/many_mutations.c, which a C compiler builds, makes the changes
and the calls. It looks for crashes, for calls of 10 seconds of processor time, for answers that aren't known, and
for canonical forms that don't read back. What `verify` finds valid is judged by checks/verdicts.py. The other verdicts
of `verify` are judged, fewer a second, by checks/mutations.py.
"""
import glob
import os
import shutil
import subprocess
import sys
import tempfile
import time

sys.dont_write_bytecode = True

import mutations  # noqa: E402
import rows  # noqa: E402

HERE = os.path.dirname(os.path.abspath(__file__))
KINDS = ("spec", "certificate", "object")


def texts_of(kind, program):
    """What is changed: pairs of a specification and a text."""
    if kind == "spec":
        files = sorted(glob.glob(os.path.join(HERE, "..", "examples", "*.boltz")))
        return [(b"", text.encode()) for text in mutations.SPECS] + [(b"", open(file, "rb").read()) for file in files]
    with tempfile.TemporaryDirectory() as folder:
        os.chdir(folder)
        cases = mutations.Cases(program, 1)
        found = [(open(name, "rb").read(), text) for name, *_, text in
                 (cases.certificates if kind == "certificate" else cases.objects)]
        os.chdir("/")
    return found


def wrongly_valid(folder, pairs):
    """How many changed certificates were found valid, and those of them that aren't."""
    verifiers, found, wrong = {}, 0, []
    with open(os.path.join(folder, "valid"), "rb") as file:
        while True:
            line = file.readline()
            if not line:
                return found, wrong
            number, length = map(int, line.split())
            spec, content = pairs[number][0], file.read(length)
            if spec not in verifiers:
                verifiers[spec] = mutations.verdicts.Verifier(canonical(folder, number))
            found += 1
            answer = verifiers[spec].answer(content)
            if not answer.startswith("end valid"):
                wrong.append("valid, but %s: %r" % (answer, content))


def canonical(folder, number):
    """The canonical form of a specification."""
    wrote = subprocess.run([PROGRAM, "spec", "spec.%d" % number], cwd=folder, stdout=subprocess.PIPE, check=True).stdout
    return wrote.rsplit(b"end done", 1)[0].decode()


def hammered(kind, cases, seed, processes):
    """A line of what was found, and whether it is right."""
    begun, pairs, running, lines, numbers, valid = time.monotonic(), texts_of(kind, PROGRAM), [], [], [], 0
    for process in range(processes):
        folder = tempfile.mkdtemp(prefix="mutations-", dir=WORK)
        for number, (spec, text) in enumerate(pairs):
            mutations.write(os.path.join(folder, "spec.%d" % number), spec)
            mutations.write(os.path.join(folder, "text.%d" % number), text)
        words = [os.path.join(WORK, "many_mutations"), PROGRAM, kind, str(len(pairs)), str(cases // processes),
                 str(seed * 1000 + process)]
        running.append((folder, subprocess.Popen(words, cwd=folder, stdout=subprocess.PIPE)))
    for folder, process in running:
        wrote = process.communicate()[0].decode().splitlines()
        lines += wrote[:-1] if process.returncode == 0 else ["wrong: it stopped with status %d" % process.returncode]
        numbers.append([float(word) for word in (wrote or [""])[-1].split()])
        if kind == "certificate" and process.returncode == 0:
            found, wrong = wrongly_valid(folder, pairs)
            valid, lines = valid + found, lines + wrong
    for line in lines[:20]:
        print(line)
    numbers = [each for each in numbers if len(each) == 21]
    statuses = ", ".join("status %d %d" % (status, total) for status in range(16)
                         if (total := sum(each[5 + status] for each in numbers)))
    more = "; %d distinct ones are valid, and rightly so" % valid if kind == "certificate" and not lines else ""
    print("many mutations: %s, seed %d: %d cases, %d calls in %.0f s, the longest %.2f s; %s%s; %d wrong" % (
        kind, seed, sum(each[0] for each in numbers), sum(each[1] for each in numbers), time.monotonic() - begun,
        max((each[4] for each in numbers), default=0), statuses, more, len(lines)), flush=True)
    return not lines


def main():
    kinds = sys.argv[sys.argv.index("--kinds") + 1].split(",") if "--kinds" in sys.argv else KINDS
    source = os.path.join(HERE, "many_mutations.c")
    compiler = shutil.which(os.environ.get("CC", "cc"))
    if compiler is None:
        print("many mutations: skipped, there is no C compiler")
        return 0
    subprocess.run([compiler, "-O2", "-o", os.path.join(WORK, "many_mutations"), source], check=True)
    cases, seed = mutations.option("--cases", 10000), mutations.option("--seed", 1)
    right = [hammered(kind, cases, seed, mutations.option("--processes", 1)) for kind in kinds]
    return 0 if all(right) else 1


if __name__ == "__main__":
    PROGRAM = os.path.abspath(sys.argv[1] if len(sys.argv) > 1 and not sys.argv[1].startswith("-") else rows.PROGRAM)
    with tempfile.TemporaryDirectory(dir="/dev/shm" if os.path.isdir("/dev/shm") else None) as WORK:
        sys.exit(main())
