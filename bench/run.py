#!/usr/bin/env python3
"""Times the built program: seconds of processor time, the least of some runs each.

    python3 bench/run.py [PROGRAM] [RUNS]

PROGRAM is crates/boltz_cli/out/boltz_cli where it isn't given, as `rt ci` builds it, and RUNS is 3.
"""
import os
import resource
import subprocess
import sys

HERE = os.path.dirname(os.path.abspath(__file__))
PROGRAM = os.path.join(HERE, "..", "crates", "boltz_cli", "out", "boltz_cli")
# A specification in this folder, x, the least and the greatest size, and how many objects are drawn.
SAMPLES = [
    ("binary", "2499/10000", 100, 200, 2000),
    ("binary", "24999/100000", 1000, 2000, 200),
    ("permutations", "99/100", 100, 200, 2000),
    ("trees", "367/1000", 100, 200, 500),
    ("sequences", "99/100", 100, 200, 5000),
    ("cycles", "99/100", 0, 1000000, 1000),
]
# What else is timed: the reading of a specification, and its base and six levels.
OTHERS = [
    ("spec", "wide"),
    ("oracle", "binary", "249999/1000000"),
    ("oracle", "lists", "8191/8192"),
    ("oracle", "wide", "2499/10000"),
    ("oracle", "cycles", "99/100"),
]


def seconds(program, words):
    """The processor time of one run of the program in this folder."""
    before = resource.getrusage(resource.RUSAGE_CHILDREN)
    ran = subprocess.run([program] + words, cwd=HERE, stdin=subprocess.DEVNULL, stdout=subprocess.DEVNULL)
    after = resource.getrusage(resource.RUSAGE_CHILDREN)
    if ran.returncode:
        sys.exit("%s ended with status %d" % (" ".join(words), ran.returncode))
    return after.ru_utime + after.ru_stime - before.ru_utime - before.ru_stime


def main():
    program = os.path.abspath(sys.argv[1] if len(sys.argv) > 1 else PROGRAM)
    runs = int(sys.argv[2]) if len(sys.argv) > 2 else 3
    rows = []
    for spec, x, low, high, count in SAMPLES:
        words = ["sample", spec + ".boltz", x, "--seed", "1", "--min", str(low), "--max", str(high)]
        rows.append((words + ["--count", str(count), "--turns", "50000000"], count))
    for command, spec, *x in OTHERS:
        rows.append(([command, spec + ".boltz"] + x, None))
    print("| Words | Seconds | Objects per second |\n|---|---|---|")
    for words, count in rows:
        least = min(seconds(program, words) for _ in range(runs))
        rate = "" if count is None else format(float("%.2g" % (count / max(least, 0.001))), ",.0f")
        print("| `%s` | %.3f | %s |" % (" ".join(words), least, rate))


if __name__ == "__main__":
    main()
