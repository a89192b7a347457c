#!/usr/bin/python3
"""Tunes eight families to mean size 50 and sets the mean of 2,000 objects beside the enclosed one.

    BOLTZ=PROGRAM companions/measure/families.py [--mean N] [--count N] [--seed N]
"""
from __future__ import annotations

import argparse
import os
import sys
import time

sys.path.insert(0, os.path.join(os.path.dirname(os.path.abspath(__file__)), ".."))

from boltz.certificate import Certificate  # noqa: E402
from boltz.oracle import x_text  # noqa: E402
from boltz.program import Program, folder_with  # noqa: E402
from boltz.spec import read_spec  # noqa: E402
from boltz.summary import Numbers  # noqa: E402
from boltz.tuning import Tuned, Tuner  # noqa: E402

FAMILIES = {
    "binary trees": "unlabelled\nB = E + Z*B*B\n",
    "Motzkin trees": "unlabelled\nM = Z + Z*M + Z*M*M\n",
    "plane trees": "unlabelled\nT = Z*Seq(T)\n",
    "compositions": "unlabelled\nC = Seq(Z*Seq(Z))\n",
    "labelled trees": "labelled\nT = Z*Set(T)\n",
    "permutations": "labelled\nP = Set(Cyc(Z))\n",
    "functional graphs": "labelled\nF = Set(Cyc(T))\nT = Z*Set(T)\n",
    "surjections": "labelled\nS = Seq(Set>=1(Z))\n",
}


def measured(program: Program, text: str, found: Tuned, count: int, seed: int) -> Numbers:
    """The sizes of a run at the tuned x."""
    sizes = Numbers()
    with folder_with(spec=text) as folder:
        words = (
            "sample",
            os.path.join(folder, "spec"),
            x_text(found.x),
            "--seed",
            str(seed),
            "--max",
            "1000000",
            "--count",
            str(count),
            "--turns",
            "50000000",
        )
        with program.stream(*words) as output:
            run = Certificate(output)
            for entry in run:
                sizes.add(entry.size)
    if run.closing.word != "done":
        print(
            "ended by %s after %d objects" % (run.closing.word, run.closing.kept), file=sys.stderr
        )
    return sizes


def main() -> int:
    """Prints a row for each family; status 1 where one is off by three standard errors."""
    parser = argparse.ArgumentParser(description=__doc__)
    parser.add_argument("--mean", type=float, default=50)
    parser.add_argument("--count", type=int, default=2000)
    parser.add_argument("--seed", type=int, default=1)
    args = parser.parse_args()
    program, far = Program(), 0
    print(
        "| Family | x | Enclosed mean | Calls | Seconds | Measured mean | Standard error | Off by |"
    )
    print("|---|---|---|---|---|---|---|---|")
    for name, text in FAMILIES.items():
        begun = time.monotonic()
        found = Tuner(program, read_spec(text)).mean(args.mean)
        seconds = time.monotonic() - begun
        sizes = measured(program, text, found, args.count, args.seed)
        off = (
            max(float(found.mean.lo) - sizes.mean, sizes.mean - float(found.mean.hi), 0.0)
            / sizes.error
        )
        far += off > 3
        print(
            "| %s | %s | %.4f to %.4f | %d | %.1f | %.2f | %.2f | %.2f |"
            % (
                name,
                x_text(found.x),
                found.mean.lo,
                found.mean.hi,
                found.calls,
                seconds,
                sizes.mean,
                sizes.error,
                off,
            ),
            flush=True,
        )
    return 1 if far else 0


if __name__ == "__main__":
    sys.exit(main())
