"""Proposes an x: for a mean size, or for as many objects as may be in a window of sizes.

It asks `boltz oracle` at many x. The mean is enclosed by the program's bounds of generating
functions; what is said of attempts, turns and undecided endings is an estimate.
"""
from __future__ import annotations

import argparse
import json
from math import ceil, inf

from boltz.commands.reading import Problem
from boltz.oracle import x_text
from boltz.program import Program
from boltz.spec import Spec, read_spec_file
from boltz.tuning import NoX, Tuned, Tuner

MOST_TURNS = 50_000_000


def add_arguments(parser: argparse.ArgumentParser) -> None:
    """The words of the command."""
    parser.add_argument("file", help="the specification")
    wanted = parser.add_mutually_exclusive_group(required=True)
    wanted.add_argument("--mean", type=float, metavar="N", help="the wanted mean size")
    wanted.add_argument("--window", type=int, nargs=2, metavar=("A", "B"), help="the wanted sizes")
    parser.add_argument(
        "--tolerance", type=float, default=0.005, help="how far the mean may be off (0.005 of it)"
    )
    parser.add_argument(
        "--dyadic",
        action="store_true",
        help="only powers of two as denominators, so that x is exact at any fraction bits",
    )
    parser.add_argument(
        "--fraction",
        type=int,
        choices=(40, 48, 52),
        default=48,
        help="fraction bits of the program",
    )
    parser.add_argument(
        "--count", type=int, default=1000, help="objects of the run that is to be made (1000)"
    )
    parser.add_argument("--json", action="store_true", help="write one JSON value")


def run(args: argparse.Namespace) -> int:
    """Searches and prints what was found."""
    spec = read_spec_file(args.file)
    tuner = Tuner(Program(args.program), spec, args.fraction, args.dyadic)
    try:
        if args.mean is not None:
            found = tuner.mean(args.mean, args.tolerance)
        else:
            low, high = args.window
            found = tuner.window(low, high, args.tolerance)
    except NoX as error:
        raise Problem(str(error))
    if args.json:
        print(json.dumps(as_dict(found, args)))
    else:
        for line in lines(spec, found, args):
            print(line)
    return 0


def attempts(found: Tuned) -> float:
    """The expected attempts per kept object."""
    return 1 / found.accepted if found.accepted else float("nan")


def objects_per_undecided(found: Tuned) -> float:
    """About how many kept objects come before one ending `undecided`."""
    risk = found.costs.undecided * found.effort * (attempts(found) if found.accepted else 1.0)
    return 1 / risk if risk else inf


def turns_of_attempt(found: Tuned) -> float:
    """The expected turns of an attempt, those above the window given up."""
    return found.costs.turns * found.effort


def turns(found: Tuned, count: int) -> int:
    """A limit of turns that the run should stay below: twice the expected ones."""
    each = turns_of_attempt(found) * (attempts(found) if found.accepted else 100.0)
    return max(1000, ceil(2 * count * each))


def words(found: Tuned, args: argparse.Namespace) -> list[str]:
    """The words of the run that is proposed."""
    low, high = found.window
    limit = min(turns(found, args.count), MOST_TURNS)
    extra = ["--fraction", str(args.fraction)] if args.fraction != 48 else []
    return [
        "sample",
        args.file,
        x_text(found.x),
        "--seed",
        "1",
        "--min",
        str(low),
        "--max",
        str(high),
        "--count",
        str(args.count),
        "--turns",
        str(limit),
    ] + extra


def as_dict(found: Tuned, args: argparse.Namespace) -> dict:
    """For JSON."""
    return {
        "x": x_text(found.x),
        "mean": [float(found.mean.lo), float(found.mean.hi)],
        "pointed": found.pointed,
        "attempts": attempts(found) if found.accepted else None,
        "turns_per_attempt": turns_of_attempt(found),
        "objects_per_undecided": objects_per_undecided(found),
        "oracle_calls": found.calls,
        "words": words(found, args),
    }


def lines(spec: Spec, found: Tuned, args: argparse.Namespace) -> list[str]:
    """What was found, in lines."""
    low, high = found.window
    greatest = max(range(len(spec.names)), key=lambda c: found.values.classes[c].hi)
    share = float(found.values.classes[greatest].hi) / 2.0 ** (64 - args.fraction)
    way = "secants and the pointed specification" if found.pointed else "secants"
    result = [
        "x %s" % x_text(found.x),
        "mean size between %.6f and %.6f (by %s; %d calls of oracle)"
        % (found.mean.lo, found.mean.hi, way, found.calls),
    ]
    if found.accepted is None:
        result.append(
            "attempts per kept object: not computed for sizes above 4000; make a short run first"
        )
    else:
        result.append(
            "attempts per kept object: %.4g, of about %.4g turns each"
            % (attempts(found), turns_of_attempt(found))
        )
    result.append(
        "greatest generating function: %s(x) = %.6g, %.3g%% of the ceiling"
        % (spec.names[greatest], found.values.classes[greatest].middle, 100 * share)
    )
    each = objects_per_undecided(found)
    rate = (
        "none, since nothing is chosen"
        if each == inf
        else "about one ending in %.2g objects" % each
    )
    result.append("undecided: " + rate)
    if turns(found, args.count) > MOST_TURNS:
        result.append("%d objects need more turns than one run may have: make shards" % args.count)
    result.append("boltz " + " ".join(words(found, args)))
    return result
