"""Draws an object, or what a run has in it, as SVG or PNG (the ending of the file's name says
which).

  object    one object, by graphviz: --form parts, atoms or whole
  sizes     the share of each size; --law N adds the law up to size N
  options   the share of each option at each union
  cycles    the mean number of cycles of each length
"""
from __future__ import annotations

import argparse

from boltz.commands.reading import Problem, Reading, add_certificate
from boltz.commands.stats import summarise
from boltz.formats import to_dot
from boltz.pictures import NoPicture, draw_dot, plot_cycles, plot_options, plot_sizes
from boltz.series import size_weights

LAYOUTS = ("dot", "neato", "circo", "twopi", "fdp", "sfdp")


def add_arguments(parser: argparse.ArgumentParser) -> None:
    """The words of the command."""
    parser.add_argument("what", choices=("object", "sizes", "options", "cycles"))
    add_certificate(parser)
    parser.add_argument(
        "-o", "--output", required=True, metavar="FILE", help="FILE.svg or FILE.png"
    )
    parser.add_argument("--number", type=int, default=1, help="which object (1)")
    parser.add_argument("--form", choices=("parts", "atoms", "whole"), default="parts")
    parser.add_argument("--layout", choices=LAYOUTS, default="dot", help="graphviz's program")
    parser.add_argument("--dpi", type=int, default=96, help="dots per inch of an object's PNG")
    parser.add_argument("--law", type=int, metavar="N", help="the law of sizes up to N")


def run(args: argparse.Namespace) -> int:
    """Draws one picture."""
    try:
        with Reading(args) as reading:
            draw(args, reading)
    except NoPicture as error:
        raise Problem(str(error))
    return 0


def draw(args: argparse.Namespace, reading: Reading) -> None:
    """The picture that the words name."""
    if args.what == "object":
        for entry, tree in reading:
            if entry.number == args.number:
                draw_dot(to_dot(tree, args.form), args.output, args.layout, args.dpi)
                return
        raise Problem("the certificate has no object %d" % args.number)
    summary = summarise(reading)
    if not summary.sizes.total:
        raise Problem("the certificate has no object")
    if args.what == "options":
        plot_options(summary, args.output)
    elif args.what == "cycles":
        plot_cycles(summary, args.output)
    else:
        header = reading.header
        assert header is not None
        law = None if args.law is None else size_weights(reading.spec, float(header.x), args.law)
        plot_sizes(summary, law, header.window, args.output)
