"""The command line of `boltz-tools`: one module for each command."""
from __future__ import annotations

import argparse
import importlib
import os
import sys
from typing import Sequence

from boltz.certificate import CertificateError
from boltz.commands.reading import Problem
from boltz.objects import NotObject
from boltz.program import ProgramError
from boltz.tables import SpecRefused

COMMANDS = ("nodes", "convert", "picture", "stats", "tune", "shards")


def parser() -> argparse.ArgumentParser:
    """The parser of all commands; each module adds its own words."""
    top = argparse.ArgumentParser(
        prog="boltz-tools",
        description="Tools round the proved program boltz. Nothing in them is proved.",
    )
    top.add_argument(
        "--program", metavar="PATH", help="the program boltz (else $BOLTZ, else on the path)"
    )
    commands = top.add_subparsers(dest="command", required=True, metavar="COMMAND")
    for name in COMMANDS:
        module = importlib.import_module("boltz.commands." + name)
        about = (module.__doc__ or "").strip().split("\n")[0]
        command = commands.add_parser(
            name,
            help=about,
            description=module.__doc__,
            formatter_class=argparse.RawDescriptionHelpFormatter,
        )
        module.add_arguments(command)
        command.set_defaults(run=module.run)
    return top


def main(words: Sequence[str] | None = None) -> int:
    """Runs one command; its status."""
    args = parser().parse_args(words)
    try:
        return args.run(args) or 0
    except BrokenPipeError:
        os.dup2(os.open(os.devnull, os.O_WRONLY), sys.stdout.fileno())
        return 1
    except SpecRefused as refused:
        print("boltz-tools: refused spec %s" % refused, file=sys.stderr)
        return 3
    except (Problem, ProgramError, CertificateError, NotObject, OSError) as problem:
        print("boltz-tools: %s" % problem, file=sys.stderr)
        return 1
