"""What the tests share: where things are, the program where it is built, the stored runs."""
from __future__ import annotations

import functools
import importlib
import importlib.util
import os
import sys
import time
import unittest

HERE = os.path.dirname(os.path.abspath(__file__))
ROOT = os.path.dirname(os.path.dirname(HERE))
ROWS = os.path.join(ROOT, "checks", "rows")
EXAMPLES = os.path.join(ROOT, "examples")
TOOLS = os.path.join(ROOT, "companions", "bin", "boltz-tools")
BUILT = os.path.join(ROOT, "crates", "boltz_cli", "out", "boltz_cli")

sys.path.insert(0, os.path.join(ROOT, "companions"))

from boltz.program import Program, ProgramError  # noqa: E402


def program() -> Program:
    """The program that BOLTZ names, or the built one; the test is skipped where there is none."""
    try:
        return Program(os.environ.get("BOLTZ") or BUILT)
    except ProgramError:
        raise unittest.SkipTest("no program: build crates/boltz_cli or set BOLTZ")


def is_there(module: str) -> bool:
    """Whether a module can be imported: one whose installation was cut off can't."""
    if importlib.util.find_spec(module) is None:
        return False
    try:
        importlib.import_module(module)
    except Exception:
        return False
    return True


def needs(*modules: str):
    """Skips a test where one of the modules isn't installed, or can't be imported."""
    absent = [module for module in modules if not is_there(module)]
    return unittest.skipIf(absent, "not installed: %s" % ", ".join(absent))


def takes(seconds: float):
    """Skips a test that may last until after the time in COMPANIONS_UNTIL."""

    def decorate(test):
        @functools.wraps(test)
        def run(*args):
            until = float(os.environ.get("COMPANIONS_UNTIL", "inf"))
            if time.time() + seconds > until:
                raise unittest.SkipTest("no time left: it may take %d seconds" % seconds)
            return test(*args)

        return run

    return decorate


def stored(row: str, name: str = "stdout") -> bytes:
    """A file of a stored run."""
    with open(os.path.join(ROWS, row, name), "rb") as file:
        return file.read()


def stored_draws() -> list[str]:
    """The stored runs of one drawing that printed at least one object; a pool has several drawings."""
    return [
        row
        for row in sorted(os.listdir(ROWS))
        if stored(row, "args").startswith(b"sample\n") and b"\nobject 1 " in stored(row)
    ]
