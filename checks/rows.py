#!/usr/bin/env python3
"""Runs the built program over stored runs, and compares what it writes and its status.

    python3 checks/rows.py [PROGRAM]

Each folder of checks/rows is a run: `args` has its words, one a line; `stdout` and `status` are what is
wanted; every other file lies in the folder that it runs in. Where there is no `status`, 0 is wanted.
"""
import os
import subprocess
import sys
import tempfile

HERE = os.path.dirname(os.path.abspath(__file__))
PROGRAM = os.path.join(HERE, "..", "crates", "boltz_cli", "out", "boltz_cli")
ABOUT = {"args", "stdout", "status"}


def read(path):
    with open(path, "rb") as file:
        return file.read()


def copy_files(row, folder):
    """Copies the files that a run may read."""
    for name in os.listdir(row):
        if name not in ABOUT:
            with open(os.path.join(folder, name), "wb") as file:
                file.write(read(os.path.join(row, name)))


def difference(program, row):
    """What differs from what is wanted, as one line; None where nothing does."""
    words = read(os.path.join(row, "args")).split(b"\n")[:-1]
    path = os.path.join(row, "status")
    status = int(read(path)) if os.path.exists(path) else 0
    wanted = read(os.path.join(row, "stdout"))
    with tempfile.TemporaryDirectory() as folder:
        copy_files(row, folder)
        ran = subprocess.run([program] + words, cwd=folder, stdin=subprocess.DEVNULL,
                             stdout=subprocess.PIPE, stderr=subprocess.STDOUT, timeout=120)
    if ran.returncode != status:
        return "status %d, wanted %d; wrote %r" % (ran.returncode, status, ran.stdout[-200:])
    if ran.stdout != wanted:
        return "wrote %r, wanted %r" % (ran.stdout[-200:], wanted[-200:])
    return None


def main():
    program = os.path.abspath(sys.argv[1] if len(sys.argv) > 1 else PROGRAM)
    rows = os.path.join(HERE, "rows")
    failed = 0
    names = sorted(os.listdir(rows))
    for name in names:
        line = difference(program, os.path.join(rows, name))
        if line is not None:
            failed += 1
            print("%s: %s" % (name, line))
    print("%d passed, %d failed" % (len(names) - failed, failed))
    return 1 if failed or not names else 0


if __name__ == "__main__":
    sys.exit(main())
