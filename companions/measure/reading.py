#!/usr/bin/python3
"""How many objects a second Python reads: the certificate alone, and with its objects as trees.

    companions/measure/reading.py SPEC CERTIFICATE
"""
from __future__ import annotations

import os
import sys
import time

sys.path.insert(0, os.path.join(os.path.dirname(os.path.abspath(__file__)), ".."))

from boltz.certificate import Certificate  # noqa: E402
from boltz.objects import ObjectReader  # noqa: E402
from boltz.spec import read_spec_file  # noqa: E402


def main() -> int:
    """Reads twice and prints both rates, in seconds of processor time."""
    if len(sys.argv) != 3:
        print(__doc__.strip(), file=sys.stderr)
        return 2
    reader = ObjectReader(read_spec_file(sys.argv[1]))
    for name, read in (("certificate alone", lambda text: None), ("with trees", reader.read)):
        begun = time.process_time()
        with open(sys.argv[2], "rb") as file:
            objects = atoms = 0
            for entry in Certificate(file):
                read(entry.text)
                objects, atoms = objects + 1, atoms + entry.size
        seconds = time.process_time() - begun
        print(
            "%s: %d objects, %d atoms in %.2f s: %.0f objects a second, %.0f atoms a second"
            % (name, objects, atoms, seconds, objects / seconds, atoms / seconds)
        )
    return 0


if __name__ == "__main__":
    sys.exit(main())
