"""Companions of the proved program `boltz`: readers, converters, pictures, tuning and test
strategies.

Nothing in this package is proved. It calls the program and reads what it prints; it never draws an
object by itself. `docs/companions.md` has a section for each tool.
"""

VERSION = "1"
