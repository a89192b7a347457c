"""Finds and calls the proved program."""
from __future__ import annotations

import hashlib
import os
import shutil
import subprocess
import tempfile
from contextlib import contextmanager
from dataclasses import dataclass
from typing import IO, Iterator, Sequence

STATUSES = {
    0: "done",
    2: "words refused",
    3: "specification refused",
    4: "no upper values",
    5: "tape ended",
    6: "undecided",
    7: "turn limit",
    8: "read fault",
    9: "write fault",
    10: "out of memory",
    11: "certificate refused",
    12: "no fast vector",
    13: "point refused",
    14: "object refused",
    15: "rank refused",
}


class ProgramError(RuntimeError):
    """The program isn't there, or answered what its caller can't use."""


@dataclass(frozen=True)
class Ran:
    """What one call of the program wrote, and its status."""

    words: tuple[str, ...]
    status: int
    output: bytes

    @property
    def lines(self) -> list[str]:
        """The lines that it wrote."""
        return self.output.decode("ascii", "replace").splitlines()

    @property
    def refusal(self) -> str | None:
        """The line that refuses, None where there is none."""
        first = self.output[:2000].decode("ascii", "replace").split("\n", 1)[0]
        return first if first.startswith("refused ") else None

    def needed(self, *statuses: int) -> Ran:
        """The same, where the status is one of these (0 where none is given); else ProgramError."""
        if self.status not in (statuses or (0,)):
            raise ProgramError(
                "boltz %s: status %d (%s): %s"
                % (
                    " ".join(self.words),
                    self.status,
                    STATUSES.get(self.status, "unknown"),
                    self.refusal or (self.lines[-1] if self.lines else "nothing was written"),
                )
            )
        return self


class Program:
    """The program at a path: the one given, else that of $BOLTZ, else `boltz` on the path."""

    def __init__(self, path: str | None = None):
        wanted = path or os.environ.get("BOLTZ") or "boltz"
        found = shutil.which(wanted)
        if found is None:
            raise ProgramError(
                "no program %r: give --program PATH, set BOLTZ or put boltz on the path" % wanted
            )
        self.path = os.path.abspath(found)

    def run(self, *words: str, folder: str | None = None) -> Ran:
        """One call, its output kept."""
        ran = subprocess.run(
            [self.path, *words],
            cwd=folder,
            stdin=subprocess.DEVNULL,
            stdout=subprocess.PIPE,
            check=False,
        )
        return Ran(words, ran.returncode, ran.stdout)

    def run_to(self, output: str, words: Sequence[str], folder: str | None = None) -> int:
        """One call, its output written to a file; the status."""
        with open(output, "wb") as file:
            return subprocess.run(
                [self.path, *words], cwd=folder, stdin=subprocess.DEVNULL, stdout=file, check=False
            ).returncode

    @contextmanager
    def stream(self, *words: str) -> Iterator[IO[bytes]]:
        """The output of one call while it is written; ended where the reader stops early."""
        process = subprocess.Popen(
            [self.path, *words], stdin=subprocess.DEVNULL, stdout=subprocess.PIPE
        )
        assert process.stdout is not None
        try:
            yield process.stdout
        finally:
            process.stdout.close()
            if process.poll() is None:
                process.terminate()
            process.wait()

    def digest(self) -> str:
        """The SHA-256 digest of the program's file, which names its version."""
        return file_digest(self.path)


def file_digest(path: str) -> str:
    """The SHA-256 digest of a file, as 64 hexadecimal digits."""
    digest = hashlib.sha256()
    with open(path, "rb") as file:
        while piece := file.read(1 << 20):
            digest.update(piece)
    return digest.hexdigest()


@contextmanager
def folder_with(**files: str | bytes) -> Iterator[str]:
    """A folder with these files, removed in the end."""
    with tempfile.TemporaryDirectory(prefix="boltz-") as folder:
        for name, content in files.items():
            with open(os.path.join(folder, name), "wb") as file:
                file.write(content.encode() if isinstance(content, str) else content)
        yield folder
