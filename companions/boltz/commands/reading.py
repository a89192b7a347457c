"""What the commands share that read a certificate."""
from __future__ import annotations

import argparse
import sys
from typing import Iterator

from boltz.certificate import Closing, Entry, Header, certificates
from boltz.objects import ObjectReader, Tree
from boltz.spec import read_spec_file


class Problem(Exception):
    """What the user reads, without a trace."""


def add_certificate(parser: argparse.ArgumentParser) -> None:
    """The two files."""
    parser.add_argument("file", help="the specification")
    parser.add_argument(
        "certificate",
        nargs="?",
        default="-",
        help="what `boltz sample` printed (else standard input)",
    )


class Reading:
    """A specification and the certificates over it in a file, whose objects are read one at a time.

    Certificates may follow each other, as `boltz-tools shards merge` writes them. Endings
    other than `done` are reported on standard error.
    """

    def __init__(self, args: argparse.Namespace):
        self.spec = read_spec_file(args.file)
        self.is_stream = args.certificate == "-"
        self.header: Header | None = None
        self.closings: list[Closing] = []
        self._reader = ObjectReader(self.spec)
        self._file = sys.stdin.buffer if self.is_stream else open(args.certificate, "rb")

    def __enter__(self) -> Reading:
        return self

    def __exit__(self, *_) -> None:
        if not self.is_stream:
            self._file.close()

    def __iter__(self) -> Iterator[tuple[Entry, Tree]]:
        """The entries with their objects."""
        for certificate in certificates(self._file):
            self._check(certificate.header)
            for entry in certificate:
                yield entry, self._reader.read(entry.text)
            self._close(certificate.read_to_end())
        if self.header is None:
            raise Problem("there is no certificate")

    def _check(self, header: Header) -> None:
        """Refuses a certificate over another specification, or with another x than those before."""
        if header.digest not in (None, self.spec.digest()):
            raise Problem(
                "the certificate is over another specification: its digest is %s, not %s"
                % (header.digest, self.spec.digest())
            )
        if self.header is not None and (header.x, header.window) != (
            self.header.x,
            self.header.window,
        ):
            raise Problem("the certificates have different x or windows")
        self.header = header

    def _close(self, closing: Closing) -> None:
        """One more ending."""
        self.closings.append(closing)
        if closing.word != "done":
            print(
                "boltz-tools: the drawing ended by %s after %d objects%s"
                % (
                    closing.word,
                    closing.kept,
                    ": " + closing.undecided if closing.undecided else "",
                ),
                file=sys.stderr,
            )
