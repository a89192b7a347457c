"""One run in many shards: seeds S, S + 1, .., one certificate each, verified where it was made.

A folder has the plan (`manifest.json`), the specification (`spec`) and for each shard a certificate
and a receipt. A shard is complete where its receipt is there and its certificate has the receipt's
digest, so that a run that was killed goes on where it stopped. An ending other than `done` is an
outcome of the shard and is counted; only failures of the machine are tried again.
"""
from __future__ import annotations

import json
import os
import platform
import re
import time
from collections import Counter
from dataclasses import asdict, dataclass
from typing import Any, Iterator, Sequence

from boltz import VERSION
from boltz.certificate import closing_of
from boltz.program import STATUSES, Program, file_digest, folder_with
from boltz.spec import read_spec

OUTCOMES = (0, 5, 6, 7)  # statuses of a drawing that has ended by its own rules
MANIFEST = "manifest.json"
RETRIES = 3  # of a shard that failed


class ShardError(RuntimeError):
    """A shard can't be made."""


@dataclass(frozen=True)
class Plan:
    """What every shard is made from.

    `words` are those of `boltz sample` after the file, without a seed.
    """

    spec: str
    digest: str
    words: tuple[str, ...]
    first_seed: int
    shards: int
    program: str
    tools: str = VERSION

    def seed(self, shard: int) -> int:
        """The seed of a shard."""
        return self.first_seed + shard


@dataclass(frozen=True)
class Receipt:
    """What is known of a shard. `verified`: its certificate was valid where it was made."""

    shard: int
    seed: int
    status: int
    ending: str
    kept: int
    rejected: int
    bits: int
    turns: int
    undecided: str | None
    bytes: int
    sha256: str
    verified: bool
    seconds: float
    host: str
    worker: str


Made = tuple[int, "Receipt | BaseException"]  # a shard's number, and its receipt or what went wrong


def make_plan(
    spec_text: str, words: Sequence[str], first_seed: int, shards: int, program: Program
) -> Plan:
    """The plan of a run; refused where the program refuses the specification or the words."""
    plan = Plan(
        spec_text, read_spec(spec_text).digest(), tuple(words), first_seed, shards, program.digest()
    )
    with folder_with(spec=spec_text) as folder:
        program.run("spec", "spec", folder=folder).needed()
        program.run(
            "sample", "spec", *with_one_turn(words), "--seed", str(first_seed), folder=folder
        ).needed(0, 7)
    return plan


def with_one_turn(words: Sequence[str]) -> list[str]:
    """The words of a run that ends after one turn."""
    at = words.index("--turns") if "--turns" in words else len(words)
    return [*words[:at], "--turns", "1", *words[at + 2 :]]


def make_shard(plan: Plan, shard: int, program: Program, path: str) -> Receipt:
    """Makes one shard and verifies it; its certificate is at `path` afterwards."""
    if program.digest() != plan.program:
        raise ShardError(
            "%s isn't the program of the plan: its digest is %s" % (program.path, program.digest())
        )
    begun = time.monotonic()
    with folder_with(spec=plan.spec) as folder:
        spec = os.path.join(folder, "spec")
        status = program.run_to(
            path, ("sample", spec, *plan.words, "--seed", str(plan.seed(shard)))
        )
        if status not in OUTCOMES:
            raise ShardError(
                "shard %d ended with status %d (%s)"
                % (shard, status, STATUSES.get(status, "unknown"))
            )
        verdict = program.run("verify", spec, path).needed(0, 11)
    if verdict.status == 11:
        raise ShardError("the certificate of shard %d: %s" % (shard, verdict.lines[0]))
    closing = closing_of(path)
    return Receipt(
        shard,
        plan.seed(shard),
        status,
        closing.word,
        closing.kept,
        closing.rejected,
        closing.bits,
        closing.turns,
        closing.undecided,
        os.path.getsize(path),
        file_digest(path),
        True,
        round(time.monotonic() - begun, 3),
        platform.node(),
        "%d" % os.getpid(),
    )


class Folder:
    """The folder of a run."""

    def __init__(self, path: str):
        self.path = path
        self.plan = self._read_plan()

    @classmethod
    def create(cls, path: str, plan: Plan) -> Folder:
        """A new folder with a plan; an old one must have the same plan."""
        os.makedirs(path, exist_ok=True)
        manifest = os.path.join(path, MANIFEST)
        if os.path.exists(manifest):
            if cls(path).plan != plan:
                raise ShardError("%s has another plan" % path)
        else:
            replace(os.path.join(path, "spec"), plan.spec.encode())
            replace(manifest, as_json({"plan": asdict(plan)}))
        return cls(path)

    def _read_plan(self) -> Plan:
        """The plan in the manifest."""
        with open(os.path.join(self.path, MANIFEST)) as file:
            fields: dict[str, Any] = json.load(file)["plan"]
        fields["words"] = tuple(fields["words"])
        return Plan(**fields)

    def certificate(self, shard: int) -> str:
        """Where a shard's certificate is."""
        return os.path.join(self.path, "%06d.certificate" % shard)

    def receipt_path(self, shard: int) -> str:
        """Where a shard's receipt is."""
        return os.path.join(self.path, "%06d.json" % shard)

    def receipt(self, shard: int) -> Receipt | None:
        """The receipt of a complete shard; None where it, or the certificate, isn't right."""
        try:
            with open(self.receipt_path(shard)) as file:
                receipt = Receipt(**json.load(file))
            whole = file_digest(self.certificate(shard)) == receipt.sha256
        except (OSError, ValueError, TypeError):
            return None
        return receipt if whole and receipt.seed == self.plan.seed(shard) else None

    def sweep(self) -> None:
        """Removes what processes of this machine left half-written when they were killed."""
        for name in os.listdir(self.path):
            found = PART.search(name)
            if found and found.group(1) == platform.node() and not is_alive(int(found.group(2))):
                os.remove(os.path.join(self.path, name))

    def missing(self) -> list[int]:
        """The shards that aren't complete."""
        return [shard for shard in range(self.plan.shards) if self.receipt(shard) is None]

    def make(self, shard: int, program: Program) -> Receipt:
        """Makes one shard in place, unless it is complete."""
        done = self.receipt(shard)
        if done is not None:
            return done
        part = part_of(self.certificate(shard))
        try:
            receipt = make_shard(self.plan, shard, program, part)
            os.replace(part, self.certificate(shard))
        finally:
            if os.path.exists(part):
                os.remove(part)
        replace(self.receipt_path(shard), as_json(asdict(receipt)))
        return receipt

    def put(self, receipt: Receipt, certificate: bytes) -> None:
        """Takes in a shard that was made elsewhere."""
        replace(self.certificate(receipt.shard), certificate)
        replace(self.receipt_path(receipt.shard), as_json(asdict(receipt)))

    def collect(self) -> list[Receipt]:
        """The receipts of all complete shards, which are written into the manifest too."""
        found = [self.receipt(shard) for shard in range(self.plan.shards)]
        receipts = [receipt for receipt in found if receipt is not None]
        replace(
            os.path.join(self.path, MANIFEST),
            as_json(
                {"plan": asdict(self.plan), "shards": [asdict(receipt) for receipt in receipts]}
            ),
        )
        return receipts

    def merged(self) -> Iterator[bytes]:
        """The certificates of all shards in order, in pieces; all must be complete."""
        missing = self.missing()
        if missing:
            raise ShardError("not complete: shards %s" % shortened(missing))
        for shard in range(self.plan.shards):
            with open(self.certificate(shard), "rb") as file:
                while piece := file.read(1 << 20):
                    yield piece


PART = re.compile(r"\.part-(.*)-(\d+)-\d+$")


def part_of(path: str) -> str:
    """Where a file is written before it is whole: a name with machine and process."""
    return "%s.part-%s-%d-%d" % (path, platform.node(), os.getpid(), time.monotonic_ns())


def is_alive(process: int) -> bool:
    """Whether a process of this machine is there."""
    try:
        os.kill(process, 0)
    except ProcessLookupError:
        return False
    except PermissionError:
        pass
    return True


def as_json(value: object) -> bytes:
    """A JSON text."""
    return (json.dumps(value, indent=1) + "\n").encode()


def replace(path: str, content: bytes) -> None:
    """Writes a file such that it is never seen half-written."""
    part = part_of(path)
    with open(part, "wb") as file:
        file.write(content)
        file.flush()
        os.fsync(file.fileno())
    os.replace(part, path)


def shortened(numbers: Sequence[int], most: int = 10) -> str:
    """Some of the numbers, as text."""
    text = ", ".join(map(str, numbers[:most]))
    return text if len(numbers) <= most else "%s and %d more" % (text, len(numbers) - most)


BIAS = {
    "tape-ended": "their tapes were used up; the objects before are in the merged stream",
    "undecided": (
        "60 bits didn't decide a variate; the objects before it are in the merged stream. To leave "
        "such shards out, or to draw others instead, would favour objects of fewer variates"
    ),
    "turn-limit": (
        "the limit of turns was reached; the objects before it are in the merged stream. Large "
        "objects take more turns, so the one that was cut short is more often a large one: the "
        "sizes lean to small ones, the more so if such shards are left out. Give more --turns"
    ),
}


def report(plan: Plan, receipts: Sequence[Receipt]) -> list[str]:
    """What came of a run, in lines; every ending is counted."""
    kept, rejected = sum(r.kept for r in receipts), sum(r.rejected for r in receipts)
    lines = [
        "%d of %d shards, %d objects kept, %d attempts rejected"
        % (len(receipts), plan.shards, kept, rejected)
    ]
    for ending, count in sorted(Counter(r.ending for r in receipts).items()):
        short = ": " + BIAS[ending] if ending in BIAS else ""
        lines.append("ended by %s: %d%s" % (ending, count, short))
    lines.append("verified: %d" % sum(r.verified for r in receipts))
    return lines


def status_of(plan: Plan, receipts: Sequence[Receipt]) -> int:
    """0 where all shards are there and ended by `done`; else 1, or the first other status."""
    if len(receipts) < plan.shards:
        return 1
    return next((r.status for r in receipts if r.status), 0)
