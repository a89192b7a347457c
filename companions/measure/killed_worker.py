#!/usr/bin/python3
"""Makes shards over two worker processes of dask.distributed, each like a host of its own, and
kills one.

    BOLTZ=PROGRAM companions/measure/killed_worker.py SPEC X [--shards N] [--after K] [--apart]
        [words of sample]

One worker is killed when K shards are complete. Then all must be there, each verified, and the
merged stream must have the bytes of a run on one machine.
"""
from __future__ import annotations

import argparse
import hashlib
import os
import signal
import subprocess
import sys
import tempfile
import time

HERE = os.path.dirname(os.path.abspath(__file__))
COMPANIONS = os.path.dirname(HERE)
TOOLS = os.path.join(COMPANIONS, "bin", "boltz-tools")
sys.path.insert(0, COMPANIONS)

from boltz.program import Program  # noqa: E402
from boltz.shards import Folder  # noqa: E402


def start(folder: str, module: str, *words: str) -> subprocess.Popen:
    """A scheduler or worker, its output in a file."""
    with open(os.path.join(folder, "log"), "ab") as log:
        return subprocess.Popen(
            [sys.executable, "-m", "distributed.cli." + module, *words],
            cwd=folder,
            stdout=log,
            stderr=log,
            env={**os.environ, "PYTHONPATH": COMPANIONS, "TMPDIR": folder},
        )


def start_worker(folder: str, name: str, scheduler: str) -> subprocess.Popen:
    """A worker with a folder of its own."""
    place = os.path.join(folder, name)
    os.makedirs(place)
    return start(
        place,
        "dask_worker",
        "--scheduler-file",
        scheduler,
        "--no-nanny",
        "--nthreads",
        "1",
        "--name",
        name,
        "--local-directory",
        place,
        "--no-dashboard",
    )


def tools(*words: str) -> None:
    """A command of boltz-tools, which must end well."""
    subprocess.run([sys.executable, TOOLS, *words], check=True)


def receipts(folder: str) -> int:
    """How many receipts are there."""
    return sum(name.endswith(".json") and name[0].isdigit() for name in os.listdir(folder))


def merged(folder: str) -> str:
    """The digest of the merged stream."""
    digest = hashlib.sha256()
    for piece in Folder(folder).merged():
        digest.update(piece)
    return digest.hexdigest()


def run_and_kill(work: str, folder: str, after: int, apart: bool) -> None:
    """Runs the shards of a folder over two workers and kills the first one."""
    scheduler = os.path.join(work, "scheduler.json")
    processes = [
        start(
            work, "dask_scheduler", "--port", "0", "--scheduler-file", scheduler, "--no-dashboard"
        )
    ]
    try:
        processes += [start_worker(work, name, scheduler) for name in ("host-a", "host-b")]
        client = subprocess.Popen(
            [sys.executable, TOOLS, "shards", "run", folder, "--scheduler-file", scheduler]
            + ["--apart"] * apart,
            stdout=subprocess.DEVNULL,
        )
        processes.append(client)
        while receipts(folder) < after and client.poll() is None:
            time.sleep(0.02)
        processes[1].send_signal(signal.SIGKILL)
        print("killed one of two workers when %d shards were complete" % receipts(folder))
        client.wait()
    finally:
        for process in processes:
            if process.poll() is None:
                process.kill()
            process.wait()


def main() -> int:
    """Runs, kills, and compares with a run on one machine."""
    parser = argparse.ArgumentParser(
        description=__doc__, formatter_class=argparse.RawDescriptionHelpFormatter
    )
    parser.add_argument("spec")
    parser.add_argument("x")
    parser.add_argument("--shards", default="10")
    parser.add_argument("--after", type=int, default=3)
    parser.add_argument("--apart", action="store_true", help="the workers send the certificates")
    args, words = parser.parse_known_args()
    os.environ["BOLTZ"] = Program().path
    with tempfile.TemporaryDirectory(prefix="boltz-killed-") as work:
        many, alone = os.path.join(work, "many"), os.path.join(work, "alone")
        for folder in (many, alone):
            tools(
                "shards",
                "plan",
                folder,
                args.spec,
                args.x,
                "--seed",
                "1",
                "--shards",
                args.shards,
                *words,
            )
        begun = time.monotonic()
        run_and_kill(work, many, args.after, args.apart)
        print("%.1f s with starting and killing" % (time.monotonic() - begun))
        tools("shards", "status", many)
        verified = all(receipt.verified for receipt in Folder(many).collect())
        tools("shards", "run", alone, "--workers", "1")
        same = merged(many) == merged(alone)
        print("the merged stream %s that of one machine" % ("equals" if same else "differs from"))
    return 0 if same and verified else 1


if __name__ == "__main__":
    sys.exit(main())
