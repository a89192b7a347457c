"""Makes shards on this machine: each of some threads waits for one process of the program at a
time.
"""
from __future__ import annotations

from concurrent.futures import ThreadPoolExecutor, as_completed
from typing import Iterator, Sequence

from boltz.program import Program, ProgramError
from boltz.shards import RETRIES, Folder, Made, Receipt, ShardError


def run_local(
    folder: Folder, shards: Sequence[int], program: Program, workers: int
) -> Iterator[Made]:
    """The shards as they are made, or what went wrong with them."""
    with ThreadPoolExecutor(workers) as pool:
        futures = {pool.submit(make_again, folder, shard, program): shard for shard in shards}
        try:
            for future in as_completed(futures):
                yield futures[future], future.exception() or future.result()
        finally:
            for future in futures:
                future.cancel()


def make_again(folder: Folder, shard: int, program: Program) -> Receipt:
    """Makes a shard, again where it failed."""
    for left in reversed(range(RETRIES + 1)):
        try:
            return folder.make(shard, program)
        except (ShardError, ProgramError, OSError):
            if not left:
                raise
    raise AssertionError("not reached")
