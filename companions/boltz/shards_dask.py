"""Makes shards on many machines by dask.distributed.

A shard is a pure function of the plan and its number, but its place in the folder isn't, so tasks
are sent with `pure=False`. What a dead worker had begun is begun again elsewhere; what failed is
tried again.
"""
from __future__ import annotations

import os
import tempfile
import uuid
import zlib
from contextlib import contextmanager
from typing import Iterator, Sequence

from boltz.program import Program
from boltz.shards import RETRIES, Folder, Made, Plan, Receipt, make_shard


def make_there(
    plan: Plan, shard: int, program: str | None, folder: str | None
) -> tuple[Receipt, bytes | None]:
    """Runs on a worker. Where the folder isn't shared, the certificate is sent back, compressed."""
    found = Program(program)
    if folder is not None:
        return Folder(folder).make(shard, found), None
    with tempfile.TemporaryDirectory(prefix="boltz-shard-") as place:
        path = os.path.join(place, "certificate")
        receipt = make_shard(plan, shard, found, path)
        with open(path, "rb") as file:
            return receipt, zlib.compress(file.read(), 1)


@contextmanager
def client_of(scheduler: str | None, scheduler_file: str | None, workers: int):
    """A client of the scheduler that is named, else of a cluster of processes on this machine."""
    from distributed import Client, LocalCluster

    if scheduler or scheduler_file:
        with Client(scheduler or None, scheduler_file=scheduler_file) as client:
            yield client
    else:
        with LocalCluster(
            n_workers=workers, threads_per_worker=1, dashboard_address=None
        ) as cluster:
            with Client(cluster) as client:
                yield client


def run_dask(
    folder: Folder,
    shards: Sequence[int],
    program: str | None,
    workers: int,
    scheduler: str | None = None,
    scheduler_file: str | None = None,
    shared: bool = True,
) -> Iterator[Made]:
    """The shards as they are made, or what went wrong with them.

    Where `program` is None, each worker finds its own.
    """
    from distributed import as_completed

    place = os.path.abspath(folder.path) if shared else None
    with client_of(scheduler, scheduler_file, workers) as client:
        futures = {
            client.submit(
                make_there,
                folder.plan,
                shard,
                program,
                place,
                pure=False,
                retries=RETRIES,
                key="boltz-shard-%d-%s" % (shard, uuid.uuid4()),
            ): shard
            for shard in shards
        }
        for future in as_completed(list(futures)):
            error = future.exception()
            if error is not None:
                yield futures[future], error
                continue
            receipt, certificate = future.result()
            if certificate is not None:
                folder.put(receipt, zlib.decompress(certificate))
            future.release()
            yield futures[future], receipt
