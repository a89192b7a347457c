"""One run in many shards, on one machine or many, each shard verified where it was made.

  plan DIR SPEC X --seed S --shards N [words of sample]
      writes the plan
  run DIR [--workers K]
      makes what is missing, by threads; with --dask by a local cluster of dask.distributed
  run DIR --scheduler ADDRESS [--apart]
      the same by a cluster that runs; --apart where its workers don't share the folder
  one DIR I
      makes shard I (for GNU parallel, Slurm and others)
  script DIR --parallel K | --slurm
      writes the line or the script that calls `one`
  status DIR
      checks all digests, completes the manifest and reports all endings
  merge DIR [--objects]
      writes the certificates in the order of the shards, or the objects alone
"""
from __future__ import annotations

import argparse
import os
import shlex
import sys
import time
from typing import Iterable

from boltz.certificate import certificates
from boltz.commands.reading import Problem
from boltz.program import Program
from boltz.shards import Folder, Made, ShardError, make_plan, report, status_of
from boltz.shards_dask import run_dask
from boltz.shards_local import run_local

TOOLS = os.path.realpath(sys.argv[0])


def add_arguments(parser: argparse.ArgumentParser) -> None:
    """The words of the commands."""
    acts = parser.add_subparsers(dest="act", required=True, metavar="ACT")
    plan = acts.add_parser("plan", help="writes the plan")
    plan.add_argument("folder")
    plan.add_argument("file", help="the specification")
    plan.add_argument("x")
    plan.add_argument("--seed", type=int, required=True, help="the first shard's seed")
    plan.add_argument("--shards", type=int, required=True, help="how many")
    for word in ("min", "max", "count", "turns", "fraction"):
        plan.add_argument("--" + word, help="as `boltz sample` has it")
    make = acts.add_parser("run", help="makes what is missing")
    make.add_argument("folder")
    make.add_argument("--workers", type=int, default=os.cpu_count(), help="how many at a time")
    make.add_argument("--dask", action="store_true", help="by a local cluster of dask.distributed")
    make.add_argument("--scheduler", metavar="ADDRESS", help="by a scheduler that runs")
    make.add_argument("--scheduler-file", metavar="FILE", help="the same, by its file")
    make.add_argument("--apart", action="store_true", help="the workers don't share the folder")
    one = acts.add_parser("one", help="makes one shard")
    one.add_argument("folder")
    one.add_argument("shard", type=int)
    script = acts.add_parser("script", help="writes what calls `one`")
    script.add_argument("folder")
    kind = script.add_mutually_exclusive_group(required=True)
    kind.add_argument(
        "--parallel", type=int, metavar="K", help="a line for GNU parallel with K jobs at a time"
    )
    kind.add_argument("--slurm", action="store_true", help="a script for sbatch")
    for name in ("status", "merge"):
        act = acts.add_parser(
            name, help="checks all" if name == "status" else "writes the merged stream"
        )
        act.add_argument("folder")
        if name == "merge":
            act.add_argument("--objects", action="store_true", help="the objects' texts alone")


def run(args: argparse.Namespace) -> int:
    """Does what the words name."""
    try:
        return {
            "plan": plan,
            "run": make,
            "one": one,
            "script": script,
            "status": status,
            "merge": merge,
        }[args.act](args)
    except ShardError as error:
        raise Problem(str(error))
    except ModuleNotFoundError as error:
        raise Problem("%s isn't installed: run companions/setup" % error.name)


def plan(args: argparse.Namespace) -> int:
    """Writes the plan."""
    if args.shards < 1:
        raise Problem("--shards: at least 1")
    words = [args.x]
    for word in ("min", "max", "count", "turns", "fraction"):
        if getattr(args, word) is not None:
            words += ["--" + word, getattr(args, word)]
    with open(args.file) as file:
        made = make_plan(file.read(), words, args.seed, args.shards, Program(args.program))
    Folder.create(args.folder, made)
    print(
        "%s: %d shards, seeds %d to %d"
        % (args.folder, made.shards, made.seed(0), made.seed(made.shards - 1))
    )
    return 0


def make(args: argparse.Namespace) -> int:
    """Makes what is missing and reports what came of it."""
    folder = Folder(args.folder)
    folder.sweep()
    missing = folder.missing()
    if args.dask or args.scheduler or args.scheduler_file:
        path = None if args.apart else Program(args.program).path
        found = run_dask(
            folder, missing, path, args.workers, args.scheduler, args.scheduler_file, not args.apart
        )
    else:
        found = run_local(folder, missing, Program(args.program), args.workers)
    show_progress(found, folder.plan.shards - len(missing), folder.plan.shards)
    return status(args)


def show_progress(found: Iterable[Made], done: int, total: int) -> None:
    """A bar on standard error, redrawn as shards are made; a line for each that failed."""
    begun, kept, others = time.monotonic(), 0, 0
    for shard, receipt in found:
        if isinstance(receipt, BaseException):
            print("boltz-tools: shard %d: %s" % (shard, receipt), file=sys.stderr)
            continue
        done, kept, others = done + 1, kept + receipt.kept, others + (receipt.status != 0)
        filled = 30 * done // total
        end = "\n" if done == total or not sys.stderr.isatty() else "\r"
        print(
            "[%s%s] %d/%d shards, %d objects, %d ended otherwise, %.0f s"
            % (
                "#" * filled,
                "." * (30 - filled),
                done,
                total,
                kept,
                others,
                time.monotonic() - begun,
            ),
            end=end,
            file=sys.stderr,
            flush=True,
        )


def one(args: argparse.Namespace) -> int:
    """Makes one shard; the status is 0 however the drawing ended, so that none makes it again."""
    folder = Folder(args.folder)
    if not 0 <= args.shard < folder.plan.shards:
        raise Problem("there is no shard %d" % args.shard)
    receipt = folder.make(args.shard, Program(args.program))
    print(
        "shard %d ended by %s: %d kept, verified" % (receipt.shard, receipt.ending, receipt.kept)
    )
    return 0


def script(args: argparse.Namespace) -> int:
    """Writes how other programs call `one`."""
    folder, path = Folder(args.folder), os.path.abspath(args.folder)
    command = [TOOLS, "--program", Program(args.program).path, "shards", "one", path]
    last = folder.plan.shards - 1
    if args.slurm:
        print(
            '#!/bin/sh\n#SBATCH --array=0-%d\n#SBATCH --job-name=boltz\n%s "$SLURM_ARRAY_TASK_ID"'
            % (last, shlex.join(command))
        )
    else:
        print(
            "seq 0 %d | parallel --jobs %d --bar %s {}" % (last, args.parallel, shlex.join(command))
        )
    return 0


def status(args: argparse.Namespace) -> int:
    """Checks all digests, completes the manifest and reports every ending."""
    folder = Folder(args.folder)
    receipts = folder.collect()
    for line in report(folder.plan, receipts):
        print(line)
    return status_of(folder.plan, receipts)


def merge(args: argparse.Namespace) -> int:
    """Writes the merged stream."""
    folder = Folder(args.folder)
    if not args.objects:
        for piece in folder.merged():
            sys.stdout.buffer.write(piece)
        return 0
    for shard in range(folder.plan.shards):
        if folder.receipt(shard) is None:
            raise ShardError("shard %d isn't complete" % shard)
        with open(folder.certificate(shard), "rb") as file:
            for certificate in certificates(file):
                for entry in certificate:
                    print(entry.text)
    return 0
