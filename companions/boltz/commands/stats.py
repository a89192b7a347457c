"""Counts what a run has in it: sizes, bits, options of unions, numbers of parts, leaves."""
from __future__ import annotations

import argparse
import json
from collections import Counter
from typing import Any

from boltz.certificate import Closing
from boltz.commands.reading import Reading, add_certificate
from boltz.summary import Numbers, Summary


def add_arguments(parser: argparse.ArgumentParser) -> None:
    """The words of the command."""
    add_certificate(parser)
    parser.add_argument("--json", action="store_true", help="write one JSON value")


def summarise(reading: Reading) -> Summary:
    """The summary of all objects of a certificate."""
    summary = Summary(reading.spec)
    for entry, tree in reading:
        summary.add(entry, tree)
    return summary


def run(args: argparse.Namespace) -> int:
    """Reads the whole run and prints its summary."""
    with Reading(args) as reading:
        summary = summarise(reading)
    if args.json:
        print(json.dumps(as_dict(summary, reading.closings)))
    else:
        for line in lines(summary, reading.closings):
            print(line)
    return 0


def total_of(closings: list[Closing]) -> dict[str, Any]:
    """The endings and the summed numbers of all closings."""
    total: dict[str, Any] = {"endings": dict(Counter(closing.word for closing in closings))}
    for name in ("kept", "rejected", "bits", "turns"):
        total[name] = sum(getattr(closing, name) for closing in closings)
    return total


def as_dict(summary: Summary, closings: list[Closing]) -> dict:
    """For JSON."""
    return {
        "closing": total_of(closings),
        "sizes": summary.sizes.as_dict(),
        "bits": summary.bits.as_dict(),
        "size_counts": {str(size): count for size, count in sorted(summary.sizes.counts.items())},
        "options": {str(node): dict(counts) for node, counts in sorted(summary.options.items())},
        "parts": {str(node): numbers.as_dict() for node, numbers in sorted(summary.parts.items())},
        "leaves": dict(summary.leaves),
    }


def spread(numbers: Numbers) -> str:
    """Mean, standard error and range in words."""
    if not numbers.total:
        return "none"
    return "mean %.2f (standard error %.2f), from %d to %d, median %d" % (
        numbers.mean,
        numbers.error,
        min(numbers.counts),
        max(numbers.counts),
        numbers.quantile(0.5),
    )


def lines(summary: Summary, closings: list[Closing]) -> list[str]:
    """The summary in lines."""
    spec, total = summary.spec, total_of(closings)
    endings = ", ".join(
        "%s%s" % (word, " %d times" % count if count > 1 else "")
        for word, count in total["endings"].items()
    )
    found = [
        "ended by %s: %d kept, %d rejected, %d bits, %d turns"
        % (endings, total["kept"], total["rejected"], total["bits"], total["turns"])
    ]
    found.append("sizes: " + spread(summary.sizes))
    found.append(
        "bits of an object: %s; with those of rejected attempts %.1f"
        % (spread(summary.bits), total["bits"] / max(total["kept"], 1))
    )
    for number, counts in sorted(summary.options.items()):
        visits = sum(counts.values())
        shares = (
            "%d: %d (%.1f%%)" % (option, counts[option], 100 * counts[option] / visits)
            for option in range(len(spec.nodes[number].parts))
        )
        found.append(
            "options at node %d, %s: %s" % (number, spec.node_text(number), ", ".join(shares))
        )
    for number, numbers in sorted(summary.parts.items()):
        found.append("parts at node %d, %s: %s" % (number, spec.node_text(number), spread(numbers)))
    found.append("leaves: " + ", ".join("%s %d" % item for item in sorted(summary.leaves.items())))
    return found
