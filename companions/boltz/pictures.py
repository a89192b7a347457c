"""Pictures: objects through graphviz, counts of a run through matplotlib."""
from __future__ import annotations

import os
import shutil
import subprocess
from typing import Sequence

from boltz.summary import Summary


class NoPicture(RuntimeError):
    """What draws the picture isn't installed, or failed."""


def draw_dot(dot: str, path: str, layout: str = "dot", dpi: int = 96) -> None:
    """Draws a graph in Graphviz's language; the file's ending names the format."""
    if shutil.which(layout) is None:
        raise NoPicture("%s isn't installed: run companions/setup" % layout)
    kind = os.path.splitext(path)[1][1:] or "svg"
    ran = subprocess.run(
        [layout, "-T" + kind, "-Gdpi=%d" % dpi, "-o", path],
        input=dot.encode(),
        stderr=subprocess.PIPE,
        check=False,
    )
    if ran.returncode:
        raise NoPicture("%s: %s" % (layout, ran.stderr.decode("utf-8", "replace").strip()))


def plain_axes(columns: int = 1, width: float = 6.0, height: float = 3.2):
    """A figure with axes side by side."""
    try:
        import matplotlib
    except ModuleNotFoundError:
        raise NoPicture("matplotlib isn't installed: run companions/setup") from None
    matplotlib.use("Agg")
    from matplotlib import pyplot

    figure, axes = pyplot.subplots(1, columns, figsize=(width, height), squeeze=False)
    return figure, list(axes[0])


def save(figure, path: str, dpi: int = 80) -> None:
    """Writes a figure; the file's ending names the format."""
    figure.tight_layout()
    figure.savefig(path, dpi=dpi)


def plot_sizes(
    summary: Summary, law: Sequence[float] | None, window: tuple[int, int], path: str
) -> None:
    """The share of each size, and the law within the window where it is given (by size from 0)."""
    figure, (axes,) = plain_axes()
    counts, total = summary.sizes.counts, summary.sizes.total
    sizes = range(min(counts), max(counts) + 1)
    axes.bar(
        sizes,
        [counts[size] / total for size in sizes],
        width=1.0,
        color="#9db8d2",
        label="%d objects" % total,
    )
    if law is not None:
        low, high = window[0], min(window[1], len(law) - 1)
        inside = sum(law[low : high + 1])
        shown = range(max(low, min(counts)), min(high, max(counts)) + 1)
        axes.plot(
            shown,
            [law[size] / inside for size in shown],
            color="#b03030",
            linewidth=1.2,
            label="law",
        )
    axes.set_xlabel("size")
    axes.set_ylabel("share of the objects")
    axes.legend(frameon=False)
    save(figure, path)


def plot_options(summary: Summary, path: str) -> None:
    """The share of each option at each union."""
    unions = sorted(summary.options)
    if not unions:
        raise NoPicture("no object has a union")
    figure, every = plain_axes(len(unions), max(3.2 * len(unions), 4.0))
    for axes, number in zip(every, unions):
        counts = summary.options[number]
        options = range(len(summary.spec.nodes[number].parts))
        total = sum(counts.values())
        axes.bar(
            [str(option) for option in options],
            [counts[option] / total for option in options],
            color="#9db8d2",
        )
        axes.set_title("node %d: %s" % (number, summary.spec.node_text(number)[:30]), fontsize=9)
        axes.set_xlabel("option")
    every[0].set_ylabel("share")
    save(figure, path)


def plot_cycles(summary: Summary, path: str) -> None:
    """How many cycles of each length an object has, in the mean, at each Cyc."""
    found = [number for number in sorted(summary.parts) if summary.spec.nodes[number].kind == "Cyc"]
    if not found:
        raise NoPicture("no object has a cycle")
    figure, every = plain_axes(len(found), max(4.5 * len(found), 6.0))
    for axes, number in zip(every, found):
        counts = summary.parts[number].counts
        lengths = range(1, max(counts) + 1)
        axes.bar(
            lengths,
            [counts[length] / summary.sizes.total for length in lengths],
            width=0.9,
            color="#9db8d2",
        )
        axes.set_title("node %d: %s" % (number, summary.spec.node_text(number)[:30]), fontsize=9)
        axes.set_xlabel("length of the cycle")
    every[0].set_ylabel("cycles of this length in an object")
    save(figure, path)
