"""Draws campus.png from the runs in out: the errors of the delays, and how many pipes and how much time each mode takes.

usage: picture.py MODE..      the first is the one that the others are measured against
"""
import sys
from pathlib import Path

import numpy
import pandas

from modelnet_tools.capture import read_trace
from modelnet_tools.compare import arrive_in, differences, paired
from modelnet_tools.pictures import distribution
from modelnet_tools.progress import Progress
from modelnet_tools.run import Run, RunFiles, load_run
from modelnet_tools.style import BAR_HATCHES, STROKES, legend_above, png_of, pyplot

PROGRESS = Progress("campus")


def errors(axes, runs: list[Run]) -> None:
    """The delay in each mode less that in the first, of the packets that arrive in both."""
    for run, look in zip(runs[1:], STROKES):
        both = paired(runs[0], run)
        values = differences(both)["difference"].to_numpy() / 1e6
        distribution(axes, values, run.name, look)
        low, middle, high = numpy.percentile(values, [1, 50, 99])
        counts = arrive_in(both)
        print(
            f"{run.name}: {len(run.pipes.table)} pipes, delay less that of {runs[0].name}: median {middle:.2f} ms, "
            f"1st percentile {low:.2f} ms, "
            f"99th percentile {high:.2f} ms; arrive only in {runs[0].name} {counts['a']}, only here {counts['b']}"
        )
    axes.set(xlabel=f"delay less that of {runs[0].name} (ms)", ylabel="share of packets with at most this", ylim=(0, 1.02))
    legend_above(axes)


def bars(axes, names: list[str], values: list[float], title: str, form: str) -> None:
    for place, (name, value, (colour, _stroke), hatch) in enumerate(
        zip(names, values, (STROKES[3], *STROKES), BAR_HATCHES[::-1])
    ):
        axes.bar_label(axes.bar(place, value, 0.7, color=colour, hatch=hatch, edgecolor="white"), [form.format(value)])
    axes.set_xticks(range(len(names)), names)
    axes.set_title(title)
    axes.margins(y=0.15)
    axes.grid(axis="x", visible=False)


def draw(runs: list[Run]) -> bytes:
    names = [run.name for run in runs]
    times = pandas.read_csv("times.csv").set_index("mode")["ms"] if Path("times.csv").exists() else None
    figure, axes = pyplot.subplots(
        1, 2 if times is None else 3, figsize=(12.4, 3.6), width_ratios=(1.5, 1) if times is None else (1.5, 1, 1)
    )
    errors(axes[0], runs)
    bars(axes[1], names, [len(run.pipes.table) for run in runs], "pipes", "{:,}")
    if times is not None:
        bars(axes[2], names, [float(times[name]) for name in names], "processor time to run (ms)", "{:,.0f}")
    return png_of(figure)


trace = read_trace("day.pcap", PROGRESS)
picture = draw([load_run(mode, RunFiles.in_folder(f"out/{mode}"), trace, PROGRESS) for mode in sys.argv[1:]])
Path("campus.png").write_bytes(picture)
