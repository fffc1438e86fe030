"""Draws outage.png: throughput, the link's queue, delay and drops over one time axis, with the two seconds of the outage marked.

usage: picture.py PIPE      the number of the link's pipe
"""
import sys

import numpy

from modelnet_tools.capture import read_trace
from modelnet_tools.pictures import queue_panel, whole_time
from modelnet_tools.progress import Progress
from modelnet_tools.run import LEFT, Run, RunFiles, load_run
from modelnet_tools.series import NS, delivered, drops, edges, offered
from modelnet_tools.style import DARK, STROKES, legend_above, panels, png_of


def draw(run: Run, pipe: int) -> bytes:
    figure, ((rates,), (queue,), (delay,), (dropped,)) = panels(4, 1, 1.7)
    bounds = edges([run], 100)
    for values, name, (colour, stroke) in (
        (offered(run, bounds), "offered", STROKES[1]),
        (delivered(run, bounds), "delivered", STROKES[0]),
    ):
        rates.stairs(values / 1e6, bounds / NS, color=colour, linestyle=stroke, linewidth=1.8, label=name, baseline=None)
    queue_panel(queue, run, pipe, edges([run], 600))
    left = run.packets[run.packets["fate"] == LEFT]
    delay.plot(
        left["entry_ns"] / NS, left["delay"] / 1e6, linestyle="none", marker=".", markersize=2.5, markeredgewidth=0, color=DARK
    )
    counts, _ = numpy.histogram(drops(run)["tick"].to_numpy() * run.tick_ns, bins=bounds)
    dropped.stairs(counts, bounds / NS, color=DARK, fill=True)
    for axes, name in (
        (rates, "Mbit/s"),
        (queue, "packets\nat the link"),
        (delay, "delay (ms)"),
        (dropped, f"dropped in\n{(bounds[1] - bounds[0]) / 1e6:g} ms"),
    ):
        start, end = run.changes["tick"] * run.tick_ns / NS
        axes.axvspan(start, end, color="#f0e6dc", zorder=0, label="link at 2 Mbit/s")
        axes.set_ylabel(name)
        axes.set_ylim(bottom=0)
    queue.set_title("")
    legend_above(rates)
    legend_above(queue)
    dropped.set_xlabel("time (s)")
    dropped.set_xlim(*whole_time([run]))
    return png_of(figure)


progress = Progress("outage")
made = load_run("outage", RunFiles.in_folder("out/outage"), read_trace("sensors.pcap", progress), progress)
with open("outage.png", "wb") as file:
    file.write(draw(made, int(sys.argv[1])))
found = made.packets[made.packets["fate"] == LEFT]
for begin, end in ((0, 1.5), (1.5, 3.5), (3.5, 5)):
    within = found[(found["entry_ns"] >= begin * NS) & (found["entry_ns"] < end * NS)]["delay"] / 1e6
    print(
        f"entered from {begin} to {end} s: {len(within)} arrive, median delay {within.median():.1f} ms, greatest {within.max():.1f} ms"
    )
print(f"{len(drops(made))} dropped")
