"""The pictures of one run, or of two side by side."""
import numpy
from matplotlib.axes import Axes

from .journal import FULL, LOST
from .run import LEFT, Run
from .series import (
    NS,
    delivered,
    drops,
    edges,
    highest,
    limits,
    longest_queues,
    offered,
    pipes_met,
    pipes_to_show,
    queue_steps,
    span,
)
from .style import COOL, DARK, STROKES, WARM, Picture, legend_above, panels, png_of

SHOWN_PARTS = ("delay", "waiting", "transmission", "latency")
QUEUES_SHOWN = 8
MAP_ROWS = 60
DROP_ROWS = 16


def heading(axes: Axes, run: Run, runs: list[Run], pad: float = 6) -> None:
    """Each column's run, where there are two."""
    if len(runs) > 1:
        axes.set_title(run.name, fontweight="bold", pad=pad)


def whole_time(runs: list[Run]) -> tuple[float, float]:
    """Limits of the time axis in s, with a little room for marks at its ends."""
    start, end = span(runs)
    room = (end - start) / NS * 0.01
    return start / NS - room, end / NS + room


def delay_over_time(runs: list[Run]) -> Picture:
    figure, axes = panels(len(SHOWN_PARTS), len(runs), 1.6)
    for column, run in enumerate(runs):
        left = run.packets[run.packets["fate"] == LEFT]
        seconds = left["entry_ns"].to_numpy() / NS
        size = 2.5 if len(left) < 20_000 else 1
        for row, part in enumerate(SHOWN_PARTS):
            axes[row][column].plot(
                seconds, left[part].to_numpy() / 1e6, linestyle="none", marker=".", markersize=size, markeredgewidth=0, color=DARK
            )
            axes[row][0].set_ylabel(f"{part}\n(ms)")
            axes[row][column].set_ylim(bottom=0)
        heading(axes[0][column], run, runs)
        axes[-1][column].set_xlabel("time at which the packet enters (s)")
    axes[0][0].set_xlim(*whole_time(runs))
    return Picture(
        "delay-over-time.png",
        "Delay of each packet",
        "A point for each packet that arrives: its whole delay at the top, and below what it waited in queues, was transmitted, and was "
        "delayed by latency, summed over its pipes.",
        png_of(figure),
    )


def shares(values: numpy.ndarray) -> tuple[numpy.ndarray, numpy.ndarray]:
    """A distribution as at most some 2,000 points: values, and the share of packets at or below each."""
    values = numpy.sort(values)
    last = numpy.unique(numpy.linspace(0, len(values) - 1, 2000).astype("int64"))
    return values[last], (last + 1) / len(values)


def distribution(axes: Axes, values: numpy.ndarray, name: str, look: tuple[str, str]) -> None:
    """The share of values at or below each: steps where they are few, a line where they are many."""
    known, below = shares(values)
    colour, stroke = look
    axes.plot(
        numpy.append(known[:1], known),
        numpy.append([0], below),
        drawstyle="steps-post" if len(known) < 200 else "default",
        color=colour,
        linestyle=stroke,
        linewidth=2,
        label=name,
    )


def delay_distribution(runs: list[Run]) -> Picture:
    figure, axes = panels(1, len(runs), 3.4)
    for column, run in enumerate(runs):
        left = run.packets[run.packets["fate"] == LEFT]
        for part, look in zip(SHOWN_PARTS, STROKES):
            if len(left):
                distribution(axes[0][column], left[part].to_numpy() / 1e6, part, look)
        axes[0][column].set_xlabel("ms")
        axes[0][column].set_ylim(0, 1.02)
        heading(axes[0][column], run, runs, 20)
        legend_above(axes[0][column])
    axes[0][0].set_ylabel("share of packets with at most this")
    return Picture(
        "delay-distribution.png",
        "Distribution of the delay and its parts",
        "How many of the packets that arrive have at most this delay, and at most this much of each of its parts.",
        png_of(figure),
    )


def throughput(runs: list[Run]) -> Picture:
    figure, axes = panels(1, len(runs), 3.0)
    bounds = edges(runs, 150)
    for column, run in enumerate(runs):
        for values, name, (colour, stroke), width in (
            (offered(run, bounds), "offered", STROKES[1], 1.4),
            (delivered(run, bounds), "delivered", STROKES[0], 1.8),
        ):
            axes[0][column].stairs(
                values / 1e6, bounds / NS, color=colour, linestyle=stroke, linewidth=width, label=name, baseline=None
            )
        axes[0][column].set_xlabel("time (s)")
        heading(axes[0][column], run, runs, 20)
        legend_above(axes[0][column])
    axes[0][0].set_ylabel("Mbit/s")
    axes[0][0].set_ylim(bottom=0)
    axes[0][0].set_xlim(*whole_time(runs))
    return Picture(
        "throughput.png",
        "Throughput offered and delivered",
        f"Original lengths of the bound packets by the time at which they enter, and of those that arrive by the time at which they leave, "
        f"in steps of {(bounds[1] - bounds[0]) / 1e6:g} ms.",
        png_of(figure),
    )


def queue_panel(axes: Axes, run: Run, pipe: int, bounds: numpy.ndarray) -> None:
    axes.stairs(highest(*queue_steps(run, pipe), bounds), bounds / NS, color=DARK, fill=True, linewidth=0, label="packets")
    times, values = limits(run, pipe)
    axes.step(
        numpy.append(times, bounds[-1]) / NS,
        numpy.append(values, values[-1]),
        where="post",
        color=WARM,
        linestyle="--",
        linewidth=1.4,
        label="queue limit",
    )
    axes.set_title(run.pipes.name(pipe))


def queues(runs: list[Run]) -> Picture:
    chosen = pipes_to_show(runs, QUEUES_SHOWN)
    rows = max(1, max(map(len, chosen)))
    figure, axes = panels(rows, len(runs), 1.25 if rows > 2 else 2.2, "row")
    bounds = edges(runs, 600)
    for column, run in enumerate(runs):
        for row, pipe in enumerate(chosen[column]):
            if pipe is None:
                axes[row][column].set_axis_off()
            else:
                queue_panel(axes[row][column], run, pipe, bounds)
            axes[row][0].set_ylabel("packets")
        axes[-1][column].set_xlabel("time (s)")
        if len(runs) > 1 and chosen[column]:
            axes[0][column].set_title(f"{run.name}: {axes[0][column].get_title(loc='left')}", fontweight="bold")
        axes[0][column].legend(loc="lower right", bbox_to_anchor=(1, 1.0), ncol=2, borderaxespad=0.1)
    for line in axes:
        line[0].set_ylim(bottom=0)
    axes[0][0].set_xlim(*whole_time(runs))
    return Picture(
        "queues.png",
        "Packets at each pipe",
        f"How many packets wait or transmit at once, the most in each {(bounds[1] - bounds[0]) / 1e6:g} ms, at the {rows} pipes "
        "with the longest queues; others' packets count, too.",
        png_of(figure),
    )


def queue_map(runs: list[Run]) -> Picture:
    """Many pipes: one row each, darker where more packets are."""
    bounds = edges(runs, 300)
    rows = [sorted(longest_queues(run).index[:MAP_ROWS]) for run in runs]
    figure, axes = panels(1, len(runs), max(3.0, 0.16 * max(map(len, rows)) + 1), False)
    tables = [numpy.array([highest(*queue_steps(run, pipe), bounds) for pipe in theirs]) for run, theirs in zip(runs, rows)]
    most = max(1, max(int(table.max()) for table in tables))
    for column, run in enumerate(runs):
        here = axes[0][column]
        mesh = here.pcolormesh(
            bounds / NS, numpy.arange(len(rows[column]) + 1), tables[column], cmap="Greys", vmin=0, vmax=most, rasterized=True
        )
        here.set_yticks(numpy.arange(len(rows[column])) + 0.5, [str(pipe) for pipe in rows[column]], fontsize=6)
        here.invert_yaxis()
        here.grid(False)
        here.set_xlabel("time (s)")
        heading(here, run, runs)
    axes[0][0].set_ylabel("pipe")
    figure.colorbar(mesh, ax=axes[0], label="packets that wait or transmit", aspect=40)
    met = max(len(pipes_met(run)) for run in runs)
    return Picture(
        "queue-map.png",
        "Packets at all pipes",
        f"The most packets that wait or transmit at once in each {(bounds[1] - bounds[0]) / 1e6:g} ms, "
        f"for {max(map(len, rows))} of the {met} pipes that packets come to: those with the longest queues.",
        png_of(figure),
    )


def drop_rows(runs: list[Run]) -> tuple[list[int], dict[int, int]]:
    """The pipes with most drops, in number order, and in which row of a picture each pipe's drops stand."""
    counts: dict[int, int] = {}
    for run in runs:
        for pipe, count in drops(run)["pipe"].value_counts().items():
            counts[pipe] = counts.get(pipe, 0) + count
    shown = sorted(sorted(counts, key=lambda pipe: (-counts[pipe], pipe))[:DROP_ROWS])
    return shown, {pipe: shown.index(pipe) if pipe in shown else len(shown) for pipe in counts}


CAUSES = ((FULL, "queue full", DARK, "|", ""), (LOST, "loss", COOL, "o", "//"))


def drop_counts(axes: Axes, run: Run, bounds: numpy.ndarray) -> None:
    found = drops(run)
    below = numpy.zeros(len(bounds) - 1)
    for outcome, name, colour, _mark, hatch in CAUSES:
        theirs, _ = numpy.histogram(found["tick"].to_numpy()[found["outcome"] == outcome] * run.tick_ns, bins=bounds)
        axes.bar(
            bounds[:-1] / NS,
            theirs,
            numpy.diff(bounds) / NS,
            bottom=below,
            align="edge",
            color=colour,
            hatch=hatch,
            edgecolor="white" if hatch else colour,
            linewidth=0,
            label=name,
        )
        below = below + theirs
    legend_above(axes)


def drop_places(axes: Axes, run: Run, shown: list[int], rows: dict[int, int]) -> None:
    found = drops(run)
    for outcome, name, colour, mark, _hatch in CAUSES:
        theirs = found[found["outcome"] == outcome]
        shift = -0.18 if outcome == FULL else 0.18
        axes.plot(
            theirs["tick"] * run.tick_ns / NS,
            theirs["pipe"].map(rows) + shift,
            linestyle="none",
            marker=mark,
            markersize=6 if outcome == FULL else 4,
            color=colour,
            markerfacecolor="none",
            label=name,
        )
    names = [run.pipes.name(pipe) if pipe < len(run.pipes.table) else f"pipe {pipe}" for pipe in shown]
    names += ["all others"] if len(shown) < len(rows) else []
    axes.set_yticks(range(len(names)), names)
    axes.set_ylim(max(len(names), 1) - 0.5, -0.5)
    axes.set_xlabel("time (s)")


def drops_over_time(runs: list[Run]) -> Picture:
    shown, rows = drop_rows(runs)
    heights = [1.6, max(0.8, 0.26 * (len(set(rows.values())) + 1))]
    figure, axes = panels(2, len(runs), sum(heights) / 2 + 0.4, "row" if len(runs) > 1 else False)
    axes[0][0].get_gridspec().set_height_ratios(heights)
    bounds = edges(runs, 150)
    for column, run in enumerate(runs):
        drop_counts(axes[0][column], run, bounds)
        drop_places(axes[1][column], run, shown, rows)
        heading(axes[0][column], run, runs, 20)
    axes[0][0].set_ylabel(f"packets dropped in\n{(bounds[1] - bounds[0]) / 1e6:g} ms")
    axes[0][0].set_xlim(*whole_time(runs))
    return Picture(
        "drops.png",
        "Drops by cause and pipe",
        "Above, how many packets are dropped; below, a mark for each at its pipe and time: a stroke where the queue was full, "
        "a ring where the pipe lost it.",
        png_of(figure),
    )


def all_pictures(runs: list[Run]) -> list[Picture]:
    """What a page shows; the map of queues where there are more pipes than the picture of queues has rows."""
    drawn = [delay_over_time(runs), delay_distribution(runs), throughput(runs), queues(runs)]
    if max(len(pipes_met(run)) for run in runs) > QUEUES_SHOWN:
        drawn.append(queue_map(runs))
    return drawn + [drops_over_time(runs)]
