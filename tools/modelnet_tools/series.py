"""Series over time and tables by pipe: what the pictures show, as numbers."""
from functools import lru_cache
from typing import Optional

import numpy
import pandas

from .journal import FULL, LOST, PASS, outcome_counts
from .run import DROPPED, LEFT, PARTS, Run

NS = 10**9


def nice_width(span_ns: int, bins: int) -> int:
    """The least of 1, 2, 5, 10, 20, .. ns of which at most `bins` cover the span."""
    width, factors = 1, (2, 2.5, 2)
    step = 0
    while width * bins < span_ns + 1:
        width = int(width * factors[step % 3])
        step += 1
    return width


def span(runs: list[Run]) -> tuple[int, int]:
    """From the first bound packet's entry to the end of the last run, in ns."""
    starts = [int(run.packets["entry_ns"].min()) for run in runs if len(run.packets)]
    return min(starts, default=0), max(1, *(run.end_ns for run in runs))


def edges(runs: list[Run], bins: int) -> numpy.ndarray:
    """Bounds of at most so many bins (and one more) over the span of these runs, in nice steps."""
    start, end = span(runs)
    width = nice_width(end - start, bins)
    return numpy.arange(start // width * width, end + width + 1, width, dtype="int64")


def rate(times: numpy.ndarray, lengths: numpy.ndarray, bounds: numpy.ndarray) -> numpy.ndarray:
    """Bit/s in each bin, by original lengths."""
    total, _ = numpy.histogram(times, bins=bounds, weights=lengths)
    return total * 8 * NS / numpy.diff(bounds)


def offered(run: Run, bounds: numpy.ndarray) -> numpy.ndarray:
    return rate(run.packets["entry_ns"].to_numpy(), run.packets["length"].to_numpy(), bounds)


def delivered(run: Run, bounds: numpy.ndarray) -> numpy.ndarray:
    left = run.packets[run.packets["fate"] == LEFT]
    return rate(left["exit_ns"].to_numpy(), left["length"].to_numpy(), bounds)


@lru_cache(maxsize=4)
def queue_levels(run: Run) -> dict[int, tuple[numpy.ndarray, numpy.ndarray]]:
    """By pipe, when the number of packets that wait or transmit there changes, and the number from then on. A packet is there
    from its tick to its finish.
    """
    passed = run.visits["outcome"].to_numpy() == PASS
    pipe, tick, finish = (run.visits[name].to_numpy()[passed] for name in ("pipe", "tick", "finish_ns"))
    order = numpy.argsort(pipe, kind="stable")
    pipes, starts = numpy.unique(pipe[order], return_index=True)
    levels = {}
    for number, rows in zip(pipes, numpy.split(order, starts[1:])):
        times = numpy.concatenate([finish[rows], tick[rows] * run.tick_ns])  # of equal times, finishes come first
        signs = numpy.repeat([-1, 1], len(rows))
        merged = numpy.argsort(times, kind="stable")
        levels[int(number)] = times[merged], signs[merged].cumsum()
    return levels


def queue_steps(run: Run, pipe: int) -> tuple[numpy.ndarray, numpy.ndarray]:
    nothing = numpy.zeros(0, "int64")
    return queue_levels(run).get(pipe, (nothing, nothing))


def highest(times: numpy.ndarray, levels: numpy.ndarray, bounds: numpy.ndarray) -> numpy.ndarray:
    """The highest level within each bin, what is carried into it included."""
    before = numpy.searchsorted(times, bounds[:-1], side="right")
    carried = numpy.concatenate([[0], levels])[before]
    inside = numpy.searchsorted(bounds, times, side="right") - 1
    kept = (inside >= 0) & (inside < len(carried))
    numpy.maximum.at(carried, inside[kept], levels[kept])
    return carried


def longest_queues(run: Run) -> pandas.Series:
    """By pipe, the most packets that were there at once, with those pipes that some chosen packet came to, longest first."""
    met = set(pipes_met(run))
    most = {pipe: int(levels.max()) for pipe, (_times, levels) in queue_levels(run).items() if pipe in met}
    return pandas.Series(most, dtype="int64").sort_values(ascending=False, kind="stable")


@lru_cache(maxsize=4)
def pipes_met(run: Run) -> numpy.ndarray:
    return numpy.unique(chosen_visits(run)["pipe"])


@lru_cache(maxsize=4)
def chosen_visits(run: Run) -> pandas.DataFrame:
    """The visits of the run's packets: all, or those of the pair that it was narrowed to."""
    return run.visits if run.pair is None else run.visits[run.visits["packet"].isin(run.packets["packet"])]


def limits(run: Run, pipe: int) -> tuple[numpy.ndarray, numpy.ndarray]:
    """The queue limit of a pipe: when it changes, and what it is from then on."""
    times, values = [0], [int(run.pipes.table["queue"].iloc[pipe])]
    if run.changes is not None:
        for change in run.changes[run.changes["pipe"] == pipe].itertuples():
            times.append(change.tick * run.tick_ns)
            values.append(change.queue)
    return numpy.array(times), numpy.array(values)


def drops(run: Run) -> pandas.DataFrame:
    """tick, packet, pipe and outcome of each drop of the chosen packets."""
    visits = chosen_visits(run)
    return visits[visits["outcome"] != PASS][["tick", "packet", "pipe", "outcome"]]


def delay_table(run: Run) -> pandas.DataFrame:
    """Mean, median and far percentiles of the delay and its parts, in ms, of the packets that left."""
    left = run.packets[run.packets["fate"] == LEFT]
    rows = {}
    for part in ("delay", *PARTS):
        values = left[part].to_numpy() / 1e6
        known = [values.mean(), *numpy.percentile(values, [1, 50, 99]), values.max()] if len(values) else [numpy.nan] * 5
        rows[part] = known
    return pandas.DataFrame.from_dict(
        rows, orient="index", columns=["mean", "1st percentile", "median", "99th percentile", "greatest"]
    )


def pipe_table(run: Run) -> pandas.DataFrame:
    """Counts of the chosen packets by pipe, the share of the time that it transmits them, and how long they wait there."""
    visits = chosen_visits(run)
    counts = outcome_counts(visits)
    sums = visits.groupby("pipe")[["tx_ns", "wait_ns"]].sum()
    known = run.pipes.table.iloc[counts.index].set_index("pipe")[["from", "to", "bps", "us", "queue"]]
    table = known.join(counts)
    table["visits"] = table["passed"] + table["lost"] + table["full"]
    table["dropped_share"] = (table["lost"] + table["full"]) / table["visits"]
    table["busy_share"] = sums["tx_ns"] / max(run.end_ns, 1)
    table["wait_ms"] = sums["wait_ns"] / table["passed"].clip(lower=1) / 1e6
    return table


def busiest(run: Run, count: int = 10) -> pandas.DataFrame:
    return pipe_table(run).sort_values("busy_share", ascending=False, kind="stable").head(count)


def lossiest(run: Run, count: int = 10) -> pandas.DataFrame:
    table = pipe_table(run)
    table = table[table["lost"] + table["full"] > 0]
    return (
        table.assign(drops=table["lost"] + table["full"])
        .sort_values("drops", ascending=False, kind="stable")
        .head(count)
        .drop(columns="drops")
    )


def counts(run: Run) -> dict[str, int]:
    """What became of the chosen packets."""
    by_cause = drops(run)["outcome"].value_counts()
    return {
        "bound": len(run.packets),
        "left": int((run.packets["fate"] == LEFT).sum()),
        "dropped": int((run.packets["fate"] == DROPPED).sum()),
        "lost": int(by_cause.get(LOST, 0)),
        "full": int(by_cause.get(FULL, 0)),
    }


def same_pipes(runs: list[Run]) -> bool:
    """Whether all runs have pipes between the same nodes, so that a number means the same in each."""
    ends = [run.pipes.table[["from", "to"]] for run in runs]
    return all(theirs.equals(ends[0]) for theirs in ends)


def pipes_to_show(runs: list[Run], count: int) -> list[list[Optional[int]]]:
    """For each run the pipes with the longest queues; the same in all where they have the same pipes, and None where a run has
    fewer.
    """
    longest = [longest_queues(run) for run in runs]
    if same_pipes(runs):
        most = pandas.concat(longest, axis=1).max(axis=1).sort_values(ascending=False, kind="stable")
        return [list(most.index[:count])] * len(runs)
    chosen = [list(each.index[:count]) for each in longest]
    rows = max(map(len, chosen))
    return [each + [None] * (rows - len(each)) for each in chosen]
