"""A run: its journal, report, pipes and changes beside the trace, checked against one another, with what each visit was made of.

A passed visit takes transmission, waiting and latency; what is left is rounding: a packet counts as there from the start of its
tick, and leaves a pipe at the start of one. So the four together are the time in the output trace less that in the input trace,
and rounding may be below 0.
"""
from dataclasses import dataclass
from pathlib import Path
from typing import Optional

import numpy
import pandas

from .capture import NS, Trace, read_addresses
from .faults import BadInput
from .journal import LOST, PASS, Journal, outcome_counts, read_journal
from .progress import Progress
from .texts import Pipes, Report, read_directory, read_pipes, read_report

LEFT, DROPPED = 0, 1
PARTS = ("waiting", "transmission", "latency", "rounding")


@dataclass(frozen=True)
class RunFiles:
    """Where a run's files are; a folder has them under these names."""

    journal: str
    report: str
    pipes: str
    directory: Optional[str]

    @staticmethod
    def in_folder(folder: str) -> "RunFiles":
        directory = Path(folder, "directory.txt")
        journal, report, pipes = (str(Path(folder, name)) for name in ("journal.txt", "report.txt", "pipes.txt"))
        return RunFiles(journal, report, pipes, str(directory) if directory.exists() else None)


@dataclass(frozen=True, eq=False)
class Run:
    """`visits` has the journal's columns and bps, queue, latency_ns, tx_ns, wait_ns and finish_ns of each visit (0 where it isn't
    passed).

    `packets` has a row for each bound packet: its number, entry_ns and exit_ns since the base, length, fate (LEFT or DROPPED),
    and in ns the delay of those that left and its parts.
    """

    name: str
    trace: Trace
    pipes: Pipes
    report: Report
    changes: Optional[pandas.DataFrame]
    visits: pandas.DataFrame
    packets: pandas.DataFrame
    pair: Optional[tuple[str, str]] = None

    @property
    def tick_ns(self) -> int:
        return self.pipes.tick_ns

    @property
    def end_ns(self) -> int:
        """When the last packet enters, leaves or is dropped."""
        last = int(self.visits["tick"].max()) * self.tick_ns if len(self.visits) else 0
        return max(last, int(self.packets[["entry_ns", "exit_ns"]].max().max()) if len(self.packets) else 0)


def parameters(pipes: Pipes, changes: Optional[pandas.DataFrame], visits: pandas.DataFrame) -> pandas.DataFrame:
    """Bandwidth, queue limit and latency of the pipe of each visit, at its tick."""
    first = pipes.table.iloc[visits["pipe"].to_numpy()]
    bps, queue, ticks = (first[name].to_numpy().copy() for name in ("bps", "queue", "ticks"))
    if changes is not None and len(changes):
        by_pipe = dict(iter(visits.groupby("pipe").indices.items()))
        for pipe, theirs in changes.groupby("pipe"):
            rows = by_pipe.get(pipe, numpy.zeros(0, "int64"))
            which = numpy.searchsorted(theirs["tick"].to_numpy(), visits["tick"].to_numpy()[rows], side="right") - 1
            rows, which = rows[which >= 0], which[which >= 0]
            bps[rows], queue[rows] = theirs["bps"].to_numpy()[which], theirs["queue"].to_numpy()[which]
            ticks[rows] = numpy.maximum(1, -(-theirs["us"].to_numpy()[which] * 1000 // pipes.tick_ns))
    return pandas.DataFrame({"bps": bps, "queue": queue, "latency_ns": ticks * pipes.tick_ns})


def finishes(pipe: pandas.Series, arrival: pandas.Series, tx: pandas.Series) -> pandas.Series:
    """When each passed visit has been transmitted: each starts at its arrival, or at the finish before it at its pipe."""
    sums = tx.groupby(pipe).cumsum()
    return sums + (arrival - sums + tx).groupby(pipe).cummax()


def with_parts(journal: Journal, trace: Trace, pipes: Pipes, changes: Optional[pandas.DataFrame]) -> pandas.DataFrame:
    """The visits with what each was made of; a visit whose exit isn't what the pipe's parameters give is refused."""
    visits, tick_ns = journal.visits, pipes.tick_ns
    known = parameters(pipes, changes, visits)
    passed = visits["outcome"].to_numpy() == PASS
    tx = -(-trace.length[visits["packet"].to_numpy()] * 8 * NS // known["bps"].to_numpy())
    arrival = pandas.Series(visits["tick"].to_numpy()[passed] * tick_ns)
    finish = finishes(pandas.Series(visits["pipe"].to_numpy()[passed]), arrival, pandas.Series(tx[passed]))
    exits = -(-finish.to_numpy() // tick_ns) * tick_ns + known["latency_ns"].to_numpy()[passed]
    wrong = exits != visits["exit"].to_numpy()[passed] * tick_ns
    if wrong.any():
        row = numpy.flatnonzero(passed)[numpy.argmax(wrong)]
        said = f"exit {exits[numpy.argmax(wrong)] // tick_ns}" + (
            f" with the changes of {pipes.file}'s directory" if changes is not None else ""
        )
        raise journal.fault(
            row, f"another exit than the pipes in {pipes.file} give ({said}): the pipes, changes or trace of another run"
        )
    zeros = numpy.zeros(len(visits), "int64")
    table = visits.assign(
        bps=known["bps"], queue=known["queue"], latency_ns=known["latency_ns"], tx_ns=zeros, wait_ns=zeros, finish_ns=zeros
    )
    table.loc[passed, "tx_ns"] = tx[passed]
    table.loc[passed, "finish_ns"] = finish.to_numpy()
    table.loc[passed, "wait_ns"] = finish.to_numpy() - tx[passed] - arrival.to_numpy()
    return table


def check_numbers(journal: Journal, trace: Trace, pipes: Pipes) -> None:
    visits = journal.visits
    for column, count, file in (("packet", len(trace.time_ns), trace.file), ("pipe", len(pipes.table), pipes.file)):
        wrong = visits[column].to_numpy() >= count
        if wrong.any():
            row = numpy.argmax(wrong)
            raise journal.fault(row, f"{column} {visits[column].iloc[row]}, where {file} has {count}")


def check_entries(journal: Journal, trace: Trace, tick_ns: int) -> None:
    """Hop 0 stands at the packet's entry tick."""
    visits = journal.visits
    entry = trace.since_base()[visits["packet"].to_numpy()] // tick_ns
    wrong = (visits["hop"].to_numpy() == 0) & (visits["tick"].to_numpy() != entry)
    if wrong.any():
        row = numpy.argmax(wrong)
        raise journal.fault(
            row,
            f"packet {visits['packet'].iloc[row]} enters at tick {entry[row]}: another trace, or another tick length than {tick_ns} ns",
        )


def check_hops(journal: Journal, pipes: Pipes) -> None:
    """Each later hop stands at the exit of the hop before, at a pipe that begins where that one ends."""
    visits = journal.visits
    order = numpy.lexsort((visits["hop"].to_numpy(), visits["packet"].to_numpy()))
    packet, hop, tick, pipe, exits = (visits[name].to_numpy()[order] for name in ("packet", "hop", "tick", "pipe", "exit"))
    follows = packet[1:] == packet[:-1]
    wrong = numpy.zeros(len(order), bool)
    wrong[:1] = hop[:1] != 0
    starts, ends = pipes.table["from"].to_numpy(), pipes.table["to"].to_numpy()
    joined = ends[pipe[:-1]] == starts[pipe[1:]]
    wrong[1:] = numpy.where(follows, (hop[1:] != hop[:-1] + 1) | (tick[1:] != exits[:-1]) | ~joined, hop[1:] != 0)
    if wrong.any():
        raise journal.fault(
            order[wrong].min(), f"no hop that follows the packet's last one, by its exit or by the pipes in {pipes.file}"
        )


def check_report(report: Report, journal: Journal, trace: Trace) -> None:
    """The report's counts and drops are those of the journal."""
    if report.packets != len(trace.time_ns):
        raise BadInput(report.file, 2, f"{report.packets} packets, where {trace.file} has {len(trace.time_ns)}")
    visits = journal.visits
    dropped = visits[visits["outcome"] != PASS].sort_values("packet")
    if len(dropped) != report.dropped:
        raise BadInput(report.file, 2, f"{report.dropped} dropped, where {journal.file} has {len(dropped)}")
    causes = numpy.where(dropped["outcome"].to_numpy() == LOST, "loss", "full")
    same = (dropped[["packet", "pipe", "tick"]].to_numpy() == report.drops[["packet", "pipe", "tick"]].to_numpy()).all(axis=1)
    same &= causes == report.drops["cause"].to_numpy()
    if not same.all():
        raise BadInput(report.file, int(report.drops["line"].iloc[numpy.argmin(same)]), f"another drop than in {journal.file}")
    check_counts(report, journal)


def check_counts(report: Report, journal: Journal) -> None:
    counts = outcome_counts(journal.visits)
    theirs = counts.reindex(report.pipes["pipe"].to_numpy(dtype="int64"), fill_value=0).to_numpy()
    same = (theirs == report.pipes[["passed", "lost", "full"]].to_numpy()).all(axis=1)
    if not same.all():
        raise BadInput(report.file, int(report.pipes["line"].iloc[numpy.argmin(same)]), f"other counts than in {journal.file}")
    if len(report.pipes) != len(counts):
        raise BadInput(report.file, 2, f"lines for {len(report.pipes)} pipes, where {journal.file} has {len(counts)}")


def packet_table(trace: Trace, report: Report, visits: pandas.DataFrame, tick_ns: int) -> pandas.DataFrame:
    bound = numpy.ones(len(trace.time_ns), bool)
    bound[report.unbounds["packet"].to_numpy(dtype="int64")] = False
    entry = trace.since_base()
    exits = entry // tick_ns * tick_ns  # that of a packet to its own address
    last = visits.drop_duplicates("packet", keep="last")
    exits[last["packet"]] = last["exit"].to_numpy() * tick_ns
    fate = numpy.zeros(len(entry), "int8")
    fate[last["packet"]] = numpy.where(last["outcome"] == PASS, LEFT, DROPPED)
    passed = visits[visits["outcome"] == PASS]
    sums = passed.groupby("packet")[["wait_ns", "tx_ns", "latency_ns"]].sum().reindex(range(len(entry)), fill_value=0)
    left = fate == LEFT
    table = pandas.DataFrame(
        {
            "packet": numpy.arange(len(entry)),
            "entry_ns": entry,
            "exit_ns": numpy.where(left, exits, -1),
            "length": trace.length,
            "fate": fate,
        }
    )
    table["delay"] = numpy.where(left, exits - entry, 0)
    for part, column in (("waiting", "wait_ns"), ("transmission", "tx_ns"), ("latency", "latency_ns")):
        table[part] = numpy.where(left, sums[column].to_numpy(), 0)
    table["rounding"] = table["delay"] - table["waiting"] - table["transmission"] - table["latency"]
    return table[bound].reset_index(drop=True)


def load_run(name: str, files: RunFiles, trace: Trace, progress: Progress) -> Run:
    """Reads a run and checks its files against one another."""
    pipes, report = read_pipes(files.pipes), read_report(files.report)
    changes = read_directory(files.directory, len(pipes.table)).changes if files.directory else None
    journal = read_journal(files.journal, progress)
    progress.step(f"{len(journal.visits):,} visits; checking that the files belong together")
    check_numbers(journal, trace, pipes)
    check_report(report, journal, trace)
    check_entries(journal, trace, pipes.tick_ns)
    visits = with_parts(journal, trace, pipes, changes)
    check_hops(journal, pipes)
    packets = packet_table(trace, report, visits, pipes.tick_ns)
    if int((packets["fate"] == LEFT).sum()) != report.left:
        raise BadInput(report.file, 2, f"{report.left} left, where {files.journal} has {int((packets['fate'] == LEFT).sum())}")
    return Run(name, trace, pipes, report, changes, visits, packets)


def narrow(run: Run, pair: tuple[str, str], progress: Progress) -> Run:
    """The run's packets from the one address to the other; its visits stay, since others' packets are waited for."""
    sources, destinations = read_addresses(run.trace.file, progress)
    chosen = (sources == pair[0]) & (destinations == pair[1])
    if not chosen.any():
        raise BadInput(run.trace.file, None, f"no packet from {pair[0]} to {pair[1]}")
    packets = run.packets[chosen[run.packets["packet"].to_numpy()]].reset_index(drop=True)
    if not len(packets):
        raise BadInput(run.trace.file, None, f"no packet from {pair[0]} to {pair[1]} that is bound")
    return Run(run.name, run.trace, run.pipes, run.report, run.changes, run.visits, packets, pair)
