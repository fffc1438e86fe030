"""The tool `compare`: two runs of one capture, packet by packet."""
import argparse
from pathlib import Path
from typing import Optional, Sequence

import numpy
import pandas

from .capture import read_trace
from .faults import run_tool
from .figures import add_run_options
from .journal import LOST
from .page import page, table, write_folder
from .pictures import all_pictures, distribution, whole_time
from .progress import Progress
from .run import LEFT, Run, RunFiles, load_run, narrow
from .series import NS, drops
from .style import BAR_HATCHES, COOL, DARK, PALE, STROKES, WARM, Picture, legend_above, png_of, pyplot

ABOUT = """Compares two runs of one capture: which packets arrive in both, in one or in none, how their delays differ, and the
pictures of both side by side.

A and B are folders as `figures` takes them: journal.txt, report.txt, pipes.txt and, where one was given, directory.txt. A run is
repeatable, so a difference between two runs comes of what differs in their inputs, and of nothing else."""
PERCENTILES = (1, 50, 99)


def fates(run: Run) -> numpy.ndarray:
    """left, loss or full for each packet of the table."""
    causes = run.packets["packet"].map(drops(run).set_index("packet")["outcome"]).to_numpy()
    return numpy.where(run.packets["fate"] == LEFT, "left", numpy.where(causes == LOST, "loss", "full"))


def paired(a: Run, b: Run) -> pandas.DataFrame:
    """A row for each packet that is bound in a run: fates (unbound where it isn't bound), delays in ns, and that of B less that
    of A where both arrive.
    """
    sides = [run.packets[["packet", "entry_ns", "delay"]].assign(fate=fates(run)) for run in (a, b)]
    both = sides[0].merge(sides[1], on="packet", how="outer", suffixes=("_a", "_b")).sort_values("packet", ignore_index=True)
    both[["fate_a", "fate_b"]] = both[["fate_a", "fate_b"]].fillna("unbound")
    both["entry_ns"] = both["entry_ns_a"].fillna(both["entry_ns_b"]).astype("int64")
    both[["delay_a", "delay_b"]] = both[["delay_a", "delay_b"]].fillna(0).astype("int64")
    both["difference"] = both["delay_b"] - both["delay_a"]
    return both[["packet", "entry_ns", "fate_a", "fate_b", "delay_a", "delay_b", "difference"]]


def arrive_in(both: pandas.DataFrame) -> dict[str, int]:
    """How many packets arrive in both runs, in one and in none."""
    a, b = both["fate_a"] == "left", both["fate_b"] == "left"
    return {"both": int((a & b).sum()), "a": int((a & ~b).sum()), "b": int((~a & b).sum()), "none": int((~a & ~b).sum())}


def differences(both: pandas.DataFrame) -> pandas.DataFrame:
    """The rows of the packets that arrive in both runs."""
    return both[(both["fate_a"] == "left") & (both["fate_b"] == "left")]


def percentiles(both: pandas.DataFrame) -> Optional[list[float]]:
    """1st, median and 99th of the differences in ms, or none where no packet arrives in both."""
    found = differences(both)["difference"].to_numpy() / 1e6
    return list(numpy.percentile(found, PERCENTILES)) if len(found) else None


def outcome_picture(both: pandas.DataFrame, names: tuple[str, str]) -> Picture:
    counts = arrive_in(both)
    labels = {"both": "in both", "a": f"only in {names[0]}", "b": f"only in {names[1]}", "none": "in none"}
    figure, axes = pyplot.subplots(figsize=(8.6, 2.2))
    for place, (key, colour, hatch) in enumerate(zip(labels, (DARK, WARM, COOL, PALE), BAR_HATCHES)):
        bar = axes.barh(place, counts[key], 0.7, color=colour, hatch=hatch, edgecolor="white")
        axes.bar_label(bar, [f" {counts[key]:,} ({counts[key] / max(len(both), 1):.2%})"])
    axes.set_yticks(range(4), list(labels.values()))
    axes.invert_yaxis()
    axes.margins(x=0.2)
    axes.grid(axis="y", visible=False)
    axes.set_xlabel("packets that arrive")
    return Picture(
        "arrivals.png",
        "Which packets arrive",
        "Of the packets that are bound in a run, how many arrive in both, in one alone and in none.",
        png_of(figure),
    )


def difference_picture(both: pandas.DataFrame, runs: list[Run]) -> Picture:
    found = differences(both)
    values = found["difference"].to_numpy() / 1e6
    figure, (left, right) = pyplot.subplots(1, 2, figsize=(12.4, 3.6))
    if (marks := percentiles(both)) is not None:
        distribution(left, values, "difference", STROKES[0])
        for value, name, (colour, stroke) in zip(
            marks, ("1st percentile", "median", "99th percentile"), (STROKES[2], STROKES[1], STROKES[3])
        ):
            left.axvline(value, color=colour, linestyle=stroke, linewidth=1.8, label=f"{name} {value:.3f} ms")
    right.plot(
        found["entry_ns"] / NS,
        values,
        linestyle="none",
        marker=".",
        markersize=2.5 if len(values) < 20_000 else 1,
        markeredgewidth=0,
        color=DARK,
    )
    right.set_xlim(*whole_time(runs))
    left.set(
        xlabel=f"delay in {runs[1].name} less delay in {runs[0].name} (ms)",
        ylabel="share of packets with at most this",
        ylim=(0, 1.02),
    )
    right.set(xlabel="time at which the packet enters (s)", ylabel="difference (ms)")
    legend_above(left, 2)
    return Picture(
        "difference.png",
        "Difference of the delays",
        f"Of the packets that arrive in both, the delay in {runs[1].name} less that in {runs[0].name}: its distribution, "
        "and packet by packet; "
        f"below 0 a packet is faster in {runs[1].name}.",
        png_of(figure),
    )


def numbers(both: pandas.DataFrame, names: tuple[str, str]) -> str:
    """The table of differences, in HTML."""
    counts, found = arrive_in(both), percentiles(both)
    rows = [
        ["packets that arrive", "in both", f"only in {names[0]}", f"only in {names[1]}", "in none"],
        ["", *(f"{count:,}" for count in counts.values())],
    ]
    text = table(rows)
    if found is not None:
        values = differences(both)["difference"] / 1e6
        rows = [
            ["difference of delays, ms", "least", "1st percentile", "median", "99th percentile", "greatest", "mean"],
            [f"{names[1]} less {names[0]}", *(f"{value:,.3f}" for value in (values.min(), *found, values.max(), values.mean()))],
        ]
        text += table(rows)
    return text


def packets_csv(both: pandas.DataFrame) -> str:
    rows = ["packet,entry_ns,fate_a,fate_b,delay_a_ns,delay_b_ns,difference_ns\n"]
    for packet, entry, fate_a, fate_b, delay_a, delay_b, difference in zip(*(both[name].tolist() for name in both.columns)):
        arrived = fate_a == "left", fate_b == "left"
        rows.append(
            f"{packet},{entry},{fate_a},{fate_b},{delay_a if arrived[0] else ''},{delay_b if arrived[1] else ''},"
            f"{difference if all(arrived) else ''}\n"
        )
    return "".join(rows)


def parser() -> argparse.ArgumentParser:
    made = argparse.ArgumentParser(prog="compare", description=ABOUT, formatter_class=argparse.RawDescriptionHelpFormatter)
    made.add_argument("a", metavar="A", help="the folder of a run")
    made.add_argument("b", metavar="B", help="the folder of another run of the same capture")
    add_run_options(made)
    return made


def run_names(a: str, b: str) -> tuple[str, str]:
    names = Path(a).resolve().name, Path(b).resolve().name
    return names if names[0] != names[1] else ("A", "B")


def load_both(chosen: argparse.Namespace, progress: Progress) -> list[Run]:
    trace = read_trace(chosen.trace, progress)
    names = run_names(chosen.a, chosen.b)
    runs = [load_run(name, RunFiles.in_folder(folder), trace, progress) for name, folder in zip(names, (chosen.a, chosen.b))]
    return [narrow(run, chosen.pair, progress) for run in runs] if chosen.pair else runs


def compare(chosen: argparse.Namespace) -> None:
    progress = Progress("compare")
    runs = load_both(chosen, progress)
    names = runs[0].name, runs[1].name
    both = paired(*runs)
    progress.step(f"drawing {len(both):,} packets of two runs")
    pictures = [outcome_picture(both, names), difference_picture(both, runs), *all_pictures(runs)]
    whose = f"the packets from {chosen.pair[0]} to {chosen.pair[1]}" if chosen.pair else "all packets that are bound in a run"
    introduction = (
        f"Two runs of {Path(chosen.trace).name}; {whose}. Runs are repeatable: what differs comes of the inputs that differ."
    )
    if runs[0].tick_ns != runs[1].tick_ns:
        introduction += " The two runs have ticks of other lengths, which alone makes delays differ by ticks."
    progress.step(f"writing {chosen.to}")
    write_folder(chosen.to, page(f"{names[0]} and {names[1]}", introduction, runs, pictures, numbers(both, names)), pictures)
    Path(chosen.to, "packets.csv").write_text(packets_csv(both))
    counts = arrive_in(both)
    print(
        f"arrive in both {counts['both']}, only in {names[0]} {counts['a']}, only in {names[1]} {counts['b']}, in none {counts['none']}"
    )
    if (found := percentiles(both)) is not None:
        print(
            f"delay in {names[1]} less that in {names[0]}: median {found[1]:.3f} ms, "
            f"1st percentile {found[0]:.3f} ms, 99th percentile {found[2]:.3f} ms"
        )
    progress.step("done")


def main(words: Optional[Sequence[str]] = None) -> int:
    chosen = parser().parse_args(words)
    return run_tool("compare", lambda: compare(chosen))
