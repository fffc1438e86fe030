"""The tool `figures`: a page of pictures for one run."""
import argparse
import re
from pathlib import Path
from typing import Optional, Sequence

from .capture import read_trace
from .faults import run_tool
from .journal import LOST
from .page import page, write_folder
from .pictures import all_pictures
from .progress import Progress
from .run import LEFT, PARTS, Run, RunFiles, load_run, narrow
from .series import drops

ABOUT = """Makes a page of pictures (index.html) and a table of packets (packets.csv) of one run: delay and what it is made of,
throughput, queues and drops.

RUN is a folder with what the program wrote for one topology, trace and options: journal.txt (`modelnet journal --out`),
report.txt (`rehearse --report`), pipes.txt (what `distill` prints) and, where one was given, directory.txt. Files with other
names are given by options."""


def address(word: str) -> str:
    if not re.fullmatch(r"\d{1,3}(\.\d{1,3}){3}", word):
        raise argparse.ArgumentTypeError(f"{word!r} is no IPv4 address")
    return ".".join(str(int(part)) for part in word.split("."))


def address_pair(word: str) -> tuple[str, str]:
    source, _, destination = word.partition(",")
    return address(source), address(destination)


def add_run_options(parser: argparse.ArgumentParser) -> None:
    parser.add_argument("--trace", required=True, metavar="FILE", help="the capture that was replayed")
    parser.add_argument("--to", required=True, metavar="FOLDER", help="where the page goes; it is made where it isn't there")
    parser.add_argument("--pair", type=address_pair, metavar="SRC,DST", help="only the packets from one address to another")


def parser() -> argparse.ArgumentParser:
    made = argparse.ArgumentParser(prog="figures", description=ABOUT, formatter_class=argparse.RawDescriptionHelpFormatter)
    made.add_argument("run", metavar="RUN", nargs="?", default=".", help="a run's folder (this folder)")
    add_run_options(made)
    for name in ("journal", "report", "pipes", "directory"):
        made.add_argument(f"--{name}", metavar="FILE", help=f"in place of RUN/{name}.txt")
    return made


def files_of(chosen: argparse.Namespace) -> RunFiles:
    usual = RunFiles.in_folder(chosen.run)
    return RunFiles(
        chosen.journal or usual.journal,
        chosen.report or usual.report,
        chosen.pipes or usual.pipes,
        chosen.directory or usual.directory,
    )


def packets_csv(run: Run) -> str:
    """A row for each bound packet: when it enters, what becomes of it, and in ns its delay and the delay's parts where it
    arrives.
    """
    names = ["packet", "entry_ns", "length", "fate", "delay", *PARTS]
    causes = dict(zip(*(drops(run)[name].tolist() for name in ("packet", "outcome"))))
    rows = []
    for packet, entry, length, fate, *parts in zip(*(run.packets[name].tolist() for name in names)):
        known = (
            f"left,{parts[0]},{parts[1]},{parts[2]},{parts[3]},{parts[4]}"
            if fate == LEFT
            else f"{'loss' if causes[packet] == LOST else 'full'},,,,,"
        )
        rows.append(f"{packet},{entry},{length},{known}\n")
    return ",".join([*names[:4], *(f"{part}_ns" for part in names[4:])]) + "\n" + "".join(rows)


def draw(chosen: argparse.Namespace) -> None:
    progress = Progress("figures")
    trace = read_trace(chosen.trace, progress)
    run = load_run(Path(chosen.run).resolve().name, files_of(chosen), trace, progress)
    whose = "all bound packets"
    if chosen.pair:
        run = narrow(run, chosen.pair, progress)
        whose = f"the packets from {chosen.pair[0]} to {chosen.pair[1]}"
    progress.step(f"drawing {len(run.packets):,} packets and {len(run.visits):,} visits")
    pictures = all_pictures([run])
    text = page(
        f"{run.name}: {Path(trace.file).name} after another network",
        f"What became of {whose}. Times are virtual, from the first packet.",
        [run],
        pictures,
    )
    progress.step(f"writing {chosen.to}")
    rows = packets_csv(run)
    write_folder(chosen.to, text, pictures)
    Path(chosen.to, "packets.csv").write_text(rows)
    progress.step("done")


def main(words: Optional[Sequence[str]] = None) -> int:
    chosen = parser().parse_args(words)
    return run_tool("figures", lambda: draw(chosen))
