"""The tool `partition`: a directory whose cut is made of slow links.

A core may run as far ahead of the others as the fastest pipe lasts whose packets go on at another core. So nodes that fast links
join belong to one core: all links below some latency are contracted, and the pieces that are left are dealt to the cores. The
longest latency is taken for which the pieces can be dealt evenly enough. Pieces are put in a row by the spectral ordering of
NetworkX, with weights that make a fast link dear to cut, and the row is cut into as many parts as there are cores; where that is
too uneven they are dealt one by one, the largest first.

A pipe belongs to the core of the node that it leaves. So a packet changes cores where it has taken a link between two parts, and
nowhere else.
"""
import argparse
import sys
import warnings
from pathlib import Path
from typing import Optional, Sequence

import networkx
import numpy
import pandas
from networkx.utils import UnionFind

from .faults import BadInput, run_tool
from .journal import outcome_counts, read_journal
from .progress import Progress
from .texts import Pipes, read_pipes

ABOUT = """Prints a directory for `--directory`, whose cut is made of slow links, so that the lookahead is long.
What it expects of the lookahead stands on standard error; `rehearse --cluster-report yes` says the same, or more where no packet
takes the fastest of the links that are cut."""
CORES_MAX = 16
NO_LOOKAHEAD = 2**40
Part = list[int]


def work_of(pipes: Pipes, visits: Optional[pandas.DataFrame]) -> numpy.ndarray:
    """What each pipe costs its core: its visits, or the same for all where no journal is given."""
    work = numpy.ones(len(pipes.table))
    if visits is not None:
        counts = outcome_counts(visits).sum(axis=1)
        work = numpy.zeros(len(pipes.table))
        work[counts.index] = counts
    return work


def graph_of(pipes: Pipes, work: numpy.ndarray) -> networkx.Graph:
    """The nodes, with the work of the pipes that leave each, joined by the fastest pipe in either direction."""
    graph = networkx.Graph()
    for row, cost in zip(pipes.table.itertuples(index=False, name=None), work):
        _pipe, start, end, _bps, _us, ticks, *_ = row
        for node in (start, end):
            if node not in graph:
                graph.add_node(node, work=0.0)
        graph.nodes[start]["work"] += cost
        if not graph.has_edge(start, end) or graph.edges[start, end]["ticks"] > ticks:
            graph.add_edge(start, end, ticks=ticks)
    return graph


def pieces_of(graph: networkx.Graph, least: int) -> list[Part]:
    """The nodes in pieces that no link of `least` ticks or more joins, each piece and all of them in the graph's order."""
    found = UnionFind(graph.nodes)
    for one, other, ticks in graph.edges(data="ticks"):
        if ticks < least:
            found.union(one, other)
    pieces: dict[int, Part] = {}
    for node in graph.nodes:
        pieces.setdefault(found[node], []).append(node)
    return list(pieces.values())


def work_in(graph: networkx.Graph, part: Part) -> float:
    return sum(graph.nodes[node]["work"] for node in part)


def contracted(graph: networkx.Graph, pieces: list[Part]) -> networkx.Graph:
    """The pieces as nodes; a link between two weighs the more the faster it is."""
    piece_of = {node: number for number, piece in enumerate(pieces) for node in piece}
    small = networkx.Graph()
    small.add_nodes_from(range(len(pieces)))
    for one, other, ticks in graph.edges(data="ticks"):
        ends = piece_of[one], piece_of[other]
        if ends[0] != ends[1]:
            weight = small.get_edge_data(*ends, {"weight": 0.0})["weight"]
            small.add_edge(*ends, weight=weight + 1.0 / ticks)
    return small


def in_a_row(graph: networkx.Graph, pieces: list[Part], cores: int) -> list[Part]:
    """Near pieces stand near one another in a row, which is cut where the work is shared most evenly."""
    with warnings.catch_warnings():  # NetworkX warns of its own next version
        warnings.simplefilter("ignore", FutureWarning)
        row = (
            networkx.spectral_ordering(contracted(graph, pieces), weight="weight", seed=1)
            if len(pieces) > 2
            else range(len(pieces))
        )
    parts: list[Part] = [[] for _ in range(cores)]
    total = work_in(graph, list(graph.nodes))
    done = 0.0
    for number in row:
        work = work_in(graph, pieces[number])
        middle = (done + work / 2) / total if total else 0.0
        parts[min(cores - 1, int(middle * cores))] += pieces[number]
        done += work
    return parts


def largest_first(graph: networkx.Graph, pieces: list[Part], cores: int) -> list[Part]:
    """Each piece, the largest first, goes to the core with least work."""
    parts: list[Part] = [[] for _ in range(cores)]
    loads = [0.0] * cores
    for piece in sorted(pieces, key=lambda each: -work_in(graph, each)):
        least = loads.index(min(loads))
        parts[least] += piece
        loads[least] += work_in(graph, piece)
    return parts


def most_work(graph: networkx.Graph, parts: list[Part]) -> float:
    return max(work_in(graph, part) for part in parts)


def longest_that_may_fit(graph: networkx.Graph, steps: list[int], allowed: float) -> int:
    """How many of these latencies, from the least, leave no piece with more work than allowed; longer ones make larger pieces."""
    low, high = 0, len(steps)
    while low < high:
        middle = (low + high) // 2
        if most_work(graph, pieces_of(graph, steps[middle])) <= allowed:
            low = middle + 1
        else:
            high = middle
    return low


def split(graph: networkx.Graph, cores: int, uneven: float) -> list[Part]:
    """The parts for the longest latency at which the busiest core has at most `uneven` times its even share."""
    allowed = uneven * work_in(graph, list(graph.nodes)) / cores
    steps = sorted({ticks for _one, _other, ticks in graph.edges(data="ticks")})
    for least in reversed(steps[: longest_that_may_fit(graph, steps, allowed)]):
        pieces = pieces_of(graph, least)
        for parts in (in_a_row(graph, pieces, cores), largest_first(graph, pieces, cores)):
            if most_work(graph, parts) <= allowed:
                return parts
    pieces = [[node] for node in graph.nodes]
    return min((in_a_row(graph, pieces, cores), largest_first(graph, pieces, cores)), key=lambda parts: most_work(graph, parts))


def owners_of(pipes: Pipes, parts: list[Part]) -> list[int]:
    core_of = {node: core for core, part in enumerate(parts) for node in part}
    return [core_of[node] for node in pipes.table["from"]]


def crossed_pipes(pipes: Pipes, owners: Sequence[int]) -> list[int]:
    """The pipes after which a packet may go on at another core. No least route turns back, so the pipe back doesn't count."""
    leaving: dict[int, list[tuple[int, int]]] = {}
    for start, end, owner in zip(pipes.table["from"], pipes.table["to"], owners):
        leaving.setdefault(start, []).append((end, owner))
    rows = zip(pipes.table["pipe"], pipes.table["from"], pipes.table["to"], owners)
    return [
        pipe
        for pipe, start, end, owner in rows
        if any(core != owner and onward != start for onward, core in leaving.get(end, []))
    ]


def lookahead(pipes: Pipes, owners: Sequence[int]) -> tuple[int, Optional[int]]:
    """The lookahead in ticks, and the pipe that sets it; without such a pipe cores never wait for one another."""
    crossed = crossed_pipes(pipes, owners)
    if not crossed:
        return NO_LOOKAHEAD, None
    fastest = min(crossed, key=lambda pipe: (pipes.table["ticks"][pipe], pipe))
    return int(pipes.table["ticks"][fastest]), fastest


def directory_text(owners: Sequence[int], cores: int) -> str:
    return f"modelnet-directory 1 cores {cores} pipes {len(owners)}\n" + "".join(
        f"pipe {pipe} core {core}\n" for pipe, core in enumerate(owners)
    )


def core_count(word: str) -> int:
    if not word.isdigit() or not 1 <= int(word) <= CORES_MAX:
        raise argparse.ArgumentTypeError(f"{word!r} is no number from 1 to {CORES_MAX}")
    return int(word)


def share(word: str) -> float:
    if not word.isdigit() or int(word) < 100:
        raise argparse.ArgumentTypeError(f"{word!r} is no per cent from 100 on")
    return int(word) / 100


def parser() -> argparse.ArgumentParser:
    made = argparse.ArgumentParser(prog="partition", description=ABOUT, formatter_class=argparse.RawDescriptionHelpFormatter)
    made.add_argument("--pipes", required=True, metavar="FILE", help="what `distill` prints")
    made.add_argument("--cores", required=True, type=core_count, metavar="N", help="from 1 to 16")
    made.add_argument(
        "--journal", metavar="FILE", help="a journal over these pipes: then a pipe's work is its visits, and not the same for all"
    )
    made.add_argument(
        "--uneven",
        type=share,
        default=1.25,
        metavar="PERCENT",
        help="the most work of a core, in per cent of an even share (125)",
    )
    made.add_argument("--to", metavar="FILE", help="where the directory goes (standard output)")
    return made


def tell(pipes: Pipes, owners: Sequence[int], work: numpy.ndarray, cores: int) -> None:
    ticks, pipe = lookahead(pipes, owners)
    loads = numpy.bincount(numpy.array(owners, "int64"), weights=work, minlength=cores)
    why = "no packet goes on at another core" if pipe is None else f"{pipes.name(pipe)} is the fastest that leads to another core"
    print(f"partition: lookahead {ticks} ticks: {why}", file=sys.stderr)
    print(
        f"partition: the busiest core has {loads.max() / max(work.sum(), 1):.1%} of the work of {len(owners)} pipes on {cores} cores",
        file=sys.stderr,
    )


def partition(chosen: argparse.Namespace) -> None:
    pipes = read_pipes(chosen.pipes)
    visits = read_journal(chosen.journal, Progress("partition")).visits if chosen.journal else None
    if visits is not None and len(visits) and visits["pipe"].max() >= len(pipes.table):
        row = numpy.argmax(visits["pipe"].to_numpy() >= len(pipes.table))
        raise BadInput(
            chosen.journal, int(row) + 2, f"pipe {visits['pipe'].iloc[row]}, where {pipes.file} has {len(pipes.table)}"
        )
    work = work_of(pipes, visits)
    owners = owners_of(pipes, split(graph_of(pipes, work), chosen.cores, chosen.uneven))
    text = directory_text(owners, chosen.cores)
    tell(pipes, owners, work, chosen.cores)
    if chosen.to:
        Path(chosen.to).write_text(text)
    else:
        sys.stdout.write(text)


def main(words: Optional[Sequence[str]] = None) -> int:
    chosen = parser().parse_args(words)
    return run_tool("partition", lambda: partition(chosen))
