"""The tool `topology`: from any graph that NetworkX reads to a topology that the program reads."""
import argparse
import math
import re
import sys
from collections import Counter
from dataclasses import dataclass
from typing import Iterator, Optional, Sequence

import networkx

from .capture import read_addresses
from .faults import BadInput, run_tool
from .graphs import read_graph
from .progress import Progress

ABOUT = """Writes a topology that `modelnet` reads from any graph that NetworkX reads: GML, GraphML (as the Internet Topology Zoo
has them) or a list of edges.

An edge's latency is its own attribute `latency` (us), or comes from the coordinates of its ends by the speed of light in fibre,
or is assumed. Its bandwidth is its own `bandwidth` (bit/s), or comes from LinkSpeedRaw, from LinkSpeed and LinkSpeedUnits or from
a label such as "10 Gbps" or "OC-48", or is assumed. Nodes that are joined to one other node get addresses, or those that are
named. What was assumed, and for how many edges, is said on standard error."""
LIMITS = {"nodes": 4096, "links": 32768, "edge nodes": 512}
BPS = (1_000, 10**12)
LATENCY_US = (0, 10_000_000)
QUEUE = (1, 1_000)
LOSS = (0, 1_000_000)
EARTH_KM = 6371.0
US_PER_KM = 1.4682 / 0.299792458  # light in fibre, by its index of refraction
UNITS = {"": 1, "K": 10**3, "M": 10**6, "G": 10**9, "T": 10**12}
SPEED = re.compile(r"(\d+(?:\.\d+)?)\s*([KMGT]?)\s*(?:b(?:it)?s?\s*(?:ps|/\s*s(?:ec)?)|bps|bit)", re.IGNORECASE)
CARRIER = re.compile(r"\b(OC|STM|T|E)-?\s?(\d+)\b")
CARRIERS = {
    "OC": {n: n * 51_840_000 for n in (1, 3, 12, 24, 48, 192, 768)},
    "STM": {n: n * 155_520_000 for n in (1, 4, 16, 64, 256)},
    "T": {1: 1_544_000, 3: 44_736_000},
    "E": {1: 2_048_000, 3: 34_368_000},
}
LATITUDES, LONGITUDES = ("Latitude", "latitude", "lat"), ("Longitude", "longitude", "lon", "lng")


@dataclass(frozen=True)
class Assumed:
    """What an edge gets where the graph says nothing."""

    latency_us: int
    bps: int
    queue: int
    ppm: int


def number(value: object) -> Optional[float]:
    """A finite number, also where it stands in a text."""
    try:
        found = float(value)  # type: ignore[arg-type]
    except (TypeError, ValueError):
        return None
    return found if math.isfinite(found) else None


def within(value: Optional[float], limits: tuple[int, int]) -> Optional[int]:
    """The nearest whole number where it is within the limits."""
    return round(value) if value is not None and limits[0] <= round(value) <= limits[1] else None


def place(node: dict) -> Optional[tuple[float, float]]:
    """Latitude and longitude in degrees."""
    found = [
        next((known for name in names if (known := number(node.get(name))) is not None), None)
        for names in (LATITUDES, LONGITUDES)
    ]
    if found[0] is None or found[1] is None or abs(found[0]) > 90 or abs(found[1]) > 360:
        return None
    return found[0], found[1]


def kilometres(one: tuple[float, float], other: tuple[float, float]) -> float:
    """Along a great circle."""
    (lat1, lon1), (lat2, lon2) = (tuple(map(math.radians, each)) for each in (one, other))
    half = math.sin((lat2 - lat1) / 2) ** 2 + math.cos(lat1) * math.cos(lat2) * math.sin((lon2 - lon1) / 2) ** 2
    return 2 * EARTH_KM * math.asin(min(1.0, math.sqrt(half)))


def latency(edge: dict, ends: tuple[dict, dict], assumed: Assumed) -> tuple[int, str]:
    """In us, and where it comes from."""
    if (known := within(number(edge.get("latency")), LATENCY_US)) is not None:
        return known, "the graph's own latency"
    one, other = map(place, ends)
    if one is not None and other is not None:
        return max(1, round(kilometres(one, other) * US_PER_KM)), "coordinates"
    return assumed.latency_us, f"assumed ({assumed.latency_us} us)"


def speed_of(text: str) -> Optional[float]:
    """Bit/s of a label: 10 Gbps, 34 Mbit/s, OC-48, STM-16, T-3, E-1."""
    if match := SPEED.search(text):
        return float(match[1]) * UNITS[match[2].upper()]
    if match := CARRIER.search(text):
        return CARRIERS[match[1]].get(int(match[2]))
    return None


def speed_in_units(edge: dict) -> Optional[float]:
    speed, unit = number(edge.get("LinkSpeed")), str(edge.get("LinkSpeedUnits", "")).upper()[:1]
    return speed * UNITS[unit] if speed is not None and unit in UNITS else None


def bandwidth(edge: dict, label: str, assumed: Assumed) -> tuple[int, str]:
    """In bit/s, and where it comes from."""
    ways = (
        ("the graph's own bandwidth", number(edge.get("bandwidth"))),
        ("LinkSpeedRaw", number(edge.get("LinkSpeedRaw"))),
        ("LinkSpeed", speed_in_units(edge)),
        (label, speed_of(str(edge.get(label, "")))),
    )
    for way, value in ways:
        if (known := within(value, BPS)) is not None:
            return known, way
    return assumed.bps, f"assumed ({assumed.bps} bit/s)"


def names_of(graph: networkx.Graph) -> dict[object, str]:
    """A name for each node: its label where no other has it, and its label and id otherwise."""
    labels = {node: str(data.get("label", node)) for node, data in graph.nodes(data=True)}
    often = Counter(labels.values())
    return {node: label if often[label] == 1 else f"{label} ({node})" for node, label in labels.items()}


def edge_nodes(file: str, graph: networkx.Graph, wanted: Sequence[str]) -> list[object]:
    """Those that are named, by label or id, or else all that are joined to one other node, in the graph's order."""
    if not wanted:
        found = [node for node in graph.nodes if len(set(networkx.all_neighbors(graph, node)) - {node}) == 1]
        if not found:
            raise BadInput(
                file,
                None,
                "no node that is joined to one other node only: name the edge nodes by --edge-node, or --edge-node all",
            )
        return found
    if list(wanted) == ["all"]:
        return list(graph.nodes)
    named: set[object] = set()
    for word in wanted:
        these = {node for node, data in graph.nodes(data=True) if word in (str(data.get("label")), str(node))}
        if not these:
            raise BadInput(file, None, f"no node named {word!r}")
        named |= these
    return [node for node in graph.nodes if node in named]


def fresh_addresses() -> Iterator[str]:
    for high in range(256):
        for low in range(1, 255):
            yield f"10.0.{high}.{low}"


def captured_addresses(file: str) -> list[tuple[str, int]]:
    """The addresses of a capture and in how many packets each stands, the busiest first."""
    sources, destinations = read_addresses(file, Progress("topology"))
    counts = Counter(address for side in (sources, destinations) for address in side if address)
    if not counts:
        raise BadInput(file, None, "no IPv4 address in it")
    return sorted(counts.items(), key=lambda each: (-each[1], each[0]))


def mapped(nodes: list[object], capture: Optional[str], told: list[str]) -> dict[object, str]:
    """An address for each edge node: those of a capture, the busiest for the first nodes, or fresh ones."""
    if capture is None:
        return dict(zip(nodes, fresh_addresses()))
    found = captured_addresses(capture)
    over = found[len(nodes) :]
    told.append(f"{min(len(found), len(nodes))} addresses of {capture} on {len(nodes)} edge nodes")
    if over:
        told.append(
            f"{len(over)} addresses have no node, {sum(count for _address, count in over)} "
            f"of {sum(count for _address, count in found)} places in packets"
        )
    return dict(zip(nodes, (address for address, _count in found)))


def converted(
    graph: networkx.Graph, addresses: dict[object, str], label: str, assumed: Assumed, told: list[str]
) -> networkx.Graph:
    """The graph with what the program reads, and nothing else."""
    made = (networkx.MultiDiGraph if graph.is_directed() else networkx.MultiGraph)()
    names = names_of(graph)
    for node in graph.nodes:
        made.add_node(names[node], **({"address": addresses[node]} if node in addresses else {}))
    ways: dict[str, Counter[str]] = {"latency": Counter(), "bandwidth": Counter()}
    for one, other, edge in graph.edges(data=True):
        if one == other:
            continue
        us, why = latency(edge, (graph.nodes[one], graph.nodes[other]), assumed)
        ways["latency"][why] += 1
        bps, why = bandwidth(edge, label, assumed)
        ways["bandwidth"][why] += 1
        queue = within(number(edge.get("queue")), QUEUE) or assumed.queue
        ppm = within(number(edge.get("loss")), LOSS)
        made.add_edge(names[one], names[other], bandwidth=bps, latency=us, queue=queue, loss=assumed.ppm if ppm is None else ppm)
    for what, counts in ways.items():
        told += [f"{what} of {count} edges: {way}" for way, count in counts.items()]
    return made


def check_limits(file: str, graph: networkx.Graph, edge_count: int) -> None:
    links = graph.number_of_edges() * (1 if graph.is_directed() else 2)
    for what, count in (("nodes", graph.number_of_nodes()), ("links", links), ("edge nodes", edge_count)):
        if count > LIMITS[what]:
            raise BadInput(file, None, f"{count} {what}, and the program reads at most {LIMITS[what]}")


def ranged(limits: tuple[int, int]):
    def read(word: str) -> int:
        if not word.isdigit() or not limits[0] <= int(word) <= limits[1]:
            raise argparse.ArgumentTypeError(f"{word!r} is no whole number from {limits[0]} to {limits[1]}")
        return int(word)

    return read


def parser() -> argparse.ArgumentParser:
    made = argparse.ArgumentParser(prog="topology", description=ABOUT, formatter_class=argparse.RawDescriptionHelpFormatter)
    made.add_argument("graph", metavar="GRAPH")
    made.add_argument("--to", required=True, metavar="FILE", help="where the topology goes")
    made.add_argument("--form", choices=("gml", "graphml", "edges"), help="of GRAPH, where its name doesn't say")
    made.add_argument(
        "--columns",
        default="",
        metavar="NAME,..",
        help="what the numbers after the two names of an edge are, as latency,bandwidth",
    )
    made.add_argument(
        "--edge-node",
        action="append",
        default=[],
        metavar="NAME",
        help="a node that gets an address, by label or id; may be repeated; or all",
    )
    made.add_argument("--map", metavar="CAPTURE", help="the edge nodes get the addresses of this capture, the busiest first")
    made.add_argument(
        "--label", default="LinkLabel", metavar="KEY", help="the edges' attribute with a speed in words (LinkLabel)"
    )
    made.add_argument("--latency", type=ranged(LATENCY_US), default=1_000, metavar="US", help="where an edge has none (1000)")
    made.add_argument(
        "--bandwidth", type=ranged(BPS), default=100_000_000, metavar="BPS", help="where an edge has none (100000000)"
    )
    made.add_argument("--queue", type=ranged(QUEUE), default=50, metavar="PACKETS", help="where an edge has none (50)")
    made.add_argument("--loss", type=ranged(LOSS), default=0, metavar="PPM", help="where an edge has none (0)")
    return made


def topology(chosen: argparse.Namespace) -> None:
    graph = read_graph(chosen.graph, chosen.form, [name for name in chosen.columns.split(",") if name])
    nodes = edge_nodes(chosen.graph, graph, chosen.edge_node)
    told: list[str] = []
    addresses = mapped(nodes, chosen.map, told)
    check_limits(chosen.graph, graph, len(addresses))
    assumed = Assumed(chosen.latency, chosen.bandwidth, chosen.queue, chosen.loss)
    made = converted(graph, addresses, chosen.label, assumed, told)
    dropped = graph.number_of_edges() - made.number_of_edges()
    told.insert(0, f"{made.number_of_nodes()} nodes, {made.number_of_edges()} edges, {len(addresses)} nodes with addresses")
    told += [f"{dropped} edges from a node to itself are left out"] if dropped else []
    networkx.write_gml(made, chosen.to)
    for line in told:
        print(f"topology: {line}", file=sys.stderr)


def main(words: Optional[Sequence[str]] = None) -> int:
    chosen = parser().parse_args(words)
    return run_tool("topology", lambda: topology(chosen))
