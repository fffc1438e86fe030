"""Makes bursts.pcap, and a topology for each point of the grid in out/grid."""
import random
from pathlib import Path

import networkx
from grid import MBITS, QUEUES, name

from modelnet_tools.capture import write_trace

SENDER, RECEIVER = "10.0.0.1", "10.0.1.1"
MS = 1_000_000


def trace() -> list[tuple[int, str, str, int]]:
    """Two seconds of bursts of 20 to 100 packets of 1,500 bytes, sent at some 40 Mbit/s, with pauses of 50 to 150 ms."""
    draw, packets, now = random.Random(8), [], 0
    while now < 2_000 * MS:
        for _ in range(draw.randint(20, 100)):
            packets.append((now, SENDER, RECEIVER, 1500))
            now += draw.randrange(200_000, 400_000)
        now += draw.randrange(50 * MS, 150 * MS)
    return packets


def topology(mbits: int, queue: int) -> networkx.Graph:
    graph = networkx.Graph()
    graph.add_node(0, address=SENDER)
    graph.add_node(1, address=RECEIVER)
    graph.add_edge(0, 1, bandwidth=mbits * 1_000_000, latency=10_000, queue=queue)
    return graph


write_trace("bursts.pcap", trace())
Path("out/grid").mkdir(parents=True, exist_ok=True)
for rate in MBITS:
    for limit in QUEUES:
        networkx.write_gml(topology(rate, limit), f"out/grid/{name(rate, limit)}.gml")
