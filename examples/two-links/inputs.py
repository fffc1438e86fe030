"""Makes office.pcap, downloads and a call from a server to two hosts, and the two links that they could go over."""
import random

import networkx

from modelnet_tools.capture import write_trace

SERVER, DESK, PHONE = "10.0.0.1", "10.0.1.1", "10.0.1.2"
MS = 1_000_000
LINKS = {"short": (8_000_000, 5_000), "long": (10_000_000, 20_000)}  # bit/s, us


def downloads(draw: random.Random, end_ns: int) -> list[tuple[int, str, str, int]]:
    """Pages of 20 to 150 packets of 1,500 bytes, sent at some 12 Mbit/s, with pauses of 100 to 400 ms."""
    packets, now = [], 0
    while now < end_ns:
        for _ in range(draw.randint(20, 150)):
            packets.append((now, SERVER, DESK, 1500))
            now += 800_000 + draw.randrange(400_000)
        now += draw.randrange(100 * MS, 400 * MS)
    return packets


def trace() -> list[tuple[int, str, str, int]]:
    """Four seconds: the downloads, and 200 bytes of a call each 20 ms."""
    end_ns = 4_000 * MS
    return sorted(downloads(random.Random(2), end_ns) + [(now, SERVER, PHONE, 200) for now in range(7 * MS, end_ns, 20 * MS)])


def topology(bandwidth: int, latency: int) -> networkx.Graph:
    graph = networkx.Graph()
    for node, address in enumerate((SERVER, DESK, PHONE)):
        graph.add_node(node, address=address)
    graph.add_edge(0, 3, bandwidth=bandwidth, latency=latency, queue=40)
    graph.add_edge(3, 1, bandwidth=100_000_000, latency=100)
    graph.add_edge(3, 2, bandwidth=100_000_000, latency=100)
    return graph


write_trace("office.pcap", trace())
for name, link in LINKS.items():
    networkx.write_gml(topology(*link), f"{name}.gml")
