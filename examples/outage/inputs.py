"""Makes sensors.pcap, steady traffic of four senders to one server, and sites.gml, two routers and a link of 10 Mbit/s between
them.
"""
import random

import networkx

from modelnet_tools.capture import write_trace

SENDERS = [f"10.0.0.{number}" for number in range(1, 5)]
SERVER = "10.0.1.1"
MS = 1_000_000


def trace() -> list[tuple[int, str, str, int]]:
    """Five seconds; each sender has a packet of 1,000 bytes each 10 ms on average, so all offer 3.2 Mbit/s."""
    draw = random.Random(3)
    packets = []
    for sender in SENDERS:
        now = draw.randrange(10 * MS)
        while now < 5_000 * MS:
            packets.append((now, sender, SERVER, 1000))
            now += draw.randrange(5 * MS, 15 * MS)
    return sorted(packets)


graph = networkx.Graph()
for node, address in enumerate([*SENDERS, SERVER]):
    graph.add_node(node, address=address)
for node in range(len(SENDERS)):
    graph.add_edge(node, 5, bandwidth=100_000_000, latency=200)
graph.add_edge(5, 6, bandwidth=10_000_000, latency=10_000, queue=100)
graph.add_edge(6, 4, bandwidth=100_000_000, latency=200)
networkx.write_gml(graph, "sites.gml")
write_trace("sensors.pcap", trace())
