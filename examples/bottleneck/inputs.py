"""Makes bursts.pcap and the three topologies: a dumbbell whose middle link has a queue of 10, 50 or 200 packets."""
import random

import networkx

from modelnet_tools.capture import write_trace

SENDERS = [f"10.0.0.{number}" for number in range(1, 5)]
RECEIVERS = [f"10.0.1.{number}" for number in range(1, 5)]
US = 1_000
MS = 1_000_000


def bursts(draw: random.Random, source: str, destination: str, end_ns: int) -> list[tuple[int, str, str, int]]:
    """Bursts of 10 to 60 packets of 1,500 bytes, one each 300 us, with pauses of 50 to 250 ms between them."""
    packets, now = [], draw.randrange(200 * MS)
    while now < end_ns:
        for _ in range(draw.randint(10, 60)):
            packets.append((now, source, destination, 1500))
            now += 300 * US + draw.randrange(100 * US)
        now += draw.randrange(50 * MS, 250 * MS)
    return packets


def trace() -> list[tuple[int, str, str, int]]:
    """Three senders of bursts, and one that sends 200 bytes each 20 ms, as a call does."""
    draw, end_ns = random.Random(1), 3_000 * MS
    packets = [(now, SENDERS[3], RECEIVERS[3], 200) for now in range(0, end_ns, 20 * MS)]
    for source, destination in zip(SENDERS[:3], RECEIVERS):
        packets += bursts(draw, source, destination, end_ns)
    return sorted(packets)


def dumbbell(queue: int) -> networkx.Graph:
    graph = networkx.Graph()
    names = dict(enumerate(SENDERS + RECEIVERS))
    for node, address in names.items():
        graph.add_node(node, address=address)
    west, east = len(names), len(names) + 1
    for node in names:
        graph.add_edge(node, west if node < len(SENDERS) else east, bandwidth=100_000_000, latency=500, queue=1000)
    graph.add_edge(west, east, bandwidth=10_000_000, latency=10_000, queue=queue)
    return graph


write_trace("bursts.pcap", trace())
for limit in (10, 50, 200):
    networkx.write_gml(dumbbell(limit), f"queue-{limit}.gml")
