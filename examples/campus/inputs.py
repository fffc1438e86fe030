"""Makes campus.gml, 200 nodes by generators of NetworkX, and day.pcap, packets between its hosts."""
import random

import networkx

from modelnet_tools.capture import write_trace

CORE, DISTRIBUTION, ACCESS, HOSTS = 12, 16, 32, 140
MS = 1_000_000


def address(host: int) -> str:
    return f"10.1.0.{host + 1}"


def topology() -> networkx.Graph:
    """A small world of core routers, over which routers of buildings, switches of floors and hosts hang as a tree; buildings have
    two links upwards.
    """
    draw = random.Random(6)
    graph = networkx.connected_watts_strogatz_graph(CORE, 4, 0.3, seed=6)
    for _one, _other, link in graph.edges(data=True):
        link.update(bandwidth=10_000_000, latency=500 + draw.randrange(2_500), queue=40)
    for building in range(CORE, CORE + DISTRIBUTION):
        for core in draw.sample(range(CORE), 2):
            graph.add_edge(building, core, bandwidth=30_000_000, latency=300 + draw.randrange(300), queue=40)
    for floor in range(CORE + DISTRIBUTION, CORE + DISTRIBUTION + ACCESS):
        graph.add_edge(floor, CORE + floor % DISTRIBUTION, bandwidth=100_000_000, latency=100, queue=40)
    for host in range(HOSTS):
        node = CORE + DISTRIBUTION + ACCESS + host
        graph.add_node(node, address=address(host))
        graph.add_edge(node, CORE + DISTRIBUTION + draw.randrange(ACCESS), bandwidth=100_000_000, latency=50)
    return graph


def trace() -> list[tuple[int, str, str, int]]:
    """Within 300 ms, 3,000 packets in talks of 5 to 25 packets between a host and one of ten busy servers, both ways."""
    draw, packets = random.Random(7), []
    while len(packets) < 3_000:
        client, server = address(draw.randrange(10, HOSTS)), address(draw.randrange(10))
        now = draw.randrange(300 * MS)
        for _ in range(draw.randint(5, 25)):
            ends = (client, server) if draw.random() < 0.5 else (server, client)
            packets.append((now, *ends, draw.choice((100, 1500, 1500))))
            now += draw.randrange(2 * MS)
    return sorted(packets)[:3_000]


networkx.write_gml(topology(), "campus.gml")
write_trace("day.pcap", trace())
