"""Makes sites.gml, eight sites in a ring with fast links within and slow ones between them, and calls.pcap, packets between hosts
of all sites.

usage: inputs.py [PACKETS FILE]      another number of packets at the same rate, into another file, for measure.sh
"""
import random
import sys

import networkx

from modelnet_tools.capture import write_trace

SITES = 8
ROUTERS = 4
HOSTS = 6
GAP_NS = 50_000


def address(site: int, host: int) -> str:
    return f"10.0.{site}.{host + 1}"


def topology(draw: random.Random) -> networkx.Graph:
    """Hosts stand first, one of each site in turn, as an inventory by host number would have them: neighbours in the file are far
    apart.
    """
    graph = networkx.Graph()
    hosts = [(site, host) for host in range(HOSTS) for site in range(SITES)]
    node_of = {name: number for number, name in enumerate(hosts)}
    routers = {(site, router): len(hosts) + site * ROUTERS + router for site in range(SITES) for router in range(ROUTERS)}
    for (site, host), node in node_of.items():
        graph.add_node(node, address=address(site, host))
    for (site, host), node in node_of.items():
        graph.add_edge(node, routers[site, host % ROUTERS], bandwidth=100_000_000, latency=50 + draw.randrange(100))
    for site in range(SITES):
        for router in range(ROUTERS):
            graph.add_edge(
                routers[site, router],
                routers[site, (router + 1) % ROUTERS],
                bandwidth=1_000_000_000,
                latency=100 + draw.randrange(200),
            )
        for further in (1, 3):
            graph.add_edge(
                routers[site, 0],
                routers[(site + further) % SITES, further % ROUTERS],
                bandwidth=100_000_000,
                latency=4_000 + draw.randrange(8_000),
            )
    return graph


def packets(draw: random.Random, count: int) -> list[tuple[int, str, str, int]]:
    """A packet each 50 us on average, between two hosts drawn from all."""
    hosts = [address(site, host) for site in range(SITES) for host in range(HOSTS)]
    times = sorted(draw.randrange(count * GAP_NS) for _ in range(count))
    return [(time_ns, *draw.sample(hosts, 2), draw.choice((100, 576, 1500))) for time_ns in times]


if len(sys.argv) > 1:
    write_trace(sys.argv[2], packets(random.Random(5), int(sys.argv[1])))
else:
    networkx.write_gml(topology(random.Random(4)), "sites.gml")
    write_trace("calls.pcap", packets(random.Random(5), 2_000))
