#!/usr/bin/env python3
"""Emulates a capture of real traffic over a topology that NetworkX writes, and opens what comes of it with tshark.

The topology is a random one of 200 nodes; the hosts of the capture stand at nodes far from one another. The run is repeated in every mode, on 1 to 16
cores and in several orders: the output trace and the report have to be the same bytes for each mode. tshark reads the output, which has to have as
many packets as the report says, in order of time, each with the bytes of a packet of the capture.

usage: bench/real_capture.py [CAPTURE] [SEED]      (MODELNET names another binary than crates/modelnet/out/modelnet; needs networkx and tshark)
"""
import collections
import os
import random
import subprocess
import sys
import tempfile

import networkx

HERE = os.path.dirname(os.path.dirname(os.path.abspath(__file__)))
BINARY = os.environ.get("MODELNET", os.path.join(HERE, "crates/modelnet/out/modelnet"))
NODES = 200


def frames(capture, *fields):
    """The fields of each packet, as tshark prints them."""
    wanted = [word for field in fields for word in ("-e", field)]
    told = subprocess.run(["tshark", "-r", capture, "-T", "fields", *wanted], check=True, capture_output=True, text=True)
    return [line.split("\t") for line in told.stdout.splitlines()]


def raw_bytes(capture):
    """The captured bytes of each packet, in hexadecimal."""
    told = subprocess.run(["tshark", "-r", capture, "-x"], check=True, capture_output=True, text=True)
    packets, now = [], []
    for line in told.stdout.splitlines() + [""]:
        if line and line[4:6] == "  ":
            now.append(line[6:54].replace(" ", ""))
        elif not line and now:
            packets.append("".join(now))
            now = []
    return packets


def write_topology(name, hosts, draw):
    """A connected graph of routers, some of which are the hosts, with the attributes that the reader knows."""
    graph = networkx.connected_watts_strogatz_graph(NODES, 4, 0.2, seed=draw.randrange(2**32))
    for _one, _other, edge in graph.edges(data=True):
        edge["bandwidth"] = draw.choice([2_000_000, 10_000_000, 100_000_000])
        edge["latency"] = draw.randint(200, 5_000)
        edge["queue"] = draw.randint(10, 100)
        edge["loss"] = draw.choice([0, 0, 0, 1_000])
    for host, node in zip(hosts, draw.sample(sorted(graph.nodes), len(hosts))):
        graph.nodes[node]["address"] = host
    networkx.write_gml(graph, name)
    networkx.read_gml(name)


def run(folder, command, *words):
    """One run, and its output trace and report."""
    out, report = os.path.join(folder, "out.pcap"), os.path.join(folder, "report.txt")
    subprocess.run([BINARY, command, *words, "--out", out, "--report", report], check=True)
    with open(out, "rb") as trace, open(report, "rb") as text:
        return trace.read(), text.read().decode()


def commands():
    """How a plan is run: each has to write the same."""
    for cores in (1, 2, 3, 8, 16):
        yield "rehearse", "--cores", str(cores)
    for order in (1, 2, 3):
        yield "rehearse", "--cores", "4", "--order", str(order), "--turns", "500"
    if subprocess.run([BINARY, "emulate"], capture_output=True, check=False).stderr != b"modelnet: no such command\n":
        for cores in (1, 2, 4, 16):
            yield "emulate", "--cores", str(cores)


def main():
    capture = sys.argv[1] if len(sys.argv) > 1 else os.path.join(HERE, "crates/modelnet/data/two_sites.pcap")
    draw = random.Random(int(sys.argv[2]) if len(sys.argv) > 2 else 1)
    addresses = {address for line in frames(capture, "ip.src", "ip.dst") for field in line for address in field.split(",") if address}
    captured = collections.Counter(raw_bytes(capture))
    with tempfile.TemporaryDirectory() as folder:
        topology = os.path.join(folder, "topology.gml")
        write_topology(topology, sorted(addresses), draw)
        for mode in ("hop", "end", "walk:1", "walk:1:1"):
            words = ["--topology", topology, "--trace", capture, "--mode", mode]
            results = {run(folder, command, *words, *more) for command, *more in commands()}
            assert len(results) == 1, f"{mode}: {len(results)} different outcomes"
            report = results.pop()[1]
            counts = dict(zip(report.split()[3:13:2], map(int, report.split()[4:13:2])))
            out = os.path.join(folder, "out.pcap")
            times = [float(line[0]) for line in frames(out, "frame.time_epoch")]
            assert times == sorted(times) and len(times) == counts["left"], f"{mode}: tshark reads {len(times)} packets"
            assert not collections.Counter(raw_bytes(out)) - captured, f"{mode}: bytes that no packet of the capture has"
            print(f"{mode}: {counts}, the same for {len(list(commands()))} runs")


if __name__ == "__main__":
    main()
