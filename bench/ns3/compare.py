#!/usr/bin/env python3
"""Beside ns-3: several senders over shared bottlenecks, hop by hop, with the routes set by hand in ns-3.

A dumbbell of dumbbells: 24 hosts that send and receive at six routers, links that are shared by many routes, no loss. `emulate` runs the capture on one
core and on four; so does ns-3 over the pipes that `distill` prints, with our rounding of times and as it is. With our rounding each packet has to have
the same fate at the same ns; as it is, the differences are printed.

usage: bench/ns3/compare.py [PACKETS] [RUNS] [TICK_NS]      20,000 packets, 3 runs, ticks of 100,000 ns

MODELNET names another binary than crates/modelnet/out/modelnet. Needs g++, libns3-dev, networkx and GNU time.

Of RUNS the least seconds and the greatest memory count. Those of a program have its reading and writing in them; ns-3's events alone are told, too.
"""
import os
import random
import struct
import subprocess
import sys
import tempfile

import networkx

HERE = os.path.dirname(os.path.abspath(__file__))
ROOT = os.path.dirname(os.path.dirname(HERE))
BINARY = os.environ.get("MODELNET", os.path.join(ROOT, "crates/modelnet/out/modelnet"))
ROUTERS, HOSTS = 6, 24
TICK_NS = int(sys.argv[3]) if len(sys.argv) > 3 else 100_000
LIBRARIES = ["core", "network", "point-to-point"]


def address(host):
    return bytes([10, 0, 0, host + 1])


def write_topology(name, draw):
    """Six routers in a row with two chords, four hosts at each; bottlenecks of 20 to 50 Mbit/s and short queues."""
    edges = [(router, router + 1, draw.choice([20_000_000, 50_000_000])) for router in range(ROUTERS - 1)] + [(0, 3, 20_000_000), (2, 5, 20_000_000)]
    edges += [(ROUTERS + host, host % ROUTERS, 100_000_000) for host in range(HOSTS)]
    with open(name, "w", encoding="ascii") as out:
        out.write("graph [\n")
        out.writelines(f"  node [ id {router} ]\n" for router in range(ROUTERS))
        out.writelines(f'  node [ id {ROUTERS + host} address "{".".join(map(str, address(host)))}" ]\n' for host in range(HOSTS))
        for source, target, bandwidth in edges:
            out.write(f"  edge [ source {source} target {target} bandwidth {bandwidth} latency {draw.randint(500, 9_000)} queue {draw.choice([5, 20, 50])} ]\n")
        out.write("]\n")


def pipes_of(topology):
    """The pipes that `distill` prints: number, ends, and what ns-3 wants of them."""
    words = ["--topology", topology, "--tick-ns", str(TICK_NS)]
    printed = subprocess.run([BINARY, "distill", *words], check=True, capture_output=True, text=True).stdout
    for line in printed.splitlines()[2:]:
        words = line.split()
        yield int(words[1]), int(words[3]), int(words[5]), (int(words[7]), int(words[9]) * 1000, int(words[11]), int(words[13]))


def sent_packets(packets, draw):
    """Time, length, source and target of each packet: half of them from the first router's hosts to the last one's."""
    time_ns = 0
    for _packet in range(packets):
        source, target = draw.sample(range(HOSTS), 2)
        if draw.randrange(2):
            source, target = draw.randrange(4) * ROUTERS, draw.randrange(4) * ROUTERS + ROUTERS - 1
        yield time_ns, draw.randint(60, 1500), source, target
        time_ns += draw.randint(0, 300_000)


def write_capture(name, sent):
    with open(name, "wb") as out:
        out.write(struct.pack("<IHHIIII", 0xA1B23C4D, 2, 4, 0, 0, 262144, 101))
        for number, (time_ns, length, source, target) in enumerate(sent):
            header = struct.pack(">BBHIBBH", 0x45, 0, length, number, 64, 17, 0) + address(source) + address(target)
            out.write(struct.pack("<IIII", time_ns // 10**9, time_ns % 10**9, len(header), length) + header)


def measured(runs, name, words):
    """Runs a command some times and prints what it took; gives back what each run printed."""
    taken, printed = [], []
    for _run in range(runs):
        with tempfile.NamedTemporaryFile("r") as took:
            command = ["/usr/bin/env", "time", "-f", "%e %U %S %M", "-o", took.name, *words]
            printed.append(subprocess.run(command, check=True, stdout=subprocess.PIPE, text=True).stdout)
            taken.append([float(word) for word in took.read().split()])
    wall = min(each[0] for each in taken)
    processor = min(each[1] + each[2] for each in taken)
    memory = max(each[3] for each in taken)
    print(f"{name}: {wall:.2f} seconds, {processor:.2f} of a processor, {memory / 1024:.0f} MiB", flush=True)
    return printed


def our_fates(file, packets, cores, runs):
    """The fate of each packet as `emulate` writes it; a packet's number stands in its bytes."""
    fates = [None] * packets
    words = [word for role in ("topology", "trace", "out", "report") for word in (f"--{role}", file[role])]
    measured(runs, f"emulate --cores {cores}", [BINARY, "emulate", *words, "--tick-ns", str(TICK_NS), "--cores", str(cores)])
    with open(file["out"], "rb") as out:
        text = out.read()
    for place in range(24, len(text), 36):
        second, fraction, _captured, _length = struct.unpack_from("<IIII", text, place)
        number, = struct.unpack_from(">I", text, place + 20)
        fates[number] = f"left {second * 10**9 + fraction}"
    with open(file["report"], encoding="ascii") as report:
        for line in report:
            words = line.split()
            if words[0] == "drop":
                fates[int(words[1])] = f"dropped {words[3]} {int(words[5]) * TICK_NS}"
    return fates


def ns3_fates(file, program, name, tick_ns, runs):
    printed = measured(runs, name, [program, file["pipes"], file["sent"], file["fates"], str(tick_ns)])
    print(f"{name}, events alone: {min(map(float, printed)):.2f} seconds", flush=True)
    with open(file["fates"], encoding="ascii") as fates:
        return fates.read().splitlines()


def compile_driver(folder):
    program = os.path.join(folder, "driver")
    libraries = [f"-lns3-{name}" for name in LIBRARIES]
    subprocess.run(["g++", "-O2", "-std=c++17", "-o", program, os.path.join(HERE, "topology.cc"), *libraries], check=True)
    return program


def write_for_ns3(file, sent):
    """The pipes, and each packet with its route: the walk of least latency, which no tie leaves open here."""
    graph, pipes = networkx.DiGraph(), list(pipes_of(file["topology"]))
    for number, source, target, params in pipes:
        graph.add_edge(source, target, pipe=number, latency=params[1])
    with open(file["pipes"], "w", encoding="ascii") as out:
        out.writelines(" ".join(map(str, params)) + "\n" for _number, _source, _target, params in pipes)
    walks = {}
    with open(file["sent"], "w", encoding="ascii") as out:
        for time_ns, length, source, target in sent:
            if (source, target) not in walks:
                walk = networkx.shortest_path(graph, ROUTERS + source, ROUTERS + target, weight="latency")
                walks[source, target] = " ".join(str(graph.edges[end]["pipe"]) for end in zip(walk, walk[1:]))
            out.write(f"{time_ns} {length} {walks[source, target]}\n")


def print_differences(ours, plain):
    """How far ns-3 is from us where no rounding of ours was put into it."""
    pairs = [(a.split(), b.split()) for a, b in zip(ours, plain)]
    here = sum(a[0] == "dropped" and b[0] == "left" for a, b in pairs)
    there = sum(a[0] == "left" and b[0] == "dropped" for a, b in pairs)
    elsewhere = sum(a[0] == b[0] == "dropped" and a[1] != b[1] for a, b in pairs)
    differences = sorted(int(a[1]) - int(b[1]) for a, b in pairs if a[0] == b[0] == "left")
    middle, most = differences[len(differences) // 2], max(abs(differences[0]), abs(differences[-1]))
    print(f"ns-3 as it is: {here} packets are dropped here alone, {there} there alone, {elsewhere} at another pipe")
    print(f"those that leave both: {middle} ns apart in the median, {most} ns at most")


def main():
    packets = int(sys.argv[1]) if len(sys.argv) > 1 else 20_000
    runs = int(sys.argv[2]) if len(sys.argv) > 2 else 3
    draw = random.Random(3)
    with tempfile.TemporaryDirectory() as folder:
        file = {name: os.path.join(folder, name) for name in ("topology", "trace", "out", "report", "pipes", "sent", "fates")}
        write_topology(file["topology"], draw)
        sent = list(sent_packets(packets, draw))
        write_capture(file["trace"], sent)
        write_for_ns3(file, sent)
        program = compile_driver(folder)
        rounded = ns3_fates(file, program, "ns-3 with our rounding", TICK_NS, runs)
        assert len(rounded) == packets
        for cores in 1, 4:
            ours = our_fates(file, packets, cores, runs)
            wrong = [number for number in range(packets) if ours[number] != rounded[number]]
            assert not wrong, (cores, len(wrong), wrong[0], ours[wrong[0]], rounded[wrong[0]])
        left = sum(fate.startswith("left") for fate in ours)
        print(f"{packets} packets, {left} left, {packets - left} dropped: each fate and time as ns-3's with our rounding")
        print_differences(ours, ns3_fates(file, program, "ns-3 as it is", 0, runs))


if __name__ == "__main__":
    main()
