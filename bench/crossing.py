#!/usr/bin/env python3
"""How much faster an emulation gets on threads: visits a second on 1, 2 and 4 cores, by how much traffic crosses and how long the lookahead is.

Four sites of 50 hosts each, every two of them joined by a link. 0, 25 and 100 % of the packets go to another site, over a link whose latency is 1, 10 or
100 ticks; all other links have 5 ms. The directory gives each site to one core, so that the lookahead is the latency between sites. Ticks have
100,000 ns, and a million packets take 10 seconds of the trace: ten packets enter in each tick. All runs of a trace have to write the same bytes.

usage: bench/crossing.py [PACKETS] [RUNS]      (MODELNET names another binary than crates/modelnet/out/modelnet)

The least time of RUNS (2) counts. It has reading, planning and writing in it, which `rehearse` on one core of an empty plan can't be free of either;
the column `plan` is the time of a run in which each packet has no more than its own address (no visits), to be taken off.
"""
import os
import random
import struct
import subprocess
import sys
import tempfile
import time

HERE = os.path.dirname(os.path.dirname(os.path.abspath(__file__)))
BINARY = os.environ.get("MODELNET", os.path.join(HERE, "crates/modelnet/out/modelnet"))
SITES, HOSTS = 4, 50
TICK_US = 100
HOST_LATENCY_US = 5_000


def address(site, host):
    return bytes([10, site, 0, host + 1])


def write_topology(name, crossing_us):
    """A router for each site, every two joined by a slow link; the hosts of a site at its router."""
    with open(name, "w", encoding="ascii") as out:
        out.write("graph [\n")
        for site in range(SITES):
            out.write(f"  node [ id {site} ]\n")
        for site in range(SITES):
            for host in range(HOSTS):
                out.write(f'  node [ id {SITES + site * HOSTS + host} address "{".".join(map(str, address(site, host)))}" ]\n')
        for site in range(SITES):
            for other in range(site + 1, SITES):
                out.write(f"  edge [ source {site} target {other} bandwidth 10000000000 latency {crossing_us} queue 1000 ]\n")
        for site in range(SITES):
            for host in range(HOSTS):
                out.write(f"  edge [ source {SITES + site * HOSTS + host} target {site} bandwidth 1000000000 latency {HOST_LATENCY_US} queue 1000 ]\n")
        out.write("]\n")


def write_capture(name, packets, crossing, draw):
    """Packets of 60 to 1,500 bytes, 10 us apart on average; `crossing` of a hundred go to another site. A crossing of None: to oneself."""
    time_ns = 0
    with open(name, "wb") as out:
        out.write(struct.pack("<IHHIIII", 0xA1B23C4D, 2, 4, 0, 0, 262144, 101))
        for _packet in range(packets):
            source = draw.randrange(SITES), draw.randrange(HOSTS)
            target = source
            while target == source and crossing is not None:
                site = draw.choice([s for s in range(SITES) if s != source[0]]) if draw.randrange(100) < crossing else source[0]
                target = site, draw.randrange(HOSTS)
            length = draw.randint(60, 1500)
            header = struct.pack(">BBHIBBH", 0x45, 0, length, 0, 64, 17, 0) + address(*source) + address(*target)
            out.write(struct.pack("<IIII", time_ns // 10**9, time_ns % 10**9, len(header), length) + header)
            time_ns += draw.randint(0, 20_000)


def write_directory(name, topology, cores):
    """Each site's pipes at one core: those that leave its router or its hosts."""
    printed = subprocess.run([BINARY, "distill", "--topology", topology], check=True, capture_output=True, text=True).stdout
    pipes = [line.split() for line in printed.splitlines()[2:]]
    with open(name, "w", encoding="ascii") as out:
        out.write(f"modelnet-directory 1 cores {cores} pipes {len(pipes)}\n")
        for pipe in pipes:
            node = int(pipe[3])
            site = node if node < SITES else (node - SITES) // HOSTS
            out.write(f"pipe {pipe[1]} core {site % cores}\n")


def timed(words, runs):
    """The least seconds of some runs."""
    least = None
    for _run in range(runs):
        start = time.perf_counter()
        subprocess.run([BINARY, *words], check=True, stdout=subprocess.DEVNULL)
        seconds = time.perf_counter() - start
        least = seconds if least is None else min(least, seconds)
    return least


def content(name):
    with open(name, "rb") as file:
        return file.read()


def measure(file, crossing, lookahead, packets, runs):
    """The times of one traffic with one lookahead on 1, 2 and 4 cores."""
    write_topology(file["topology"], lookahead * TICK_US)
    write_capture(file["trace"], packets, crossing, random.Random(5))
    words = ["emulate", "--topology", file["topology"], "--trace", file["trace"], "--out", file["out"], "--report", file["report"]]
    written, times = set(), []
    for cores in (1, 2, 4):
        write_directory(file["directory"], file["topology"], cores)
        more = ["--cores", str(cores), "--directory", file["directory"]]
        times.append(timed(words + more, runs))
        written.add((content(file["out"]), content(file["report"])))
    assert len(written) == 1, "the outputs depend on the cores"
    told = subprocess.run([BINARY, *words, *more, "--cluster-report", "yes"], check=True, capture_output=True, text=True).stdout.splitlines()
    visits = sum(int(line.split()[7]) for line in told[2:])
    return times, visits, told[1]


def main():
    packets = int(sys.argv[1]) if len(sys.argv) > 1 else 1_000_000
    runs = int(sys.argv[2]) if len(sys.argv) > 2 else 2
    with tempfile.TemporaryDirectory() as folder:
        file = {name: os.path.join(folder, name) for name in ("topology", "trace", "directory", "out", "report")}
        times, _visits, _told = measure(file, None, 10, packets, runs)
        print(f"plan, reading and writing alone: {times[0]:.2f} s")
        for crossing in (0, 25, 100):
            for lookahead in (1, 10, 100):
                times, visits, told = measure(file, crossing, lookahead, packets, runs)
                rates = ", ".join(f"{cores} cores {seconds:.2f} s ({int(visits / seconds)} visits a second)" for cores, seconds in zip((1, 2, 4), times))
                print(f"{crossing} % cross, latency between sites {lookahead} ticks: {rates}; {told}", flush=True)


if __name__ == "__main__":
    main()
