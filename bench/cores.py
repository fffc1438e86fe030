#!/usr/bin/env python3
"""What an emulation over a topology takes on 1, 4 and 16 cores, beside a chain of as many visits: visits a second and peak memory.

A topology of 500 nodes, 200 of them hosts, and a capture of a million packets between them, or as many as the argument says. `rehearse` runs all cores
on one thread, so what more cores cost there is windows, parcels and boxes. `emulate`, where the program has it, runs each on a thread of its own.
All runs have to write the same bytes. `chain` runs the same capture through pipes in a row that are visited about as often.

usage: bench/cores.py [PACKETS] [LATENCY_US]      (MODELNET names another binary than crates/modelnet/out/modelnet)

Links have 5,000 us, or LATENCY_US: the lookahead is as many ticks. The least time of three runs counts.
"""
import os
import random
import struct
import subprocess
import sys
import tempfile

HERE = os.path.dirname(os.path.dirname(os.path.abspath(__file__)))
BINARY = os.environ.get("MODELNET", os.path.join(HERE, "crates/modelnet/out/modelnet"))
ROUTERS, HOSTS = 300, 200
RUNS = 3


def address(host):
    return bytes([10, 0, host // 250, host % 250 + 1])


def write_topology(name, latency_us, draw):
    """A ring of routers with chords, and a host at each of some routers."""
    with open(name, "w", encoding="ascii") as out:
        out.write("graph [\n")
        for router in range(ROUTERS):
            out.write(f"  node [ id {router} ]\n")
        for host in range(HOSTS):
            out.write(f'  node [ id {ROUTERS + host} address "{".".join(map(str, address(host)))}" ]\n')
        for router in range(ROUTERS):
            ends = {(router + 1) % ROUTERS} | ({draw.randrange(ROUTERS)} - {router})
            for other in sorted(ends):
                out.write(f"  edge [ source {router} target {other} bandwidth 1000000000 latency {latency_us} queue 200 loss 100 ]\n")
        for host in range(HOSTS):
            router = draw.randrange(ROUTERS)
            out.write(f"  edge [ source {ROUTERS + host} target {router} bandwidth 1000000000 latency {latency_us} ]\n")
        out.write("]\n")


def write_capture(name, packets, draw):
    """Packets of 60 to 1,500 bytes between hosts, 2 us apart on average; 20 bytes of each are captured."""
    time_ns = 0
    with open(name, "wb") as out:
        out.write(struct.pack("<IHHIIII", 0xA1B23C4D, 2, 4, 0, 0, 262144, 101))
        for _packet in range(packets):
            source, destination = draw.sample(range(HOSTS), 2)
            length = draw.randint(60, 1500)
            header = struct.pack(">BBHIBBH", 0x45, 0, length, 0, 64, 17, 0) + address(source) + address(destination)
            out.write(struct.pack("<IIII", time_ns // 10**9, time_ns % 10**9, len(header), length) + header)
            time_ns += draw.randint(0, 4_000)


def timed(words):
    """The least seconds and the greatest memory, in KiB, of some runs."""
    told = []
    for _run in range(RUNS):
        done = subprocess.run(["/usr/bin/time", "-f", "%e %M", BINARY, *words], check=True, capture_output=True, text=True)
        told.append(tuple(float(word) for word in done.stderr.split()[-2:]))
    return min(seconds for seconds, _memory in told), max(memory for _seconds, memory in told)


def visits_of(report):
    """All visits that a report counts."""
    with open(report, encoding="ascii") as text:
        lines = [line.split() for line in text if line.startswith("pipe ")]
    return sum(int(line[3]) + int(line[5]) + int(line[7]) for line in lines)


def main():
    packets = int(sys.argv[1]) if len(sys.argv) > 1 else 1_000_000
    latency_us = int(sys.argv[2]) if len(sys.argv) > 2 else 5_000
    draw = random.Random(5)
    has_threads = subprocess.run([BINARY, "emulate"], capture_output=True, check=False).stderr != b"modelnet: no such command\n"
    with tempfile.TemporaryDirectory() as folder:
        file = {name: os.path.join(folder, name) for name in ("topology", "trace", "out", "report")}
        write_topology(file["topology"], latency_us, draw)
        write_capture(file["trace"], packets, draw)
        outputs = ["--trace", file["trace"], "--out", file["out"], "--report", file["report"]]
        written = set()
        for command in ["rehearse"] + ["emulate"] * has_threads:
            for cores in (1, 4, 16) if command == "rehearse" else (1, 2, 4):
                words = [command, "--topology", file["topology"], *outputs, "--cores", str(cores)]
                seconds, memory = timed(words)
                cluster = subprocess.run([BINARY, *words, "--cluster-report", "yes"], check=True, capture_output=True, text=True).stdout
                visits = visits_of(file["report"])
                with open(file["out"], "rb") as out, open(file["report"], "rb") as report:
                    written.add((out.read(), report.read()))
                print(f"{command} {cores} cores: {seconds:.2f} seconds, {int(visits / seconds)} visits a second, {int(memory)} KiB; {cluster.splitlines()[1]}")
        assert len(written) == 1, "the outputs depend on the cores"
        hops = max(1, min(16, round(visits / packets)))
        seconds, memory = timed(["chain", *outputs, *["1000000000:5000:200:100"] * hops])
        print(f"chain of {hops} pipes: {seconds:.2f} seconds, {int(visits_of(file['report']) / seconds)} visits a second, {int(memory)} KiB")


if __name__ == "__main__":
    main()
