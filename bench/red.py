#!/usr/bin/env python3
"""What `red` takes: time, visits a second and peak memory, beside `chain` on the same trace and pipes, and beside bench/plain_red.rs.

The trace has packets of up to 1,500 bytes, 50 us apart on average. Each pipe of `red` has the first four values of that of `chain`; its queue drops
early from 10 to 60 waiting packets on average, up to every tenth packet. The least time of three runs counts. Where rustc is there, the plain
program does the same work after each run, and its bytes have to be equal. `red` is to take at most a third more time a visit than `chain`.

usage: bench/red.py [PACKETS] [PIPES]      200,000 packets over 8 pipes where none are given (MODELNET names another binary than
                                           crates/modelnet/out/modelnet)
"""
import os
import random
import shutil
import struct
import subprocess
import sys
import tempfile
import time

HERE = os.path.dirname(os.path.dirname(os.path.abspath(__file__)))
BINARY = os.environ.get("MODELNET", f"{HERE}/crates/modelnet/out/modelnet")
RUNS = 3


def write_trace(name, packets):
    draw = random.Random(7)
    time_ns = 0
    with open(name, "wb") as out:
        out.write(struct.pack("<IHHIIII", 0xA1B23C4D, 2, 4, 0, 0, 262144, 101))
        for number in range(packets):
            length = draw.randint(60, 1500)
            out.write(struct.pack("<IIII", time_ns // 10**9, time_ns % 10**9, 20, length))
            out.write(number.to_bytes(4, "little") + bytes(16))
            time_ns += draw.randint(0, 100_000)


def run(binary, command, folder, name, pipes):
    """One run: its time, and the peak memory of its process in KiB."""
    words = [binary, command, "--trace", f"{folder}/in.pcap", "--out", f"{folder}/{name}.pcap", "--report", f"{folder}/{name}.txt"]
    start = time.perf_counter()
    child = subprocess.Popen(words + pipes)
    _, status, usage = os.wait4(child.pid, 0)
    seconds = time.perf_counter() - start
    child.returncode = status
    if status != 0:
        sys.exit(f"{name}: status {status}")
    return seconds, usage.ru_maxrss


def visits_of(report):
    with open(report) as lines:
        rows = [line.split() for line in lines if line.startswith("pipe ")]
    return sum(int(count) for row in rows for count in row[3::2])


def same(one, other):
    with open(one, "rb") as a, open(other, "rb") as b:
        return a.read() == b.read()


def main():
    packets = int(sys.argv[1]) if len(sys.argv) > 1 else 200_000
    count = int(sys.argv[2]) if len(sys.argv) > 2 else 8
    folder = tempfile.mkdtemp()
    try:
        write_trace(f"{folder}/in.pcap", packets)
        bases = [f"200000000:{pipe * 500}:100:1000" for pipe in range(1, count + 1)]
        reds = [f"{base}:4:10:60:100000" for base in bases]
        programs = [("red", BINARY, "red", reds), ("chain", BINARY, "chain", bases)]
        if shutil.which("rustc"):
            plain = f"{folder}/plain_red"
            flags = ["--edition", "2024", "-O", "-C", "target-cpu=x86-64-v2", "-o", plain]
            subprocess.run(["rustc", *flags, f"{HERE}/bench/plain_red.rs"], check=True)
            programs.append(("plain", plain, "red", reds))
        runs = {name: [] for name, *_ in programs}
        for _ in range(RUNS):
            for name, binary, command, pipes in programs:
                runs[name].append(run(binary, command, folder, name, pipes))
        per_visit = {}
        for name, times in runs.items():
            visits = visits_of(f"{folder}/{name}.txt")
            seconds = min(each[0] for each in times)
            memory = max(each[1] for each in times)
            per_visit[name] = seconds / max(visits, 1)
            print(f"{name}: {visits} visits, {seconds:.2f} seconds, {seconds / max(visits, 1) * 1e9:.0f} ns a visit, {memory} KiB")
        print(f"red beside chain, a visit: {per_visit['red'] / per_visit['chain']:.2f}")
        if "plain" in runs:
            equal = all(same(f"{folder}/red.{kind}", f"{folder}/plain.{kind}") for kind in ("pcap", "txt"))
            print("equal bytes" if equal else "DIFFERENT BYTES")
            sys.exit(0 if equal else 1)
    finally:
        shutil.rmtree(folder)


if __name__ == "__main__":
    main()
