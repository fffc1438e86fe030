#!/usr/bin/env python3
"""How long it takes to write a journal of some million visits, and to check it; and the memory of both, beside the file's bytes.

The topology and the capture are those of cores.py. A check may take twice the time of the writing, and its memory mustn't grow with the file beyond
its bytes: so it is checked twice, with a capture of half the packets and a whole one, and what a visit more costs beyond the file's bytes is printed.

usage: bench/journal.py [PACKETS]      200,000 packets where none are given; MODELNET names another binary than crates/modelnet/out/modelnet
"""
import os
import random
import subprocess
import sys
import tempfile

import cores


def timed(words):
    """Seconds and peak memory in bytes of one run."""
    done = subprocess.run(["/usr/bin/time", "-f", "%e %M", cores.BINARY, *words], check=True, capture_output=True, text=True)
    seconds, memory = done.stderr.split()[-2:]
    return float(seconds), int(memory) * 1024, done.stdout


def measure(packets, folder):
    """Writes and checks one journal; says its visits, its bytes, and the memory of the check without them."""
    file = {name: os.path.join(folder, name) for name in ("topology", "trace", "journal")}
    draw = random.Random(5)
    cores.write_topology(file["topology"], 5_000, draw)
    cores.write_capture(file["trace"], packets, draw)
    words = ["--topology", file["topology"], "--trace", file["trace"]]
    written, memory, _told = min(timed(["journal", *words, "--out", file["journal"]]) for _run in range(3))
    checked, held, told = min(timed(["check", *words, "--journal", file["journal"]]) for _run in range(3))
    size = os.path.getsize(file["journal"])
    visits = int(told.split()[2])
    print(f"{packets} packets, {visits} visits, {size} bytes: written in {written:.2f} s ({memory // 1024} KiB), checked in {checked:.2f} s ({held // 1024} KiB)")
    return visits, held - size


def main():
    packets = int(sys.argv[1]) if len(sys.argv) > 1 else 200_000
    with tempfile.TemporaryDirectory() as folder:
        half, one = measure(packets // 2, folder)
        whole, other = measure(packets, folder)
    print(f"a visit more costs the check {(other - one) / (whole - half):.1f} bytes beyond the file's, of which the packets' plans and bytes are the most")


if __name__ == "__main__":
    main()
