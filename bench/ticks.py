#!/usr/bin/env python3
"""How many packets a full queue drops by the length of a tick alone: the tables of docs/GUIDE.md.

usage: bench/ticks.py      (MODELNET names another binary than crates/modelnet/out/modelnet)
"""
import os
import struct
import subprocess
import tempfile
from pathlib import Path

BINARY = Path(os.environ.get("MODELNET", Path(__file__).resolve().parent.parent / "crates/modelnet/out/modelnet")).resolve()
TICKS = [1_000_000, 100_000, 50_000, 10_000, 1_000]
CASES = [
    ("20,000 packets of 1,500 bytes, 1,500 ns apart, at 10 Gbit/s with a queue of 50", 20_000, 1_500, 1_500, "10000000000:1000:50:0"),
    ("10 packets of 1,000 bytes, 10,000 ns apart, at 1 Gbit/s with a queue of 5", 10, 1_000, 10_000, "1000000000:1000:5:0"),
]


def capture(packets: int, length: int, gap_ns: int) -> bytes:
    records = [struct.pack("<IHHIIII", 0xA1B23C4D, 2, 4, 0, 0, 262_144, 101)]
    for number in range(packets):
        seconds, nanoseconds = divmod(number * gap_ns, 10**9)
        records.append(struct.pack("<IIIII", seconds, nanoseconds, 4, length, number))
    return b"".join(records)


for name, packets, length, gap_ns, pipe in CASES:
    print(name)
    with tempfile.TemporaryDirectory() as folder:
        (Path(folder) / "in.pcap").write_bytes(capture(packets, length, gap_ns))
        for tick_ns in TICKS:
            words = f"chain --trace in.pcap --out out.pcap --report report.txt --tick-ns {tick_ns} {pipe}".split()
            subprocess.run([BINARY, *words], cwd=folder, check=True)
            line = (Path(folder) / "report.txt").read_text().splitlines()[2]
            print(f"  tick {tick_ns} ns: {line}")
