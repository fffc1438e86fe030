"""Prints how long `rehearse` takes in each mode, in ms of processor time: the least of ten runs of the program that MODELNET
names.

usage: measure.py MODE..
"""
import os
import resource
import subprocess
import sys


def processor_time() -> float:
    """Of all programs that have ended so far, in ms."""
    used = resource.getrusage(resource.RUSAGE_CHILDREN)
    return 1000 * (used.ru_utime + used.ru_stime)


def run(mode: str) -> float:
    words = [
        "--topology",
        "campus.gml",
        "--trace",
        "day.pcap",
        "--tick-ns",
        "10000",
        "--mode",
        mode,
        "--out",
        "out/measured.pcap",
        "--report",
        "out/measured.txt",
    ]
    before = processor_time()
    subprocess.run([os.environ["MODELNET"], "rehearse", *words], check=True)
    return processor_time() - before


print("mode,ms")
for each in sys.argv[1:]:
    print(f"{each},{min(run(each) for _ in range(10)):.1f}")
