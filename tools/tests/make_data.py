#!/usr/bin/python3
"""Makes the files of tests/data: two runs of one capture, `a` with a change of a pipe and `b` with a longer queue, and two
captures in other forms.

usage: MODELNET=../../crates/modelnet/out/modelnet tests/make_data.py      the tests themselves need no program
"""
import os
import random
import subprocess
import sys
from pathlib import Path

HERE = Path(__file__).resolve().parent
sys.path.insert(0, str(HERE.parent))

from modelnet_tools.capture import write_trace  # noqa: E402

DATA = HERE / "data"
MODELNET = os.environ["MODELNET"]
HOSTS = {"10.0.0.1": 0, "10.0.0.2": 1, "10.0.1.1": 4, "10.0.1.2": 5}
TOPOLOGY = """graph [
  node [ id 0 address "10.0.0.1" ]
  node [ id 1 address "10.0.0.2" ]
  node [ id 2 ]
  node [ id 3 ]
  node [ id 4 address "10.0.1.1" ]
  node [ id 5 address "10.0.1.2" ]
  edge [ source 0 target 2 bandwidth 10000000 latency 1000 ]
  edge [ source 1 target 2 bandwidth 10000000 latency 1000 ]
  edge [ source 2 target 3 bandwidth 2000000 latency 20000 queue QUEUE loss 50000 ]
  edge [ source 3 target 4 bandwidth 10000000 latency 1000 ]
  edge [ source 3 target 5 bandwidth 10000000 latency 1000 ]
]
"""
CHANGES = [
    "change tick 400 pipe 4 bps 500000 us 30000 queue 4 ppm 0",
    "change tick 800 pipe 4 bps 2000000 us 20000 queue 6 ppm 50000",
]


def packets() -> list[tuple[int, str, str, int]]:
    """120 packets in bursts, one to its own address and one from an address that no node has."""
    draw, time_ns, made = random.Random(30), 1_700_000_000 * 10**9 + 12_345, []
    for number in range(120):
        source, destination = draw.sample(sorted(HOSTS), 2)
        time_ns += 15_000_000 if number % 12 == 0 else draw.randrange(600_000)
        made.append((time_ns, source, destination, draw.choice((60, 576, 1500))))
    made[10] = (made[10][0], "10.0.0.1", "10.0.0.1", 100)
    made[20] = (made[20][0], "10.9.9.9", "10.0.0.1", 100)
    return made


def run(folder: Path, queue: int, changes: list[str]) -> None:
    folder.mkdir(parents=True, exist_ok=True)
    (folder / "topology.gml").write_text(TOPOLOGY.replace("QUEUE", str(queue)))
    call = lambda *words: subprocess.run([MODELNET, *words], check=True, capture_output=True, text=True, cwd=folder).stdout
    (folder / "pipes.txt").write_text(call("distill", "--topology", "topology.gml"))
    options = ["--topology", "topology.gml", "--trace", "../in.pcap", "--seed", "5"]
    if changes:
        owners = call("assign", "--topology", "topology.gml").replace("directory 1", "directory 2").splitlines()
        (folder / "directory.txt").write_text("\n".join([f"{owners[0]} changes {len(changes)}", *owners[1:], *changes]) + "\n")
        options += ["--directory", "directory.txt"]
    call("journal", *options, "--out", "journal.txt")
    call("rehearse", *options, "--out", "out.pcap", "--report", "report.txt")


def cluster(folder: Path) -> None:
    """What the program says of the lookahead of a directory that `partition` made."""
    from modelnet_tools import partition

    partition.main(["--pipes", str(folder / "pipes.txt"), "--cores", "2", "--to", str(folder / "partitioned.txt")])
    words = [
        "--topology",
        "topology.gml",
        "--trace",
        "../in.pcap",
        "--seed",
        "5",
        "--cores",
        "2",
        "--directory",
        "partitioned.txt",
    ]
    words += ["--out", "/dev/null", "--report", "/dev/null", "--cluster-report", "yes"]
    (folder / "cluster.txt").write_text(
        subprocess.run([MODELNET, "rehearse", *words], check=True, capture_output=True, text=True, cwd=folder).stdout
    )


def main() -> None:
    write_trace(str(DATA / "in.pcap"), packets())
    subprocess.run(["editcap", "-F", "pcapng", DATA / "in.pcap", DATA / "in.pcapng"], check=True)
    subprocess.run(["editcap", "-F", "pcap", DATA / "in.pcap", DATA / "in-us.pcap"], check=True)
    run(DATA / "a", 6, CHANGES)
    run(DATA / "b", 30, [])
    cluster(DATA / "b")


if __name__ == "__main__":
    main()
