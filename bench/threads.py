#!/usr/bin/env python3
"""Shows that `emulate` writes the same bytes as `rehearse` and as one core: over random cases, under load, and where threads are refused.

1. CASES random topologies, traces, modes and directories (those of a random owner for each pipe), on 1 to 16 cores.
2. One long run on one processor with 16 threads (`taskset`), while as many programs as there are processors keep it busy.
3. Runs as a user whose processes are limited, so that threads are refused: right bytes, or status 1 and nothing written.

usage: bench/threads.py [CASES] [SEED]      (MODELNET names another binary than crates/modelnet/out/modelnet; part 3 needs root, for another user)
"""
import os
import random
import resource
import struct
import subprocess
import sys
import tempfile

HERE = os.path.dirname(os.path.dirname(os.path.abspath(__file__)))
BINARY = os.environ.get("MODELNET", os.path.join(HERE, "crates/modelnet/out/modelnet"))
NOBODY = 65534


def address(host):
    return bytes([10, 0, host // 250, host % 250 + 1])


def write_topology(name, routers, hosts, draw):
    """Routers in a ring with chords, hosts at some of them; links of all kinds."""
    with open(name, "w", encoding="ascii") as out:
        out.write("graph [\n")
        for router in range(routers):
            out.write(f"  node [ id {router} ]\n")
        for host in range(hosts):
            out.write(f'  node [ id {routers + host} address "{".".join(map(str, address(host)))}" ]\n')
        edges = [(router, (router + 1) % routers) for router in range(routers) if routers > 1]
        edges += [tuple(draw.sample(range(routers), 2)) for _chord in range(routers // 3)]
        edges += [(routers + host, draw.randrange(routers)) for host in range(hosts)]
        for source, target in edges:
            bandwidth, latency = draw.choice([1_000_000, 8_000_000, 100_000_000]), draw.choice([0, 50, 1_000, 20_000])
            out.write(f"  edge [ source {source} target {target} bandwidth {bandwidth} latency {latency}")
            out.write(f" queue {draw.choice([1, 5, 50])} loss {draw.choice([0, 0, 20_000])} ]\n")
        out.write("]\n")


def write_capture(name, hosts, packets, gap_ns, draw):
    """Packets between hosts, `gap_ns` apart on average."""
    time_ns = 0
    with open(name, "wb") as out:
        out.write(struct.pack("<IHHIIII", 0xA1B23C4D, 2, 4, 0, 0, 262144, 101))
        for _packet in range(packets):
            source, target = draw.randrange(hosts), draw.randrange(hosts)
            length = draw.randint(60, 1500)
            header = struct.pack(">BBHIBBH", 0x45, 0, length, 0, 64, 17, 0) + address(source) + address(target)
            out.write(struct.pack("<IIII", time_ns // 10**9, time_ns % 10**9, len(header), length) + header)
            time_ns += draw.randint(0, 2 * gap_ns)


def write_directory(name, words, cores, draw):
    """An owner drawn for each pipe."""
    printed = subprocess.run([BINARY, "distill", *words], check=True, capture_output=True, text=True).stdout
    pipes = len(printed.splitlines()) - 2
    with open(name, "w", encoding="ascii") as out:
        out.write(f"modelnet-directory 1 cores {cores} pipes {pipes}\n")
        out.writelines(f"pipe {pipe} core {draw.randrange(cores)}\n" for pipe in range(pipes))


def files_in(folder):
    return {name: os.path.join(folder, name) for name in ("topology", "trace", "directory", "out", "report")}


def content(name):
    with open(name, "rb") as file:
        return file.read()


def emulated(file, words, before=(), **how):
    """The status of a run, and what it wrote."""
    for name in ("out", "report"):
        if os.path.exists(file[name]):
            os.unlink(file[name])
    outputs = ["--topology", file["topology"], "--trace", file["trace"], "--out", file["out"], "--report", file["report"]]
    done = subprocess.run([*before, BINARY, words[0], *outputs, *words[1:]], capture_output=True, check=False, timeout=1200, **how)
    return done.returncode, tuple(content(file[name]) if os.path.exists(file[name]) else None for name in ("out", "report"))


def one_case(file, draw):
    """A random case: `rehearse`, one core and some cores on threads write the same."""
    hosts = draw.randint(2, 12)
    write_topology(file["topology"], draw.randint(1, 12), hosts, draw)
    write_capture(file["trace"], hosts, draw.randint(0, 400), draw.choice([1_000, 100_000, 1_000_000]), draw)
    mode = draw.choice(["hop", "hop", "end", "walk:1"])
    shared = ["--mode", mode, "--seed", str(draw.getrandbits(64)), "--tick-ns", str(draw.choice([1_000, 100_000]))]
    one = emulated(file, ["emulate", *shared])
    assert one[0] == 0, one
    for cores in sorted({2, 16, draw.randint(3, 15)}):
        words = [*shared, "--cores", str(cores)]
        if draw.randrange(2):
            write_directory(file["directory"], ["--topology", file["topology"], "--mode", mode], cores, draw)
            words += ["--directory", file["directory"]]
        for command in ("rehearse", "emulate"):
            assert emulated(file, [command, *words]) == one, (command, words)


def under_load(file, draw):
    """A long run of 16 threads on one processor that others keep busy, and on all of them."""
    write_topology(file["topology"], 30, 40, draw)
    write_capture(file["trace"], 40, 50_000, 20_000, draw)
    one = emulated(file, ["emulate"])
    busy = [subprocess.Popen(["nice", "-n", "5", "sh", "-c", "while :; do :; done"]) for _processor in range(os.cpu_count())]
    try:
        assert emulated(file, ["emulate", "--cores", "16"], before=["taskset", "-c", "0"]) == one
        assert emulated(file, ["emulate", "--cores", "16"]) == one
    finally:
        for each in busy:
            each.kill()
            each.wait()


def limited(processes):
    """What a child does before it becomes the program: another user with so many processes at most."""
    def become():
        resource.setrlimit(resource.RLIMIT_NPROC, (processes, processes))
        os.setgid(NOBODY)
        os.setuid(NOBODY)
    return become


def refused(file, folder, draw):
    """Runs in which starts of threads are refused: right bytes, or status 1 and nothing written."""
    os.chmod(folder, 0o777)
    write_topology(file["topology"], 6, 10, draw)
    write_capture(file["trace"], 10, 500, 100_000, draw)
    one = emulated(file, ["emulate"])
    told = {0: 0, 1: 0}
    for processes in range(1, 16):
        for cores in (2, 16):
            status, written = emulated(file, ["emulate", "--cores", str(cores)], preexec_fn=limited(processes))
            assert (status, written) in (one, (1, (None, None))), (processes, cores, status)
            told[status] += 1
    return told


def main():
    cases = int(sys.argv[1]) if len(sys.argv) > 1 else 500
    draw = random.Random(int(sys.argv[2]) if len(sys.argv) > 2 else 1)
    with tempfile.TemporaryDirectory() as folder:
        file = files_in(folder)
        for _case in range(cases):
            one_case(file, draw)
        print(f"{cases} random cases: the same bytes by rehearse and emulate, on 1 to 16 cores", flush=True)
        under_load(file, draw)
        print("16 threads on one busy processor, and on all: the same bytes", flush=True)
        if os.getuid() == 0:
            told = refused(file, folder, draw)
            print(f"threads refused: {told[0]} runs with the right bytes, {told[1]} with status 1 and nothing written")


if __name__ == "__main__":
    main()
