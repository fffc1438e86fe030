#!/usr/bin/env python3
"""The four lines of `modelnet workload` for a number, by a plain program of its own: one heap of visits, each pipe a list of finishes.

    bench/summary.py NUMBER PACKETS

The tests and the stored run of crates/modelnet have its lines.
"""
import heapq
import struct
import sys

from workload import capture, draws, gml

TICK_NS = 100_000
QUEUE = 50


def chacha8(key, stream, block):
    """The sixteen words of a block of ChaCha with eight rounds."""
    state = [0x61707865, 0x3320646E, 0x79622D32, 0x6B206574, *key]
    state += [block % 2**32, block >> 32, stream % 2**32, stream >> 32]
    words = list(state)

    def quarter(a, b, c, d):
        for x, y, z, turn in ((a, b, d, 16), (c, d, b, 12), (a, b, d, 8), (c, d, b, 7)):
            words[x] = (words[x] + words[y]) % 2**32
            mixed = words[z] ^ words[x]
            words[z] = (mixed << turn | mixed >> (32 - turn)) % 2**32

    for _ in range(4):
        for i in range(4):
            quarter(i, 4 + i, 8 + i, 12 + i)
        for i in range(4):
            quarter(i, 4 + (i + 1) % 4, 8 + (i + 2) % 4, 12 + (i + 3) % 4)
    return [(a + b) % 2**32 for a, b in zip(words, state)]


def pipes_of(text):
    """The two pipes of each edge: (from, to, bit/s, latency in us, keep)."""
    pipes = []
    for line in text.decode("ascii").splitlines():
        words = line.split()
        if words[:1] == ["edge"]:
            value = dict(zip(words[2:-1:2], map(int, words[3:-1:2])))
            keep = (1_000_000 - value.get("loss", 0)) * 2**32 // 1_000_000
            for a, b in (("source", "target"), ("target", "source")):
                pipes.append((value[a], value[b], value["bandwidth"], value["latency"], keep))
    return pipes


def routes_from(pipes, source):
    """The least walk to each node: by latency, then by length, then by the numbers of its pipes."""
    leaving = {}
    for number, pipe in enumerate(pipes):
        leaving.setdefault(pipe[0], []).append(number)
    routes, heap = {}, [(0, 0, (), source)]
    while heap:
        us, length, route, node = heapq.heappop(heap)
        if node in routes:
            continue
        routes[node] = route
        for number in leaving[node]:
            _, to, _, latency, _ = pipes[number]
            heapq.heappush(heap, (us + latency, length + 1, route + (number,), to))
    return routes


def emulated(pipes, packets, number):
    """(how many left, how many were dropped, the last tick at which one left)."""
    key = struct.unpack("<8I", struct.pack("<Q", number) + bytes(24))
    routes = {host: routes_from(pipes, host) for host in range(16, 80)}
    blocks, finishes = {}, [[] for _ in pipes]
    base = min((time for time, *_ in packets), default=0)
    heap = [((time - base) // TICK_NS, p, 0) for p, (time, *_) in enumerate(packets)]
    heapq.heapify(heap)
    left = dropped = last = 0
    while heap:
        tick, p, hop = heapq.heappop(heap)
        _, length, source, destination = packets[p]
        route = routes[source][destination]
        if hop == len(route):
            left, last = left + 1, max(last, tick)
            continue
        q = route[hop]
        _, _, bps, us, keep = pipes[q]
        if keep < 2**32:
            if (q, p // 16) not in blocks:
                blocks[q, p // 16] = chacha8(key, q, p // 16)
            if blocks[q, p // 16][p % 16] >= keep:
                dropped += 1
                continue
        busy = finishes[q]
        if sum(1 for finish in busy[-QUEUE:] if finish > tick * TICK_NS) >= QUEUE:
            dropped += 1
            continue
        start = max(tick * TICK_NS, busy[-1] if busy else 0)
        busy.append(start - (-length * 8 * 10**9 // bps))
        exit_tick = -(-busy[-1] // TICK_NS) + max(1, -(-us * 1000 // TICK_NS))
        heapq.heappush(heap, (exit_tick, p, hop + 1))
    return left, dropped, last


def main():
    number, count = int(sys.argv[1]), int(sys.argv[2])
    stream = draws(number)
    next(stream)
    topology = gml(stream.send)
    trace = capture(stream.send, count)
    packets = []
    for at in range(24, len(trace), 36):
        seconds, fraction, _, length = struct.unpack("<IIII", trace[at : at + 16])
        packets.append((seconds * 10**9 + fraction, length, 15 + trace[at + 31], 15 + trace[at + 35]))
    left, dropped, last = emulated(pipes_of(topology), packets, number)
    print(f"workload {number} packets {count}")
    print(f"gml {len(topology)} trace {len(trace)}")
    print(f"packets {count} bound {count} unbound 0 left {left} dropped {dropped}")
    print(f"last-tick {last}")


if __name__ == "__main__":
    main()
