#!/usr/bin/env python3
"""The two texts that a number stands for, made by a plain program of its own: GML to one file, the capture to another.

    bench/workload.py NUMBER PACKETS GML PCAP

Beside them it prints their lengths and FNV-1a hashes of 64 bits, which the tests of crates/workload compare.
"""
import struct
import sys


def draws(number):
    """The draws of a stream: `send` the number of choices, receive which one."""
    state = number
    answer = None
    while True:
        choices = yield answer
        state = (state * 6364136223846793005 + 1442695040888963407) % 2**64
        answer = (state // 2**33) % choices


def gml(draw):
    lines = ["graph ["]
    lines += [f"  node [ id {i} ]" for i in range(16)]
    lines += [f'  node [ id {16 + j} address "10.0.0.{j + 1}" ]' for j in range(64)]
    trunks = [(i, (i + 1) % 16) for i in range(16)] + [(i, i + 8) for i in range(8)]
    for source, target in trunks:
        bandwidth = 10_000_000 * (1 + draw(10))
        latency = 1_000 + draw(20_000)
        loss = draw(1_000)
        lines.append(
            f"  edge [ source {source} target {target} bandwidth {bandwidth} latency {latency} loss {loss} ]"
        )
    for j in range(64):
        latency = 500 + draw(1_000)
        lines.append(
            f"  edge [ source {16 + j} target {j % 16} bandwidth 10000000 latency {latency} ]"
        )
    lines.append("]")
    return "".join(line + "\n" for line in lines).encode("ascii")


def capture(draw, packets):
    out = [struct.pack("<IHHIIII", 0xA1B23C4D, 2, 4, 0, 0, 262144, 101)]
    time = 0
    for _ in range(packets):
        source, destination = draw(64), draw(64)
        length = 60 + draw(1_441)
        gap = draw(200_000)
        out.append(struct.pack("<IIII", time // 10**9, time % 10**9, 20, length))
        out.append(bytes([0x45, 0]) + struct.pack(">H", length) + bytes([0, 0, 0, 0, 0x40, 0x11, 0, 0]))
        out.append(bytes([10, 0, 0, source + 1, 10, 0, 0, destination + 1]))
        time += gap
    return b"".join(out)


def fnv(text):
    hashed = 0xCBF29CE484222325
    for byte in text:
        hashed = ((hashed ^ byte) * 0x100000001B3) % 2**64
    return hashed


def main():
    number, packets = int(sys.argv[1]), int(sys.argv[2])
    stream = draws(number)
    next(stream)
    texts = [gml(stream.send), capture(stream.send, packets)]
    for text, name in zip(texts, sys.argv[3:]):
        with open(name, "wb") as file:
            file.write(text)
        print(name, len(text), f"{fnv(text):#018x}")


if __name__ == "__main__":
    main()
