#!/usr/bin/env python3
"""Makes captures with Wireshark's tools and by hand, in the folder it runs in, and compares what a reader prints with what tshark prints.

usage: pcapng.py READER      READER print FILE: a line `link L packets N`, and a line `TIME_NS CAPTURED ORIGINAL` for each packet
"""
import glob
import struct
import subprocess
import sys
from decimal import Decimal

reader = sys.argv[1]
ip = bytes.fromhex("4500001400010000401166d50a0000010a000002")


def block(order, kind, body):
    body += bytes(-len(body) % 4)
    size = 12 + len(body)
    return struct.pack(order + "II", kind, size) + body + struct.pack(order + "I", size)


def option(order, code, value):
    return struct.pack(order + "HH", code, len(value)) + value + bytes(-len(value) % 4)


def section(order, options=b""):
    return block(order, 0x0A0D0D0A, struct.pack(order + "IHHq", 0x1A2B3C4D, 1, 0, -1) + options)


def interface(order, snaplen, options=b""):
    return block(order, 1, struct.pack(order + "HHI", 101, 0, snaplen) + options)


def packet(order, number, time, data, original=None, options=b""):
    head = struct.pack(order + "IIIII", number, time >> 32, time & 0xFFFFFFFF, len(data), original or len(data))
    return block(order, 6, head + data + bytes(-len(data) % 4) + options)


def write(name, *parts):
    with open(name, "wb") as file:
        for part in parts:
            file.write(part)


def run(*words):
    return subprocess.run(words, capture_output=True, text=True).stdout


# by hand: three interfaces with units of their own, comments, names, statistics, in both byte orders; two sections; all resolutions
exact = {}
for order, name in (("<", "le"), (">", "be")):
    names = block(order, 4, struct.pack(order + "HH", 1, 9) + bytes([10, 0, 0, 1]) + b"host" + bytes(4) + bytes(4))
    write(
        f"multi_{name}.pcapng",
        section(order, option(order, 1, b"a comment") + option(order, 4, b"app") + option(order, 0, b"")),
        interface(order, 0, option(order, 2, b"eth0") + option(order, 9, b"\x09")),
        interface(order, 65535, option(order, 9, b"\x86")),
        interface(order, 65535),
        packet(order, 0, 1_700_000_000_123_456_789, ip, options=option(order, 1, b"hello")),
        packet(order, 1, 64 * 1_700_000_001 + 63, ip),
        packet(order, 2, 1_700_000_002_000_001, ip, 1500),
        names,
        block(order, 5, bytes(12)),
    )
    for code in (0, 1, 2, 3, 4, 5, 6, 7, 8, 9, 10, 12, 15, 18, 128, 129, 138, 148, 158, 160, 170, 191):
        rate = 10**code if code < 128 else 2 ** (code - 128)
        time = min(1234 * rate + 56789 * rate // 100000 + 3, 2**64 - 1)
        file = f"resolution_{code}_{name}.pcapng"
        write(file, section(order), interface(order, 0, option(order, 9, bytes([code]))), packet(order, 0, time, ip))
        exact[file] = [[str(time * 10**9 // rate), "20", "20"]]
write(
    "two_sections.pcapng",
    section("<"), interface("<", 0, option("<", 9, b"\x09")), packet("<", 0, 10**18 + 7, ip),
    section(">"), interface(">", 0), packet(">", 0, 10**15 + 9, ip),
)
frames = [struct.pack("<IIII", 1_700_000_000 + i, i * 1000 + 7, 34, 34) + bytes(12) + b"\x08\0" + ip for i in range(50)]
write("base.pcap", struct.pack("<IHHIIII", 0xA1B2C3D4, 2, 4, 0, 0, 65535, 1), *frames)

# by Wireshark's tools
run("editcap", "-F", "nsecpcap", "base.pcap", "ns.pcap")
run("editcap", "-F", "pcapng", "base.pcap", "plain.pcapng")
run("editcap", "-F", "pcapng", "ns.pcap", "nanoseconds.pcapng")
run("editcap", "-F", "pcapng", "-a", "3:a comment", "base.pcap", "commented.pcapng")
run("editcap", "-F", "pcapng", "-s", "20", "base.pcap", "cut_at_20.pcapng")
for mode in ("all", "none"):
    run("mergecap", "-F", "pcapng", "-I", mode, "-w", f"merged_{mode}.pcapng", "base.pcap", "ns.pcap")
run("mergecap", "-F", "pcapng", "-a", "-w", "two_link_types.pcapng", "plain.pcapng", "multi_le.pcapng")
run("tshark", "-r", "base.pcap", "-F", "pcapng", "-w", "by_tshark.pcapng")
with open("base.pcap", "rb") as base:
    subprocess.run(["dumpcap", "-q", "-i", "-", "-w", "by_dumpcap.pcapng"], stdin=base, capture_output=True)
run("tshark", "-r", "multi_be.pcapng", "-F", "pcapng", "-w", "multi_by_tshark.pcapng")
write("dump.txt", b"0000 45 00 00 14 00 01 00 00 40 11 66 d5 0a 00 00 01 0a 00 00 02\n")
run("text2pcap", "-F", "pcapng", "-4", "10.0.0.1,10.0.0.2", "-u", "1000,2000", "dump.txt", "by_text2pcap.pcapng")
write("joined.pcapng", open("plain.pcapng", "rb").read(), open("nanoseconds.pcapng", "rb").read())

differ = 0
for file in sorted(glob.glob("*.pcapng")):
    ours = run(reader, "print", file).splitlines()
    if not ours or not ours[0].startswith("link"):
        print(f"{file}: refused: {' '.join(ours)}")
        continue
    rows = [line.split() for line in ours[1:]]
    shown = run("tshark", "-r", file, "-T", "fields", "-e", "frame.time_epoch", "-e", "frame.cap_len", "-e", "frame.len")
    theirs = [line.split("\t") for line in shown.splitlines()]
    theirs = [[str(int(Decimal(time) * 10**9)), captured, original] for time, captured, original in theirs]
    wanted = exact.get(file, theirs)
    same = rows == wanted
    differ += not same
    print(f"{file}: {len(rows)} packets, {'as wanted' if same else 'NOT as wanted'}{'' if wanted == theirs else ' (tshark counts otherwise)'}")
print(f"{differ} differ")

# the largest traces, in both formats
for count, size, name in ((1048576, 20, "small"), (1023, 262000, "large")):
    data = bytes(size)
    with open(name + ".pcapng", "wb") as new, open(name + ".pcap", "wb") as classic:
        new.write(section("<") + interface("<", 0, option("<", 9, b"\x09")))
        classic.write(struct.pack("<IHHIIII", 0xA1B23C4D, 2, 4, 0, 0, 262144, 101))
        for number in range(count):
            time = number * 1000
            new.write(packet("<", 0, time, data))
            classic.write(struct.pack("<IIII", time // 10**9, time % 10**9, size, size) + data)
sys.exit(differ != 0)
