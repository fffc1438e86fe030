"""Captures, by other people's readers: scapy's for times and lengths, tshark for addresses."""
import subprocess
from contextlib import closing
from dataclasses import dataclass
from typing import Iterable, Iterator

import numpy
from scapy.error import Scapy_Exception
from scapy.layers.inet import IP, UDP
from scapy.utils import RawPcapNgReader, RawPcapReader, RawPcapWriter

from .faults import BadInput
from .progress import Progress

NS = 10**9


@dataclass(frozen=True)
class Trace:
    """Times in ns and original lengths in bytes, packet by packet; `base_ns` is the least time, from which ticks are counted."""

    file: str
    time_ns: numpy.ndarray
    length: numpy.ndarray

    @property
    def base_ns(self) -> int:
        return int(self.time_ns.min()) if len(self.time_ns) else 0

    def since_base(self) -> numpy.ndarray:
        return self.time_ns - self.base_ns


@dataclass(frozen=True)
class Record:
    """A packet as it stands in a capture."""

    time_ns: int
    length: int
    data: bytes


def classic_records(reader: RawPcapReader) -> Iterator[Record]:
    unit = 1 if reader.nano else 1000
    for number, (data, meta) in enumerate(reader):
        if len(data) != meta.caplen:
            raise BadInput(reader.filename, None, f"packet {number} is cut short")
        yield Record(meta.sec * NS + meta.usec * unit, meta.wirelen, data)


def newer_records(reader: RawPcapNgReader) -> Iterator[Record]:
    time_ns = 0
    for data, meta in reader:
        if meta.tshigh is not None:  # a simple packet has the time of the one before it
            time_ns = ((meta.tshigh << 32) + meta.tslow) * NS // meta.tsresol
        yield Record(time_ns, meta.wirelen, data)


def records(file: str) -> Iterator[Record]:
    """The packets of a classic or a pcapng capture."""
    try:
        with closing(RawPcapReader(file)) as reader:
            yield from newer_records(reader) if isinstance(reader, RawPcapNgReader) else classic_records(reader)
    except (Scapy_Exception, EOFError) as fault:
        raise BadInput(file, None, f"no capture that scapy reads: {fault}") from None


def read_trace(file: str, progress: Progress) -> Trace:
    progress.step(f"reading {file}")
    times, lengths = [], []
    for record in records(file):
        times.append(record.time_ns)
        lengths.append(record.length)
        if len(times) % 10_000 == 0:
            progress.count("packets of the trace", len(times))
    return Trace(file, numpy.array(times, "int64"), numpy.array(lengths, "int64"))


def read_addresses(file: str, progress: Progress) -> tuple[numpy.ndarray, numpy.ndarray]:
    """Source and destination of each packet as tshark prints them, or "" where it finds no IPv4 header."""
    progress.step(f"reading the addresses in {file}")
    words = ["tshark", "-n", "-r", file, "-T", "fields", "-e", "ip.src", "-e", "ip.dst", "-E", "occurrence=f"]
    pairs = []
    with subprocess.Popen(words, stdout=subprocess.PIPE, stderr=subprocess.DEVNULL, text=True) as reader:
        assert reader.stdout is not None
        for line in reader.stdout:
            pairs.append(line.rstrip("\n").split("\t"))
            if len(pairs) % 10_000 == 0:
                progress.count("addresses", len(pairs))
    if reader.returncode != 0:
        raise BadInput(file, None, "no capture that tshark reads to its end")
    sources, destinations = ([pair[side] for pair in pairs] for side in (0, 1))
    return numpy.array(sources, dtype=object), numpy.array(destinations, dtype=object)


RAW_IP = 101
UDP_HEADERS = 28


def write_trace(file: str, packets: Iterable[tuple[int, str, str, int]]) -> None:
    """Writes a capture of UDP packets, by scapy: (time in ns, source, destination, length). 32 bytes of each are kept, the last
    four its number.
    """
    with closing(RawPcapWriter(file, linktype=RAW_IP, nano=True)) as writer:
        writer.write_header(None)
        for number, (time_ns, source, destination, length) in enumerate(packets):
            header = IP(src=source, dst=destination, len=length, id=number % 65536, proto="udp") / UDP(
                sport=5000, dport=5000, len=length - 20, chksum=0
            )
            data = bytes(header / number.to_bytes(4, "big"))
            writer.write_packet(data, sec=time_ns // NS, usec=time_ns % NS, wirelen=max(length, UDP_HEADERS))
