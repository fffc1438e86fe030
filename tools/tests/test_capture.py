"""Captures: the same trace in three forms, addresses, and files that are none."""
from pathlib import Path

import pytest
from conftest import DATA, QUIET

from modelnet_tools.capture import read_addresses, read_trace, records, write_trace
from modelnet_tools.faults import BadInput

PACKETS = [(10**18, "10.0.0.1", "10.0.0.2", 1500), (10**18 + 5, "10.0.0.2", "10.0.0.1", 60)]


def test_written_and_read(tmp_path: Path):
    file = str(tmp_path / "t.pcap")
    write_trace(file, PACKETS)
    trace = read_trace(file, QUIET)
    assert list(trace.time_ns) == [10**18, 10**18 + 5] and list(trace.length) == [1500, 60] and trace.base_ns == 10**18
    assert [len(record.data) for record in records(file)] == [32, 32]
    assert [list(side) for side in read_addresses(file, QUIET)] == [["10.0.0.1", "10.0.0.2"], ["10.0.0.2", "10.0.0.1"]]


def test_forms():
    nano, newer, micro = (read_trace(str(DATA / name), QUIET) for name in ("in.pcap", "in.pcapng", "in-us.pcap"))
    assert (nano.time_ns == newer.time_ns).all() and (nano.length == newer.length).all()
    assert (nano.time_ns // 1000 * 1000 == micro.time_ns).all() and (nano.length == micro.length).all()


def test_every_packet_is_told_apart():
    assert len({record.data for record in records(str(DATA / "in.pcap"))}) == 120


@pytest.mark.parametrize("text", [b"", b"no capture at all, but long enough for a header"])
def test_refused(tmp_path: Path, text: bytes):
    file = tmp_path / "t.pcap"
    file.write_bytes(text)
    with pytest.raises(BadInput, match="no capture"):
        read_trace(str(file), QUIET)


def test_cut_short(copy: Path):
    file = copy / "in.pcap"
    file.write_bytes(file.read_bytes()[:-1])
    with pytest.raises(BadInput, match="packet 119 is cut short"):
        read_trace(str(file), QUIET)
