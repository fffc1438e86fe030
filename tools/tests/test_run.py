"""A run: its sums are those of the capture that leaves and of the report, and files of another run are refused by line."""
from pathlib import Path

import numpy
import pytest
from conftest import DATA, QUIET, change_line, load

from modelnet_tools.capture import records
from modelnet_tools.faults import BadInput
from modelnet_tools.journal import PASS
from modelnet_tools.run import DROPPED, LEFT, PARTS, narrow


@pytest.mark.parametrize("name", ["a", "b"])
def test_delays_are_out_less_in(name: str):
    run = load(name)
    entered = {record.data: record.time_ns for record in records(str(DATA / "in.pcap"))}
    numbers = {record.data: number for number, record in enumerate(records(str(DATA / "in.pcap")))}
    expected = {numbers[record.data]: record.time_ns - entered[record.data] for record in records(str(DATA / name / "out.pcap"))}
    left = run.packets[run.packets["fate"] == LEFT]
    assert dict(zip(left["packet"], left["delay"])) == expected


@pytest.mark.parametrize("name", ["a", "b"])
def test_parts_make_the_delay(name: str):
    run = load(name)
    left = run.packets[run.packets["fate"] == LEFT]
    assert (left[list(PARTS)].sum(axis=1) == left["delay"]).all()
    hops = run.visits[run.visits["outcome"] == PASS].groupby("packet").size().reindex(left["packet"], fill_value=0).to_numpy()
    assert (left["rounding"] > -run.tick_ns).all() and (left["rounding"] < run.tick_ns * numpy.maximum(hops, 1)).all()
    assert (left["waiting"] >= 0).all()


@pytest.mark.parametrize("name", ["a", "b"])
def test_drops_are_the_reports(name: str):
    run = load(name)
    dropped = run.packets[run.packets["fate"] == DROPPED]
    assert list(dropped["packet"]) == list(run.report.drops["packet"])
    assert 20 not in set(run.packets["packet"]) and len(run.packets) == run.report.bound


def test_a_packet_by_hand(run_b):
    """Packet 0 has 60 bytes from 10.0.1.1 to 10.0.1.2: 48,000 ns on each of two pipes of 10 Mbit/s and 1 ms, and 52,000 ns of
    each tick left over.
    """
    row = run_b.packets.iloc[0]
    assert (row["delay"], row["waiting"], row["transmission"], row["latency"], row["rounding"]) == (
        2_200_000,
        0,
        96_000,
        2_000_000,
        104_000,
    )


def test_to_its_own_address(run_b):
    """Packet 10 has an empty route: it leaves at the start of the tick at which it enters."""
    row = run_b.packets[run_b.packets["packet"] == 10].iloc[0]
    assert row["fate"] == LEFT and row["delay"] == row["rounding"] == -(row["entry_ns"] % run_b.tick_ns)


def test_changes_count_from_their_tick(run_a):
    theirs = run_a.visits[run_a.visits["pipe"] == 4]
    between = theirs[(theirs["tick"] >= 400) & (theirs["tick"] < 800)]
    assert (
        len(between)
        and (between["bps"] == 500_000).all()
        and (between["queue"] == 4).all()
        and (between["latency_ns"] == 30_000_000).all()
    )
    assert (theirs[(theirs["tick"] < 400) | (theirs["tick"] >= 800)]["bps"] == 2_000_000).all()


def test_one_pair(run_a):
    pair = narrow(run_a, ("10.0.0.1", "10.0.1.1"), QUIET)
    routes = {
        tuple(theirs["pipe"])
        for _packet, theirs in run_a.visits[run_a.visits["packet"].isin(pair.packets["packet"])].groupby("packet")
    }
    assert 0 < len(pair.packets) < 20 and routes <= {(0, 4, 6), (0, 4)}
    with pytest.raises(BadInput, match="no packet from 1.2.3.4 to 10.0.1.1"):
        narrow(run_a, ("1.2.3.4", "10.0.1.1"), QUIET)


@pytest.mark.parametrize(
    "name, line, text, says",
    [
        ("journal.txt", 2, "tick 0 packet 0 hop 0 pipe 7 pass exit 12", "another exit"),
        ("journal.txt", 2, "tick 0 packet 0 hop 0 pipe 10 pass exit 11", "pipe 10, where"),
        ("journal.txt", 2, "tick 0 packet 0 hop 1 pipe 7 pass exit 11", "no hop that follows"),
        ("report.txt", 2, "packets 121 bound 120 unbound 1 left 116 dropped 4", "121 packets, where"),
        ("report.txt", 3, "pipe 0 passed 26 lost 0 full 0", "other counts"),
        ("pipes.txt", 2, "mode hop tick-ns 50000 pipes 10", "another tick length than 50000 ns"),
    ],
)
def test_of_another_run(copy: Path, name: str, line: int, text: str, says: str):
    change_line(copy / "b" / name, line, text)
    with pytest.raises(BadInput, match=says) as refusal:
        load("b", copy)
    assert refusal.value.line is not None


def test_of_another_trace(copy: Path):
    (copy / "in.pcap").write_bytes((copy / "in-us.pcap").read_bytes())
    load("b", copy)  # a microsecond less makes no other tick here
    (copy / "b/journal.txt").write_bytes((copy / "a/journal.txt").read_bytes())
    with pytest.raises(BadInput, match="17"):
        load("b", copy)


def test_changes_left_out(copy: Path):
    (copy / "a/directory.txt").unlink()
    with pytest.raises(BadInput, match="another exit than the pipes in .* give"):
        load("a", copy)


def test_report_of_another_drop(copy: Path):
    report = copy / "a/report.txt"
    line = next(number for number, text in enumerate(report.read_text().splitlines(), 1) if text.startswith("drop"))
    change_line(report, line, report.read_text().splitlines()[line - 1].replace("tick ", "tick 1"))
    with pytest.raises(BadInput, match="another drop") as refusal:
        load("a", copy)
    assert refusal.value.line == line
