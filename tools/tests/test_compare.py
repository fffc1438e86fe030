"""The tool `compare`: beside the captures that left both runs, and what it refuses."""
import csv
from pathlib import Path

import numpy
import pytest
from conftest import DATA, QUIET, change_line, refused

from modelnet_tools import compare
from modelnet_tools.capture import records
from modelnet_tools.compare import arrive_in, differences, paired, percentiles
from modelnet_tools.run import narrow


def left(name: str) -> dict[int, int]:
    """When each packet left, by its number, which stands in its last bytes."""
    return {int.from_bytes(record.data[-4:], "big"): record.time_ns for record in records(str(DATA / name / "out.pcap"))}


def test_beside_the_captures(run_a, run_b):
    a, b, both = left("a"), left("b"), paired(run_a, run_b)
    assert arrive_in(both) == {
        "both": len(a.keys() & b.keys()),
        "a": len(a.keys() - b.keys()),
        "b": len(b.keys() - a.keys()),
        "none": 119 - len(a.keys() | b.keys()),
    }
    assert dict(differences(both)[["packet", "difference"]].itertuples(index=False)) == {
        packet: b[packet] - a[packet] for packet in a.keys() & b.keys()
    }
    expected = numpy.percentile([(b[packet] - a[packet]) / 1e6 for packet in a.keys() & b.keys()], [1, 50, 99])
    assert percentiles(both) == pytest.approx(expected)


def test_causes(run_a, run_b):
    both = paired(run_a, run_b).set_index("packet")
    for run, fate in ((run_a, "fate_a"), (run_b, "fate_b")):
        assert dict(both[fate][both[fate] != "left"]) == dict(run.report.drops[["packet", "cause"]].itertuples(index=False))


def test_with_itself(run_b):
    both = paired(run_b, run_b)
    assert arrive_in(both) == {"both": 115, "a": 0, "b": 0, "none": 4} and percentiles(both) == [0, 0, 0]


def test_bound_in_one_alone(run_a, run_b):
    few = narrow(run_a, ("10.0.0.1", "10.0.1.1"), QUIET)
    both = paired(few, run_b)
    assert len(both) == 119 and (both["fate_a"] == "unbound").sum() == 119 - len(few.packets)
    assert (both["entry_ns"].to_numpy() == run_b.packets["entry_ns"].to_numpy()).all()


def test_page(tmp_path: Path, capsys: pytest.CaptureFixture):
    words = [str(DATA / "a"), str(DATA / "b"), "--trace", str(DATA / "in.pcap")]
    assert compare.main([*words, "--to", str(tmp_path / "one")]) == 0
    said = capsys.readouterr().out.splitlines()
    assert said[0] == "arrive in both 101, only in a 1, only in b 14, in none 3" and said[1].startswith(
        "delay in b less that in a: median 0.000 ms, "
    )
    assert compare.main([*words, "--to", str(tmp_path / "two")]) == 0
    made = [{file.name: file.read_bytes() for file in (tmp_path / name).iterdir()} for name in ("one", "two")]
    assert made[0] == made[1] and {"arrivals.png", "difference.png", "queues.png", "drops.png"} < set(made[0])
    rows = list(csv.DictReader((tmp_path / "one/packets.csv").open()))
    assert len(rows) == 119 and sum(row["difference_ns"] != "" for row in rows) == 101
    page = made[0]["index.html"].decode()
    assert "<script" not in page and "99th percentile" in page


def test_pair_and_equal_names(tmp_path: Path, copy: Path, capsys: pytest.CaptureFixture):
    words = [
        str(DATA / "a"),
        str(copy / "a"),
        "--trace",
        str(DATA / "in.pcap"),
        "--to",
        str(tmp_path / "page"),
        "--pair",
        "10.0.1.1,10.0.0.1",
    ]
    assert compare.main(words) == 0
    assert "only in A 0, only in B 0" in capsys.readouterr().out


def test_refused(copy: Path, tmp_path: Path, capsys: pytest.CaptureFixture):
    words = [str(copy / "a"), str(copy / "b"), "--trace", str(copy / "in.pcap"), "--to", str(tmp_path / "page")]
    change_line(copy / "b/journal.txt", 7, "tick 7")
    assert refused(compare.main, words, capsys).startswith(f"compare: {copy}/b/journal.txt:7: ")
    (copy / "b/journal.txt").write_bytes((DATA / "b/journal.txt").read_bytes())
    (copy / "in.pcap").write_bytes((DATA / "a/out.pcap").read_bytes())
    assert refused(compare.main, words, capsys).startswith(f"compare: {copy}/a/")
    assert not (tmp_path / "page").exists()
