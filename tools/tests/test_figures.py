"""The tool `figures`: the page, the same bytes each time, and no page where an input is refused."""
import csv
import re
from pathlib import Path

import pytest
from conftest import DATA, change_line, refused

from modelnet_tools import figures

PICTURES = {"delay-over-time.png", "delay-distribution.png", "throughput.png", "queues.png", "queue-map.png", "drops.png"}


def call(run: Path, to: Path, *more: str) -> int:
    return figures.main([str(run), "--trace", str(run.parent / "in.pcap"), "--to", str(to), *more])


def read_folder(folder: Path) -> dict[str, bytes]:
    return {file.name: file.read_bytes() for file in folder.iterdir()}


def test_page(tmp_path: Path, run_a):
    assert call(DATA / "a", tmp_path / "one") == 0 and call(DATA / "a", tmp_path / "two") == 0
    made = read_folder(tmp_path / "one")
    assert made == read_folder(tmp_path / "two")
    assert set(made) == PICTURES | {"index.html", "packets.csv"}
    assert all(made[name].startswith(b"\x89PNG") and len(made[name]) > 5000 for name in PICTURES)
    page = made["index.html"].decode()
    assert set(re.findall(r'src="([^"]*)"', page)) == PICTURES and "<script" not in page and "http" not in page
    assert page.count("<img") == len(re.findall(r"<img[^>]*>\n<p>[^<]+</p>", page))
    rows = list(csv.DictReader((tmp_path / "one/packets.csv").open()))
    assert (
        len(rows) == 119 and sum(row["fate"] == "full" for row in rows) == 14 and sum(row["fate"] == "loss" for row in rows) == 3
    )
    assert [int(row["delay_ns"]) for row in rows if row["fate"] == "left"] == list(
        run_a.packets["delay"][run_a.packets["fate"] == 0]
    )
    assert all(row["delay_ns"] == "" for row in rows if row["fate"] != "left")


def test_pair(tmp_path: Path):
    assert call(DATA / "a", tmp_path / "page", "--pair", "10.0.0.1,10.0.1.1") == 0
    assert "packets from 10.0.0.1 to 10.0.1.1" in (tmp_path / "page/index.html").read_text()
    assert len((tmp_path / "page/packets.csv").read_text().splitlines()) < 20


def test_other_names(copy: Path, tmp_path: Path):
    (copy / "a/journal.txt").rename(copy / "j")
    assert call(copy / "a", tmp_path / "page", "--journal", str(copy / "j")) == 0


def test_no_packet_arrives(tmp_path: Path, copy: Path):
    """Nothing bound, nothing in the journal: a page all the same."""
    (copy / "a/journal.txt").write_text("modelnet journal 1\n")
    lines = ["modelnet report 1", "packets 120 bound 0 unbound 120 left 0 dropped 0"] + [
        f"unbound {number} cause no-source" for number in range(120)
    ]
    (copy / "a/report.txt").write_text("".join(line + "\n" for line in lines))
    assert call(copy / "a", tmp_path / "page") == 0


@pytest.mark.parametrize(
    "name, line, text",
    [
        ("a/journal.txt", 5, "tick 3 packet"),
        ("a/report.txt", 2, "packets 120"),
        ("a/pipes.txt", 7, "pipe 4"),
        ("a/directory.txt", 12, "change tick"),
    ],
)
def test_refused_by_line(copy: Path, tmp_path: Path, capsys: pytest.CaptureFixture, name: str, line: int, text: str):
    change_line(copy / name, line, text)
    says = refused(lambda words: call(copy / "a", tmp_path / "page", *words), [], capsys)
    assert says.startswith(f"figures: {copy / name}:{line}: ")
    assert not (tmp_path / "page").exists()


def test_refused_files(copy: Path, tmp_path: Path, capsys: pytest.CaptureFixture):
    (copy / "in.pcap").write_bytes(b"text")
    assert "in.pcap: no capture" in refused(lambda words: call(copy / "a", tmp_path / "page"), [], capsys)
    (copy / "in.pcap").unlink()
    assert "in.pcap: No such file" in refused(lambda words: call(copy / "a", tmp_path / "page"), [], capsys)
    (copy / "a/report.txt").unlink()
    (copy / "in.pcap").write_bytes((DATA / "in.pcap").read_bytes())
    assert "report.txt: No such file" in refused(lambda words: call(copy / "a", tmp_path / "page"), [], capsys)
    assert not (tmp_path / "page").exists()


def test_bad_words(capsys: pytest.CaptureFixture):
    for words in (["--pair", "10.0.0.1"], ["--pair", "a,b"], []):
        with pytest.raises(SystemExit) as end:
            figures.main(["run", *words, *(["--trace", "t", "--to", "x"] if words else [])])
        assert end.value.code == 2
