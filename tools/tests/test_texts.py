"""Reports, pipes and directories: what is read of the kept ones, and the line that each fault names."""
from pathlib import Path

import pytest
from conftest import DATA, change_line

from modelnet_tools.faults import BadInput
from modelnet_tools.texts import read_directory, read_pipes, read_report


def test_report():
    report = read_report(str(DATA / "a/report.txt"))
    assert (report.packets, report.bound, report.unbound, report.left, report.dropped) == (120, 119, 1, 102, 17)
    assert len(report.drops) == 17 and report.pipes["lost"].sum() == 3 and report.pipes["full"].sum() == 14
    assert list(report.unbounds["packet"]) == [20] and list(report.unbounds["cause"]) == ["no-source"]


def test_pipes():
    pipes = read_pipes(str(DATA / "a/pipes.txt"))
    assert (pipes.mode, pipes.tick_ns, len(pipes.table)) == ("hop", 100_000, 10)
    assert pipes.name(4) == "pipe 4 (2 to 3)" and pipes.table["queue"][4] == 6


def test_directory():
    directory = read_directory(str(DATA / "a/directory.txt"), 10)
    assert (
        directory.owners == [0] * 10
        and list(directory.changes["tick"]) == [400, 800]
        and list(directory.changes["queue"]) == [4, 6]
    )


READERS = {"report.txt": read_report, "pipes.txt": read_pipes, "directory.txt": lambda file: read_directory(file, 10)}


@pytest.mark.parametrize(
    "name, line, text",
    [
        ("report.txt", 1, "modelnet report 2"),
        ("report.txt", 2, "packets 120 bound 119 unbound 1 left 102 dropped 18"),
        ("report.txt", 3, "pipe 0 passed 27 lost 0"),
        ("report.txt", 15, "pipe 0 passed 27 lost 0 full 0"),
        ("report.txt", 20, "drop 3 pipe 4 tick 5 cause early"),
        ("report.txt", 16, "drop 3 pipe 4 tick 5 cause é"),
        ("pipes.txt", 1, "modelnet pipes"),
        ("pipes.txt", 2, "mode hop pipes 10"),
        ("pipes.txt", 5, "pipe 3 from 2 to 1 bps 10000000 us 1000 ticks 10 queue 50 keep 4294967296 links 1"),
        ("pipes.txt", 6, "pipe 3 from 2 to 1 bps 0 us 1000 ticks 10 queue 50 keep 4294967296 links 1"),
        ("pipes.txt", 13, "pipe 10 from 2 to 1 bps 1000 us 1000 ticks 10 queue 50 keep 4294967296 links 1"),
        ("directory.txt", 1, "modelnet-directory 2 cores 1 pipes 11 changes 2"),
        ("directory.txt", 3, "pipe 0 core 0"),
        ("directory.txt", 4, "pipe 2 core 1"),
        ("directory.txt", 12, "change tick 400 pipe 10 bps 500000 us 30000 queue 4 ppm 0"),
        ("directory.txt", 13, "change tick 400 pipe 4 bps 500000 us 30000 queue 4 ppm 0"),
    ],
)
def test_refusals(copy: Path, name: str, line: int, text: str):
    file = copy / "a" / name
    change_line(file, line, text)
    with pytest.raises(BadInput) as refusal:
        READERS[name](str(file))
    assert str(refusal.value).startswith(f"{file}:{line}: ")


def test_directory_with_too_few_changes(copy: Path):
    file = copy / "a/directory.txt"
    file.write_text("".join(file.read_text().splitlines(keepends=True)[:-1]))
    with pytest.raises(BadInput, match="1 changes follow"):
        read_directory(str(file), 10)


def test_empty_files(copy: Path):
    for name, reader in READERS.items():
        (copy / "a" / name).write_text("")
        with pytest.raises(BadInput) as refusal:
            reader(str(copy / "a" / name))
        assert refusal.value.line == 1
