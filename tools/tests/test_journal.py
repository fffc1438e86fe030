"""The journal: as pandas reads it beside a plain reader, and the line of each fault."""
from pathlib import Path

import pytest
from conftest import DATA, QUIET, change_line

from modelnet_tools.faults import BadInput
from modelnet_tools.journal import OUTCOMES, read_journal


def plain(file: Path) -> list[tuple]:
    rows = []
    for line in file.read_text().splitlines()[1:]:
        words = line.split()
        rows.append((*map(int, words[1:8:2]), OUTCOMES.index(words[8]), int(words[10]) if len(words) > 10 else -1))
    return rows


@pytest.mark.parametrize("name", ["a", "b"])
def test_read(name: str):
    file = DATA / name / "journal.txt"
    assert list(read_journal(str(file), QUIET).visits.itertuples(index=False, name=None)) == plain(file)


def test_no_visit(tmp_path: Path):
    (tmp_path / "journal.txt").write_text("modelnet journal 1\n")
    assert len(read_journal(str(tmp_path / "journal.txt"), QUIET).visits) == 0


@pytest.mark.parametrize(
    "line, text",
    [
        (1, "modelnet journal 2"),
        (2, "tick 0 packet 0 hop 0 pipe 7 pass exit 011"),
        (2, "tick +0 packet 0 hop 0 pipe 7 pass exit 11"),
        (2, "tick -1 packet 0 hop 0 pipe 7 pass exit 11"),
        (2, "tick 0  packet 0 hop 0 pipe 7 pass exit 11"),
        (2, "tick 0 packet 0 hop 0 pipe 7 pass exit 11 "),
        (3, "tick 0 packet 1 hop 0 pipe 2 pass exit 15.0"),
        (3, "tick 0 packet 1 hop 0 pipe 2 pass exit"),
        (3, "tick 0 packet 1 hop 0 pipe 2 pass"),
        (3, "tick 0 packet 1 hop 0 pipe 2 lost exit 15"),
        (3, "tick 0 packet 1 hop 0 pipe 2 early"),
        (3, "tick 0 packet 1 hop 0 tube 2 pass exit 15"),
        (3, "tick 0 packet 1 hop 0 pipe 2 pass exit 15 more 1"),
        (3, "tick 0 packet x hop 0 pipe 2 pass exit 15"),
        (4, ""),
        (4, "tick 0 packet 0 hop 0 pipe 7 pass exit 11"),
        (300, "tick 99999 packet 99 hop 0 pipe 7 lost\r"),
    ],
)
def test_refusals(copy: Path, line: int, text: str):
    file = copy / "a/journal.txt"
    line = min(line, len(file.read_text().splitlines()) + 1)
    change_line(file, line, text)
    with pytest.raises(BadInput) as refusal:
        read_journal(str(file), QUIET)
    assert str(refusal.value).startswith(f"{file}:{line}: ")


def test_cut_short(copy: Path):
    file = copy / "a/journal.txt"
    file.write_bytes(file.read_bytes()[:-3])
    with pytest.raises(BadInput) as refusal:
        read_journal(str(file), QUIET)
    assert refusal.value.line == len(file.read_bytes().splitlines())
