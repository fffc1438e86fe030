"""The tool `partition`: a cut of slow links, evenly shared work, and a lookahead that the program agrees to."""
import random
from pathlib import Path

import pytest
from conftest import DATA, QUIET, change_line, refused

from modelnet_tools import partition
from modelnet_tools.journal import read_journal
from modelnet_tools.partition import (
    NO_LOOKAHEAD,
    directory_text,
    graph_of,
    lookahead,
    owners_of,
    pieces_of,
    split,
    work_in,
    work_of,
)
from modelnet_tools.texts import Pipes, read_directory, read_pipes


def write_pipes(file: Path, links: list[tuple[int, int, int]]) -> Pipes:
    """Two pipes for each (node, node, ticks)."""
    ends = [pair for one, other, ticks in links for pair in ((one, other, ticks), (other, one, ticks))]
    lines = ["modelnet pipes 1", f"mode hop tick-ns 100000 pipes {len(ends)}"]
    lines += [
        f"pipe {number} from {start} to {end} bps 10000000 us {ticks * 100} ticks {ticks} queue 50 keep 4294967296 links 1"
        for number, (start, end, ticks) in enumerate(ends)
    ]
    file.write_text("".join(line + "\n" for line in lines))
    return read_pipes(str(file))


def sites(count: int) -> list[tuple[int, int, int]]:
    """Sites of four nodes each, joined within by 2 ticks, in a ring of links of 300 ticks, and numbered across the sites."""
    inner = [(site + count * a, site + count * b, 2) for site in range(count) for a, b in ((0, 1), (0, 2), (0, 3))]
    return inner + [(site, (site + 1) % count, 300) for site in range(count)]


@pytest.mark.parametrize("cores", [2, 3, 4, 6, 12])
def test_sites(tmp_path: Path, cores: int):
    pipes = write_pipes(tmp_path / "p", sites(12))
    parts = split(graph_of(pipes, work_of(pipes, None)), cores, 1.25)
    owners = owners_of(pipes, parts)
    assert lookahead(pipes, owners)[0] == 300
    assert max(map(owners.count, range(cores))) <= 1.25 * len(owners) / cores


def test_more_cores_than_sites(tmp_path: Path):
    """Two sites cannot be shared by four cores along the slow links: fast ones are cut, and evenness comes first."""
    pipes = write_pipes(
        tmp_path / "p", [(0, 1, 300)] + [(site, 2 * number + site, 2) for site in (0, 1) for number in range(1, 9)]
    )
    owners = owners_of(pipes, split(graph_of(pipes, work_of(pipes, None)), 4, 1.25))
    assert lookahead(pipes, owners)[0] == 2


def test_one_core(tmp_path: Path):
    pipes = write_pipes(tmp_path / "p", sites(4))
    owners = owners_of(pipes, split(graph_of(pipes, work_of(pipes, None)), 1, 1.25))
    assert set(owners) == {0} and lookahead(pipes, owners) == (NO_LOOKAHEAD, None)


def test_leaves_lead_nowhere(tmp_path: Path):
    """From a leaf a packet goes on only to where it came from, which no route does."""
    pipes = write_pipes(tmp_path / "p", [(0, 1, 5), (1, 2, 7)])
    assert lookahead(pipes, [0, 1, 0, 1]) == (NO_LOOKAHEAD, None)
    assert lookahead(pipes, [0, 0, 1, 1]) == (5, 0)
    assert lookahead(pipes, [0, 0, 0, 1]) == (7, 3)


def least_walk(pipes: Pipes, start: int, end: int) -> list[int]:
    import heapq

    heap, seen = [(0, 0, [], start)], set()
    while heap:
        us, hops, walk, node = heapq.heappop(heap)
        if node == end:
            return walk
        if node not in seen:
            seen.add(node)
            for row in pipes.table[pipes.table["from"] == node].itertuples():
                heapq.heappush(heap, (us + row.us, hops + 1, [*walk, row.pipe], row.to))
    return []


@pytest.mark.parametrize("seed", range(6))
def test_random(tmp_path: Path, seed: int):
    """On no route does a packet change cores after a pipe that is faster than the lookahead; all pipes are owned, and work is as
    even as asked.
    """
    draw = random.Random(seed)
    links = [(node, draw.randrange(node), draw.choice((1, 2, 50, 200, 900))) for node in range(1, 16)]
    links += [(one, other, draw.choice((1, 50, 200))) for one, other in (draw.sample(range(16), 2) for _ in range(6))]
    pipes = write_pipes(tmp_path / "p", links)
    graph = graph_of(pipes, work_of(pipes, None))
    cores = draw.randint(2, 4)
    parts = split(graph, cores, 1.5)
    owners = owners_of(pipes, parts)
    ticks, _pipe = lookahead(pipes, owners)
    assert sorted(node for part in parts for node in part) == sorted(graph.nodes)
    assert max(work_in(graph, part) for part in parts) <= max(
        1.5 * len(owners) / cores, max(work_in(graph, piece) for piece in pieces_of(graph, 0))
    )
    for start in range(16):
        for end in range(16):
            walk = least_walk(pipes, start, end)
            assert all(owners[one] == owners[other] or pipes.table["ticks"][one] >= ticks for one, other in zip(walk, walk[1:]))


def test_the_program_agrees():
    pipes = read_pipes(str(DATA / "b/pipes.txt"))
    directory = read_directory(str(DATA / "b/partitioned.txt"), len(pipes.table))
    said = (DATA / "b/cluster.txt").read_text().splitlines()[1].split()
    assert said[:2] == ["cores", "2"] and int(said[3]) == lookahead(pipes, directory.owners)[0] == 200


def test_same_text_each_time(tmp_path: Path, capsys: pytest.CaptureFixture):
    words = ["--pipes", str(DATA / "b/pipes.txt"), "--cores", "2"]
    assert partition.main(words) == 0 and partition.main([*words, "--to", str(tmp_path / "d")]) == 0
    told = capsys.readouterr()
    assert told.out == (tmp_path / "d").read_text() == (DATA / "b/partitioned.txt").read_text()
    assert "lookahead 200 ticks: pipe 4 (2 to 3)" in told.err


def test_work_by_visits():
    pipes = read_pipes(str(DATA / "b/pipes.txt"))
    visits = read_journal(str(DATA / "b/journal.txt"), QUIET).visits
    assert list(work_of(pipes, visits)) == [int((visits["pipe"] == pipe).sum()) for pipe in range(10)]


def test_no_pipe(tmp_path: Path):
    write_pipes(tmp_path / "p", [])
    assert partition.main(["--pipes", str(tmp_path / "p"), "--cores", "3", "--to", str(tmp_path / "d")]) == 0
    assert (tmp_path / "d").read_text() == directory_text([], 3)


def test_refused(copy: Path, tmp_path: Path, capsys: pytest.CaptureFixture):
    words = [
        "--pipes",
        str(copy / "b/pipes.txt"),
        "--cores",
        "2",
        "--to",
        str(tmp_path / "d"),
        "--journal",
        str(copy / "b/journal.txt"),
    ]
    change_line(copy / "b/journal.txt", 2, "tick 0 packet 0 hop 0 pipe 10 pass exit 11")
    assert refused(partition.main, words, capsys).startswith(f"partition: {copy}/b/journal.txt:2: pipe 10")
    change_line(copy / "b/pipes.txt", 4, "pipe 1")
    assert refused(partition.main, words, capsys).startswith(f"partition: {copy}/b/pipes.txt:4: ")
    assert not (tmp_path / "d").exists()
    for words in (["--cores", "0"], ["--cores", "17"], ["--cores", "2", "--uneven", "99"]):
        with pytest.raises(SystemExit):
            partition.main(["--pipes", str(copy / "b/pipes.txt"), *words])
