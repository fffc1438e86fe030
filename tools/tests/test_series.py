"""Series and tables beside plain counts."""
import numpy
import pandas
import pytest
from conftest import QUIET

from modelnet_tools.journal import FULL, LOST, PASS
from modelnet_tools.run import LEFT, narrow
from modelnet_tools.series import (
    NS,
    busiest,
    counts,
    delay_table,
    delivered,
    drops,
    edges,
    highest,
    limits,
    longest_queues,
    lossiest,
    nice_width,
    offered,
    pipe_table,
    pipes_to_show,
    queue_steps,
    span,
)


@pytest.mark.parametrize(
    "span_ns, bins, width",
    [(0, 10, 1), (9, 10, 1), (10, 10, 2), (199, 10, 20), (200, 10, 50), (999, 10, 100), (10**9, 150, 10**7)],
)
def test_nice_width(span_ns: int, bins: int, width: int):
    assert nice_width(span_ns, bins) == width


def test_edges_cover(run_a, run_b):
    start, end = span([run_a, run_b])
    bounds = edges([run_a, run_b], 150)
    assert bounds[0] <= start and end < bounds[-1] and len(bounds) <= 153 and len(set(numpy.diff(bounds))) == 1


def test_rates_are_all_bytes(run_a):
    bounds = edges([run_a], 40)
    left = run_a.packets[run_a.packets["fate"] == LEFT]
    seconds = numpy.diff(bounds) / NS
    assert (offered(run_a, bounds) * seconds).sum() == pytest.approx(8 * run_a.packets["length"].sum())
    assert (delivered(run_a, bounds) * seconds).sum() == pytest.approx(8 * left["length"].sum())


@pytest.mark.parametrize("pipe", range(10))
def test_queue_steps(run_a, pipe: int):
    """At each arrival as many are there before it as the queue's rule counts."""
    times, levels = queue_steps(run_a, pipe)
    theirs = run_a.visits[run_a.visits["pipe"] == pipe]
    passed = theirs[theirs["outcome"] == PASS]
    assert not len(levels) or (levels[-1] == 0 and levels.min() >= 0)
    for visit in theirs.itertuples():
        now = visit.tick * run_a.tick_ns
        waiting = int(((passed.index < visit.Index) & (passed["finish_ns"] > now)).sum())
        assert (visit.outcome == FULL) == (waiting >= visit.queue) or visit.outcome == LOST
    assert longest_queues(run_a).get(pipe, 0) == max(levels, default=0)


def test_highest():
    times, levels = numpy.array([5, 12, 12, 31]), numpy.array([1, 2, 1, 0])
    assert list(highest(times, levels, numpy.array([0, 10, 20, 30, 40, 50]))) == [1, 2, 1, 1, 0]


def test_limits(run_a, run_b):
    assert [list(each) for each in limits(run_a, 4)] == [[0, 40_000_000, 80_000_000], [6, 4, 6]]
    assert [list(each) for each in limits(run_b, 4)] == [[0], [30]]


def test_tables(run_a):
    table = pipe_table(run_a)
    theirs = run_a.report.pipes.set_index("pipe")
    pandas.testing.assert_frame_equal(
        table[["passed", "lost", "full"]], theirs[["passed", "lost", "full"]], check_dtype=False, check_names=False
    )
    assert lossiest(run_a).index[0] == 4 and set(lossiest(run_a).index) == {4, 5}
    assert set(busiest(run_a).index[:2]) == {4, 5} and len(busiest(run_a, 3)) == 3
    assert counts(run_a) == {"bound": 119, "left": 102, "dropped": 17, "lost": 3, "full": 14}
    assert len(drops(run_a)) == 17


def test_delay_table(run_b):
    left = run_b.packets[run_b.packets["fate"] == LEFT]
    table = delay_table(run_b)
    assert table.loc["delay", "greatest"] == left["delay"].max() / 1e6 and table.loc["delay", "mean"] == pytest.approx(
        table["mean"].iloc[1:].sum()
    )


def test_tables_of_a_pair(run_a):
    pair = narrow(run_a, ("10.0.0.1", "10.0.1.1"), QUIET)
    assert set(pipe_table(pair).index) <= {0, 4, 6} and set(longest_queues(pair).index) <= {0, 4, 6}
    assert pipe_table(pair)["visits"].iloc[0] == len(pair.packets) == counts(pair)["bound"]


def test_same_pipes_in_both_columns(run_a, run_b):
    first, second = pipes_to_show([run_a, run_b], 3)
    assert first == second and len(first) == 3 and {4, 5} < set(first)
