"""Draws bottleneck.png from the three runs: the distribution of delays, and delay against loss."""
import numpy

from modelnet_tools.capture import read_trace
from modelnet_tools.pictures import distribution
from modelnet_tools.progress import Progress
from modelnet_tools.run import DROPPED, LEFT, Run, RunFiles, load_run
from modelnet_tools.style import STROKES, legend_above, png_of, pyplot

PROGRESS = Progress("bottleneck")
QUEUES = (10, 50, 200)
MARKS = ("o", "s", "^")


def delays_ms(run: Run) -> numpy.ndarray:
    return run.packets["delay"][run.packets["fate"] == LEFT].to_numpy() / 1e6


def draw(runs: list[Run]) -> bytes:
    figure, (left, right) = pyplot.subplots(1, 2, figsize=(9.6, 3.6), width_ratios=(1.5, 1))
    for run, queue, look, mark in zip(runs, QUEUES, STROKES, MARKS):
        distribution(left, delays_ms(run), f"queue of {queue}", look)
        low, middle, high = numpy.percentile(delays_ms(run), [1, 50, 99])
        loss = 100 * (run.packets["fate"] == DROPPED).mean()
        right.errorbar(
            loss, middle, [[middle - low], [high - middle]], color=look[0], marker=mark, markersize=8, capsize=4, linewidth=1.6
        )
        right.annotate(f"  {queue}", (loss, middle), va="center", ha="left", xytext=(4, 0), textcoords="offset points")
        print(f"queue {queue}: {loss:.1f} % dropped, median delay {middle:.1f} ms, 99th percentile {high:.1f} ms")
    left.set(xlabel="delay of the packets that arrive (ms)", ylabel="share with at most this", ylim=(0, 1.02))
    left.set_xlim(left=0)
    legend_above(left)
    right.set(xlabel="packets dropped (%)", ylabel="delay (ms): median, 1st to 99th percentile")
    right.set_xlim(-2, 1.25 * right.get_xlim()[1])
    right.set_ylim(bottom=0)
    return png_of(figure)


trace = read_trace("bursts.pcap", PROGRESS)
pictures = draw([load_run(f"queue of {queue}", RunFiles.in_folder(f"out/queue-{queue}"), trace, PROGRESS) for queue in QUEUES])
with open("bottleneck.png", "wb") as file:
    file.write(pictures)
