"""Draws sweep.png from the runs in out/runs: loss and delay over the grid. It is called in out."""
import numpy
from grid import MBITS, QUEUES, name
from matplotlib.colors import LogNorm, Normalize

from modelnet_tools.capture import Trace, read_trace
from modelnet_tools.progress import Progress
from modelnet_tools.run import DROPPED, LEFT, RunFiles, load_run
from modelnet_tools.style import png_of, pyplot

PROGRESS = Progress("sweep", quiet=True)


def point(trace: Trace, mbits: int, queue: int) -> tuple[float, float]:
    """Per cent dropped, and the 95th percentile of the delay in ms."""
    run = load_run(name(mbits, queue), RunFiles.in_folder(f"runs/{name(mbits, queue)}"), trace, PROGRESS)
    delays = run.packets["delay"][run.packets["fate"] == LEFT] / 1e6
    return 100 * float((run.packets["fate"] == DROPPED).mean()), float(numpy.percentile(delays, 95))


def short(value: float) -> str:
    """Whole numbers, but for those between 0 and 1."""
    return f"{value:.1f}" if 0 < value < 1 else f"{value:.0f}"


def heat(figure, axes, table: numpy.ndarray, title: str, norm: Normalize) -> None:
    """A grey for each point, with its number in it."""
    image = axes.imshow(table, cmap="Greys", origin="lower", aspect="auto", norm=norm)
    for row, column in numpy.ndindex(table.shape):
        dark = norm(table[row, column]) > 0.5
        axes.text(
            column, row, short(table[row, column]), ha="center", va="center", fontsize=7, color="white" if dark else "black"
        )
    axes.set_xticks(range(len(MBITS)), MBITS)
    axes.set_yticks(range(len(QUEUES)), QUEUES)
    axes.set(xlabel="bandwidth (Mbit/s)", title=title)
    axes.grid(False)
    figure.colorbar(image, ax=axes, aspect=40)


bursts = read_trace("../bursts.pcap", PROGRESS)
grid = numpy.array([[point(bursts, mbits, queue) for mbits in MBITS] for queue in QUEUES])
picture, (left, right) = pyplot.subplots(1, 2, figsize=(13.2, 5.0))
heat(picture, left, grid[:, :, 0], "packets dropped (%)", Normalize(0, 100))
heat(picture, right, grid[:, :, 1], "95th percentile of the delay (ms)", LogNorm(10, grid[:, :, 1].max()))
left.set_ylabel("queue limit (packets)")
with open("../sweep.png", "wb") as file:
    file.write(png_of(picture))
for mbits, queue in ((5, 20), (5, 200), (10, 20), (10, 200)):
    loss, delay = grid[QUEUES.index(queue), MBITS.index(mbits)]
    print(f"{mbits} Mbit/s, queue of {queue}: {loss:.1f} % dropped, 95th percentile of the delay {delay:.1f} ms")
