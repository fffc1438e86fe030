"""How pictures look: colours that differ in grey, too, each with a stroke of its own; legends above the axes; files without
dates.
"""
import io
from dataclasses import dataclass

import matplotlib

matplotlib.use("Agg")

from matplotlib import pyplot  # noqa: E402  (after the backend is chosen)
from matplotlib.axes import Axes  # noqa: E402
from matplotlib.figure import Figure  # noqa: E402

DARK, WARM, COOL, PALE = "#12263f", "#b8471b", "#5c9ccc", "#bcbcbc"
STROKES = ((DARK, "-"), (WARM, "--"), (COOL, "-."), (PALE, ":"))
BAR_HATCHES = ("", "//", "..", "xx")
DPI = 100

pyplot.rcParams.update(
    {
        "font.size": 9,
        "axes.titlesize": 9,
        "axes.titlelocation": "left",
        "axes.spines.top": False,
        "axes.spines.right": False,
        "axes.grid": True,
        "grid.color": "#dddddd",
        "grid.linewidth": 0.6,
        "axes.axisbelow": True,
        "legend.frameon": False,
        "figure.dpi": DPI,
        "savefig.dpi": DPI,
        "figure.constrained_layout.use": True,
        "agg.path.chunksize": 20000,
    }
)


@dataclass(frozen=True)
class Picture:
    """A picture as it is written: its file name, its heading, the line below it, and its bytes."""

    file: str
    title: str
    says: str
    png: bytes


def panels(rows: int, columns: int, height: float, share_y: object = "row") -> tuple[Figure, list[list[Axes]]]:
    """Rows of axes of one height in inches, with one time axis; one column for each run."""
    figure, axes = pyplot.subplots(
        rows, columns, figsize=(8.6 if columns == 1 else 12.4, rows * height), sharex=True, sharey=share_y, squeeze=False
    )
    return figure, [list(row) for row in axes]


def legend_above(axes: Axes, columns: int = 4) -> None:
    """A legend that stands above the axes, where it hides nothing."""
    handles, labels = axes.get_legend_handles_labels()
    if handles:
        axes.legend(
            handles,
            labels,
            loc="lower left",
            bbox_to_anchor=(0, 1.0),
            ncol=columns,
            borderaxespad=0.2,
            handlelength=2.6,
            columnspacing=1.2,
        )


def png_of(figure: Figure) -> bytes:
    """The picture's bytes; no date and no version is in them."""
    stream = io.BytesIO()
    figure.savefig(stream, format="png", metadata={"Software": None})
    pyplot.close(figure)
    return stream.getvalue()
