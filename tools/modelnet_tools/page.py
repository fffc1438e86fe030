"""The page that shows pictures and tables: one file of HTML beside its pictures, without scripts and without anything from
elsewhere.
"""
import html
from pathlib import Path
from typing import Sequence

import pandas

from .series import busiest, counts, delay_table, lossiest
from .run import Run
from .style import Picture

STYLE = """
body { font: 15px/1.45 sans-serif; max-width: 1280px; margin: 2em auto; padding: 0 1em; color: #12263f; }
img { max-width: 100%; border: 1px solid #ddd; } h1 { font-size: 1.5em; } h2 { font-size: 1.15em; margin-top: 2em; }
table { border-collapse: collapse; margin: .4em 0; } th, td { padding: .15em .7em; text-align: right; border-bottom: 1px solid #ddd; }
th { border-bottom: 2px solid #12263f; } td:first-child, th:first-child { text-align: left; }
.tables { display: flex; flex-wrap: wrap; gap: 0 3em; }
"""


def table(rows: Sequence[Sequence[str]]) -> str:
    """A table of texts, the first row being its head."""
    cells = [[html.escape(text) for text in row] for row in rows]
    lines = ["".join(f"<th>{text}</th>" for text in cells[0])] + [
        "".join(f"<td>{text}</td>" for text in row) for row in cells[1:]
    ]
    return "<table>\n" + "".join(f"<tr>{line}</tr>\n" for line in lines) + "</table>\n"


def three_places(value: float) -> str:
    return f"{round(value, 3) + 0.0:,.3f}"  # no -0.000


def delays(run: Run) -> str:
    found = delay_table(run)
    rows = [["ms", *found.columns]]
    rows += [[part, *map(three_places, values)] for part, values in zip(found.index, found.to_numpy())]
    return table(rows)


def pipes(found: pandas.DataFrame) -> str:
    rows = [
        [
            "pipe",
            "from",
            "to",
            "Mbit/s",
            "latency ms",
            "queue",
            "visits",
            "passed",
            "lost",
            "full",
            "dropped",
            "busy",
            "mean wait ms",
        ]
    ]
    for pipe, row in found.iterrows():
        rows.append(
            [
                str(pipe),
                f"{row['from']:.0f}",
                f"{row['to']:.0f}",
                f"{row['bps'] / 1e6:g}",
                f"{row['us'] / 1e3:g}",
                f"{row['queue']:.0f}",
                f"{row['visits']:,.0f}",
                f"{row['passed']:,.0f}",
                f"{row['lost']:,.0f}",
                f"{row['full']:,.0f}",
                f"{row['dropped_share']:.2%}",
                f"{row['busy_share']:.2%}",
                f"{row['wait_ms']:.3f}",
            ]
        )
    return table(rows) if len(rows) > 1 else "<p>None.</p>\n"


def summary(runs: list[Run]) -> str:
    rows = [["", *(run.name for run in runs)]]
    rows.append(["packets of the trace", *(f"{run.report.packets:,}" for run in runs)])
    found = [counts(run) for run in runs]
    for key, name in (
        ("bound", "bound to the topology"),
        ("left", "arrive"),
        ("dropped", "dropped"),
        ("full", "of these: queue full"),
        ("lost", "of these: loss"),
    ):
        rows.append([name, *(f"{each[key]:,}" for each in found)])
    rows.append(["mode, tick", *(f"{run.pipes.mode}, {run.tick_ns / 1000:g} us" for run in runs)])
    return table(rows)


def side_by_side(runs: list[Run], texts: Sequence[str]) -> str:
    if len(runs) == 1:
        return texts[0]
    return (
        '<div class="tables">'
        + "".join(f"<div><h3>{html.escape(run.name)}</h3>\n{text}</div>\n" for run, text in zip(runs, texts))
        + "</div>\n"
    )


def tables(runs: list[Run]) -> str:
    whose = "" if runs[0].pair is None else f" (packets from {runs[0].pair[0]} to {runs[0].pair[1]} alone)"
    changed = " Bandwidth, latency and queue are those before any change." if any(run.changes is not None for run in runs) else ""
    parts = [
        (
            "Delay in numbers",
            [delays(run) for run in runs],
            "Of the packets that arrive. Delay is the time in the output trace less that in the input trace; rounding is what ticks "
            "add to it or take from it.",
        ),
        (
            "The ten busiest pipes",
            [pipes(busiest(run)) for run in runs],
            f"Busy is the share of the whole time in which the pipe transmits{whose}.{changed}",
        ),
        ("The ten lossiest pipes", [pipes(lossiest(run)) for run in runs], f"The pipes that drop most packets{whose}.{changed}"),
    ]
    return "".join(f"<h2>{title}</h2>\n{side_by_side(runs, texts)}<p>{html.escape(says)}</p>\n" for title, texts, says in parts)


def page(title: str, introduction: str, runs: list[Run], pictures: list[Picture], further: str = "") -> str:
    """`further` is HTML that stands below the sums."""
    shown = "".join(
        f'<h2>{html.escape(each.title)}</h2>\n<img src="{each.file}" alt="{html.escape(each.title)}">\n<p>{html.escape(each.says)}</p>\n'
        for each in pictures
    )
    return (
        f'<!DOCTYPE html>\n<html lang="en">\n<head><meta charset="utf-8"><title>{html.escape(title)}</title>\n'
        f"<style>{STYLE}</style></head>\n<body>\n"
        f"<h1>{html.escape(title)}</h1>\n<p>{html.escape(introduction)}</p>\n"
        f"{summary(runs)}{further}{shown}{tables(runs)}</body>\n</html>\n"
    )


def write_folder(folder: str, text: str, pictures: list[Picture]) -> None:
    """Written last, when everything has been read, checked and drawn."""
    Path(folder).mkdir(parents=True, exist_ok=True)
    for picture in pictures:
        Path(folder, picture.file).write_bytes(picture.png)
    Path(folder, "index.html").write_text(text, encoding="utf-8")
