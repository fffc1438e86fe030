"""Draws four-cores.png from the two cluster reports."""
import re
from pathlib import Path

from modelnet_tools.faults import BadInput
from modelnet_tools.style import BAR_HATCHES, COOL, DARK, png_of, pyplot

RUNS = (("assign", DARK), ("partition", COOL))
TITLES = {"lookahead": "lookahead (ticks of 10 us)", "windows": "windows", "notes": "notes from core to core"}


def cluster(file: str) -> dict[str, int]:
    """Lookahead and windows, and the notes that all cores sent."""
    lines = Path(file).read_text().splitlines()
    match = re.fullmatch(r"cores 4 lookahead (\d+) windows (\d+)", lines[1])
    if match is None:
        raise BadInput(file, 2, "not `cores 4 lookahead N windows N`")
    notes = sum(int(word) for line in lines[2:] for word in re.findall(r"(?:arrivals|settles) (\d+)", line))
    return {"lookahead": int(match[1]), "windows": int(match[2]), "notes": notes}


figure, axes = pyplot.subplots(1, len(TITLES), figsize=(8.6, 3.0))
found = [cluster(f"out/{name}.cluster.txt") for name, _colour in RUNS]
expected = int(re.search(r"lookahead (\d+) ticks", Path("out/expected.txt").read_text())[1])
if expected != found[1]["lookahead"]:
    raise SystemExit(f"partition expects a lookahead of {expected} ticks, and the cluster report says {found[1]['lookahead']}")
for here, (key, title) in zip(axes, TITLES.items()):
    for place, ((name, colour), values, hatch) in enumerate(zip(RUNS, found, BAR_HATCHES)):
        bar = here.bar(place, values[key], 0.6, color=colour, hatch=hatch, edgecolor="white")
        here.bar_label(bar, [f"{values[key]:,}"])
    here.set_title(title)
    here.set_xticks(range(len(RUNS)), [name for name, _colour in RUNS])
    here.margins(y=0.15)
    here.grid(axis="x", visible=False)
Path("four-cores.png").write_bytes(png_of(figure))
for (name, _colour), values in zip(RUNS, found):
    print(name, values)
