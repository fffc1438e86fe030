"""Graphs of any kind that NetworkX reads: GML, GraphML and edge lists, with the line of what it can't read."""
import re
from pathlib import Path
from typing import Optional, Sequence
from xml.etree.ElementTree import ParseError

import networkx

from .faults import BadInput

PLACE = re.compile(r" at \((\d+), \d+\)|line (\d+), column")
ITEM = re.compile(r"(node|edge) #(\d+)")
TWICE = re.compile(r"node (id|label) (.*) is duplicated")
PARALLEL = re.compile(r"edge #\d+ \(.*\) is duplicated")


def line_of_match(text: str, pattern: str, number: int) -> Optional[int]:
    """The line of the match with this number, from 0."""
    for count, match in enumerate(re.finditer(pattern, text, re.MULTILINE)):
        if count == number:
            return text.count("\n", 0, match.end()) + 1
    return None


def gml_line(text: str, said: str) -> Optional[int]:
    """The line that a fault of NetworkX's reader is about: it names a place, an item by its number, or an id that stands
    twice.
    """
    if match := PLACE.search(said):
        return int(match[1])
    if match := ITEM.search(said):
        return line_of_match(text, rf"^\s*{match[1]}\b", int(match[2]))
    if match := TWICE.search(said):
        return line_of_match(text, rf'\b{match[1]}\s+"?{re.escape(match[2].strip(chr(39)))}"?(?![\w.])', 1)
    return None


def parse_gml(text: str) -> networkx.Graph:
    """Nodes by their ids; two edges between the same nodes make a graph of parallel links, also where the file doesn't say that
    it is one.
    """
    try:
        return networkx.parse_gml(text.splitlines(), label="id")
    except networkx.NetworkXError as fault:
        if not PARALLEL.search(str(fault)):
            raise
    return networkx.parse_gml(re.sub(r"\bgraph\s*\[", "graph [ multigraph 1", text, count=1).splitlines(), label="id")


def read_gml(file: str) -> networkx.Graph:
    text = Path(file).read_bytes().decode("utf-8", errors="replace")
    text = "".join(letter if ord(letter) < 128 else f"&#{ord(letter)};" for letter in text)  # as GML has them
    try:
        return parse_gml(text)
    except (networkx.NetworkXError, ValueError, TypeError, IndexError) as fault:
        raise BadInput(file, gml_line(text, str(fault)), f"no GML that NetworkX reads: {str(fault).splitlines()[0]}") from None


def read_graphml(file: str) -> networkx.Graph:
    try:
        return networkx.read_graphml(file)
    except ParseError as fault:
        raise BadInput(file, fault.position[0], f"no XML: {fault}") from None
    except (networkx.NetworkXError, ValueError, KeyError) as fault:
        raise BadInput(file, None, f"no GraphML that NetworkX reads: {fault}") from None


def read_edges(file: str, columns: Sequence[str]) -> networkx.Graph:
    """An edge a line: two names, and what `columns` names (numbers), or a dictionary as NetworkX writes it."""
    graph = networkx.MultiGraph()
    data = [(name, float) for name in columns] if columns else True
    for number, line in enumerate(Path(file).read_text(encoding="utf-8", errors="replace").splitlines(), 1):
        if not line.split("#")[0].strip():
            continue
        try:
            edge = networkx.parse_edgelist([line], data=data)
        except (TypeError, IndexError, ValueError) as fault:
            raise BadInput(file, number, f"no edge: {fault}") from None
        if edge.number_of_edges() != 1:
            raise BadInput(file, number, "no edge: two names are wanted")
        graph.add_edges_from(edge.edges(data=True))
    return graph


def read_graph(file: str, form: Optional[str], columns: Sequence[str]) -> networkx.Graph:
    """By its form, or by what its name ends in: .gml, .graphml or .xml, and an edge list otherwise."""
    ending = {".gml": "gml", ".graphml": "graphml", ".xml": "graphml"}.get(Path(file).suffix.lower(), "edges")
    form = form or ending
    if form == "gml":
        return read_gml(file)
    return read_graphml(file) if form == "graphml" else read_edges(file, columns)
