"""The tool `topology`: what is read of graphs of three forms, what is assumed, and what is refused."""
import re
from pathlib import Path

import networkx
import pytest
from conftest import DATA, QUIET, refused

from modelnet_tools import topology
from modelnet_tools.capture import read_addresses
from modelnet_tools.graphs import read_gml
from modelnet_tools.topology import US_PER_KM, kilometres, speed_of

ZOO = str(DATA / "zoo.gml")


def made(tmp_path: Path, *words: str) -> networkx.Graph:
    assert topology.main([*words, "--to", str(tmp_path / "g.gml")]) == 0
    return networkx.read_gml(tmp_path / "g.gml")


def in_profile(text: str) -> bool:
    """Whole numbers or texts alone, and plain ASCII."""
    return text.isascii() and not re.search(r"\d\.\d(?![\d.]*\")|[-+]\d|INF|NAN", text)


def test_zoo(tmp_path: Path, capsys: pytest.CaptureFixture):
    graph = made(tmp_path, ZOO)
    assert list(graph.nodes) == ["Zürich", "Genève", "Lugano", "None (3)", "None (4)"]
    assert dict(graph.nodes(data="address")) == {
        "Zürich": None,
        "Genève": None,
        "Lugano": None,
        "None (3)": "10.0.0.1",
        "None (4)": "10.0.0.2",
    }
    found = sorted((int(edge["bandwidth"]), edge["latency"]) for _one, _other, edge in graph.edges(data=True))
    assert found == [
        (100_000_000, 1000),
        (100_000_000, 1000),
        (155_000_000, 1068),
        (2_488_320_000, 754),
        (2_500_000_000, 1068),
        (10_000_000_000, 1098),
    ]
    assert in_profile((tmp_path / "g.gml").read_text())
    told = capsys.readouterr().err
    for line in (
        "5 nodes, 6 edges, 2 nodes with addresses",
        "latency of 4 edges: coordinates",
        "latency of 2 edges: assumed (1000 us)",
        "bandwidth of 2 edges: LinkLabel",
        "bandwidth of 2 edges: assumed (100000000 bit/s)",
        "1 edges from a node to itself are left out",
    ):
        assert f"topology: {line}\n" in told


def test_light_in_fibre():
    """Zürich to Genève are 224 km, and light in fibre takes about 4.9 us for a kilometre."""
    assert kilometres((47.36667, 8.55), (46.20222, 6.14569)) == pytest.approx(224.2, abs=0.5)
    assert US_PER_KM == pytest.approx(4.9, abs=0.01)
    assert kilometres((0, 179), (0, -179)) == pytest.approx(222.4, abs=0.1)


@pytest.mark.parametrize(
    "text, bps",
    [
        ("10 Gbps", 10**10),
        ("10Gb/s", 10**10),
        ("34 Mbit/s", 34 * 10**6),
        ("2.5 Gbit/s", 2.5 * 10**9),
        ("64kbps", 64_000),
        ("OC-48", 2_488_320_000),
        ("STM-16", 2_488_320_000),
        ("T-3", 44_736_000),
        ("E1 line", 2_048_000),
        ("OC-5", None),
        ("Dark Fibre", None),
        ("", None),
        ("Link 10", None),
    ],
)
def test_labels(text: str, bps: float):
    assert speed_of(text) == bps


def test_named_nodes(tmp_path: Path):
    graph = made(tmp_path, ZOO, "--edge-node", "Genève", "--edge-node", "4")
    assert [node for node, address in graph.nodes(data="address") if address] == ["Genève", "None (4)"]
    graph = made(tmp_path, ZOO, "--edge-node", "all", "--latency", "7", "--bandwidth", "5000", "--queue", "9", "--loss", "11")
    assert len([1 for _node, address in graph.nodes(data="address") if address]) == 5
    assert {(edge["queue"], edge["loss"]) for _one, _other, edge in graph.edges(data=True)} == {(9, 11)}
    assert sorted(edge["latency"] for _one, _other, edge in graph.edges(data=True))[:2] == [7, 7]


def test_map(tmp_path: Path, capsys: pytest.CaptureFixture):
    capture = str(DATA / "in.pcap")
    sources, destinations = read_addresses(capture, QUIET)
    busiest = max(set(sources), key=lambda address: list(sources).count(address) + list(destinations).count(address))
    graph = made(tmp_path, ZOO, "--edge-node", "all", "--map", capture)
    addresses = [address for _node, address in graph.nodes(data="address")]
    assert set(addresses) == set(sources) | set(destinations) and addresses[0] == busiest
    graph = made(tmp_path, ZOO, "--map", capture)
    assert [address for _node, address in graph.nodes(data="address") if address] == addresses[:2]
    assert "3 addresses have no node, " in capsys.readouterr().err


def test_its_own_attributes_stay(tmp_path: Path):
    """A topology of the program's profile keeps its values."""
    graph = made(tmp_path, str(DATA / "a/topology.gml"))
    assert (
        sorted(
            (int(edge["bandwidth"]), edge["latency"], edge["queue"], edge["loss"])
            for _one, _other, edge in graph.edges(data=True)
        )
        == [(2_000_000, 20_000, 6, 50_000)] + [(10_000_000, 1_000, 50, 0)] * 4
    )


def test_graphml(tmp_path: Path):
    networkx.write_graphml(read_gml(ZOO), tmp_path / "zoo.graphml")
    graph = made(tmp_path, str(tmp_path / "zoo.graphml"))
    assert sorted(edge["latency"] for _one, _other, edge in graph.edges(data=True)) == [754, 1000, 1000, 1068, 1068, 1098]


def test_edges(tmp_path: Path):
    (tmp_path / "list.txt").write_text("# a row\na b 20\nb c 30.4\n\nb c 30\n")
    graph = made(tmp_path, str(tmp_path / "list.txt"), "--columns", "latency")
    assert sorted(edge["latency"] for _one, _other, edge in graph.edges(data=True)) == [20, 30, 30]
    (tmp_path / "list.txt").write_text("a b\nb c {'bandwidth': 5000}\n")
    graph = made(tmp_path, str(tmp_path / "list.txt"))
    assert sorted(edge["bandwidth"] for _one, _other, edge in graph.edges(data=True)) == [5000, 100_000_000]


def test_directed(tmp_path: Path):
    networkx.write_gml(networkx.DiGraph([("a", "b"), ("b", "a"), ("b", "c")]), tmp_path / "in.gml")
    graph = made(tmp_path, str(tmp_path / "in.gml"))
    assert graph.is_directed() and graph.number_of_edges() == 3
    assert [node for node, address in graph.nodes(data="address") if address] == ["a", "c"]


def test_parallel_links_without_a_word(tmp_path: Path):
    text = 'graph [\n node [ id 0 label "a" ]\n node [ id 1 label "b" ]\n edge [ source 0 target 1 ]\n edge [ source 0 target 1 ]\n]\n'
    (tmp_path / "in.gml").write_text(text)
    assert made(tmp_path, str(tmp_path / "in.gml")).number_of_edges() == 2


@pytest.mark.parametrize(
    "name, text, line",
    [
        ("g.gml", "graph [\n node [ id 0 ? ]\n]\n", 2),
        ("g.gml", 'graph [\n node [ id 0 label "a" ]\n node [ id 0 label "b" ]\n]\n', 3),
        ("g.gml", 'graph [\n node [ id 0 label "a" ]\n edge [ source 0 target 5 ]\n]\n', 3),
        ("g.gml", "graph [\n node [ id 1 ]\n node [ label 2 ]\n]\n", 3),
        ("g.gml", "graph [\n node [ id 1 ]\n", 3),
        ("g.graphml", "<graphml>\n<x", 2),
        ("g.txt", "a b\nb\n", 2),
        ("g.txt", "a b\nb c five\n", 2),
    ],
)
def test_refused_by_line(tmp_path: Path, capsys: pytest.CaptureFixture, name: str, text: str, line: int):
    (tmp_path / name).write_text(text)
    says = refused(topology.main, [str(tmp_path / name), "--to", str(tmp_path / "out.gml")], capsys)
    assert says.startswith(f"topology: {tmp_path / name}:{line}: ")
    assert not (tmp_path / "out.gml").exists()


def test_refused(tmp_path: Path, capsys: pytest.CaptureFixture):
    words = ["--to", str(tmp_path / "out.gml")]
    assert "no node named 'Bern'" in refused(topology.main, [ZOO, "--edge-node", "Bern", *words], capsys)
    networkx.write_gml(networkx.cycle_graph(5), tmp_path / "ring.gml")
    assert "name the edge nodes" in refused(topology.main, [str(tmp_path / "ring.gml"), *words], capsys)
    networkx.write_gml(networkx.star_graph(600), tmp_path / "star.gml")
    assert "600 edge nodes, and the program reads at most 512" in refused(
        topology.main, [str(tmp_path / "star.gml"), *words], capsys
    )
    (tmp_path / "none.pcap").write_bytes(b"no capture")
    assert "none.pcap: " in refused(topology.main, [ZOO, "--map", str(tmp_path / "none.pcap"), *words], capsys)
    assert "missing.gml: No such file" in refused(topology.main, [str(tmp_path / "missing.gml"), *words], capsys)
    assert not (tmp_path / "out.gml").exists()
