#!/usr/bin/env python3
"""Compares `distill` with a plain program that lists all simple walks, on 2,000 random topologies of up to 12 nodes in all modes, sees on
the answers that least latencies between edge nodes stay, and times a large topology beside NetworkX.

usage: bench/distill.py      needs `rt`, and NetworkX (Debian's python3-networkx) for the last part

The topologies are made by the program below, which prints each with its pipes; what they should be is worked out here.
"""
import itertools
import shutil
import subprocess
import sys
import tempfile
import time
from pathlib import Path

ROOT = Path(__file__).resolve().parent.parent
CASES = 2000
BELOW = ("mn_base", "topo", "routes", "frontier", "walk_out", "distill")

HEAD = r"""#![tactic(auto)]

ghost use Rattle.std.specs.Prelude.{◌<◌};
ghost use Rattle.distill.specs.Modes.{IsMode};

use distill::{DISTILLEDMode, distill};
use mn_base::Refusal;
use std::alloc::{AllocError, Global};
use std::time::Instant;
use topo::{EdgeSpec, Node, Topology};

fn next(state: &mut u64, below: u64) -> u64
    requires { 0 < below }
    ensures { result < below }
{
    *state = state
        .wrapping_mul(6_364_136_223_846_793_005)
        .wrapping_add(1_442_695_040_888_963_407);
    (*state >> 33) % below
}
"""

RANDOM = HEAD.replace("use std::time::Instant;\n", "").replace("use mn_base::Refusal;\n", "").replace("DISTILLED", "Distilled, ").replace("use std::alloc::{AllocError, Global};", "use std::alloc::Global;") + r"""
fn topology_of(rt: &impl Print, alloc: Global, state: &mut u64) -> anyhow::Result<Option<Topology>> {
    let count = 1 + next(state, 12);
    let mut nodes = Vec::new(alloc);
    for id in 0..count {
        let is_edge = next(state, 3) == 0;
        println!(rt; "node {}", u8::from(is_edge))?;
        nodes.push(Node { id, address: is_edge.then_some(id as u32) })?;
    }
    let directed = next(state, 4) == 0;
    let mut edges = Vec::new(alloc);
    for _ in 0..next(state, 2 * count + 1) {
        let source = next(state, count);
        let target = next(state, count);
        let bps = 1_000 * (1 + next(state, 4));
        let latency_us = next(state, 4) * 150;
        let queue = 1 + next(state, 100);
        let ppm = next(state, 3) * 250_000;
        edges.push(EdgeSpec { source, target, bps, latency_us, queue, ppm })?;
    }
    if nodes.len() > 100 || edges.len() > 100 {
        return Ok(None);
    }
    let Ok(topology) = Topology::new(alloc, nodes, edges, directed) else {
        return Ok(None);
    };
    for link in topology.links() {
        println!(rt; "link {} {} {} {} {} {}", link.from, link.to, link.bps, link.latency_us, link.queue, link.ppm)?;
    }
    Ok(Some(topology))
}

fn print_pipes(rt: &impl Print, distilled: &Distilled) -> anyhow::Result<()> {
    for pipe in distilled.pipes() {
        let p = pipe.params;
        println!(rt; "pipe {} {} {} {} {} {} {} {}", pipe.from, pipe.to, p.bps, p.latency_us, p.latency_ticks, p.queue, p.keep, pipe.links)?;
    }
    Ok(())
}

fn print_mode(rt: &impl Print, alloc: Global, topology: &Topology, mode: Mode) -> anyhow::Result<()>
    requires { IsMode mode }
{
    println!(rt; "mode {mode:?}")?;
    let Ok(distilled) = distill(alloc, topology, mode, 100_000) else {
        anyhow::bail!("refused");
    };
    print_pipes(rt, &distilled)
}

fn main(rt: HostRuntime) -> anyhow::Result<()> {
    let alloc = rt.alloc();
    let mut state = 1u64;
    for _ in 0..CASES {
        let Some(topology) = topology_of(&rt, alloc, &mut state)? else {
            anyhow::bail!("no topology");
        };
        print_mode(&rt, alloc, &topology, Mode::Hop)?;
        print_mode(&rt, alloc, &topology, Mode::End)?;
        print_mode(&rt, alloc, &topology, Mode::Walk(1))?;
        print_mode(&rt, alloc, &topology, Mode::Walk(2))?;
        print_mode(&rt, alloc, &topology, Mode::WalkOut(1, 1))?;
        print_mode(&rt, alloc, &topology, Mode::WalkOut(1, 2))?;
        print_mode(&rt, alloc, &topology, Mode::WalkOut(2, 1))?;
        println!(rt; "end")?;
    }
    Ok(())
}
"""

LARGE = HEAD.replace("DISTILLED", "") + r"""
fn topology_of(alloc: Global) -> Result<Option<Topology>, AllocError> {
    let mut state = 1u64;
    let mut nodes = Vec::new(alloc);
    for id in 0..4_096u32 {
        nodes.push(Node { id: u64::from(id), address: (id < 512).then_some(id) })?;
    }
    let mut edges = Vec::new(alloc);
    for _ in 0..16_384 {
        let source = next(&mut state, 4_096);
        let target = (source + 1 + next(&mut state, 4_095)) % 4_096;
        let latency_us = 1 + next(&mut state, 10_000);
        edges.push(EdgeSpec { source, target, bps: 10_000_000, latency_us, queue: 50, ppm: 0 })?;
    }
    if nodes.len() > 10_000 || edges.len() > 100_000 {
        return Ok(None);
    }
    Ok(Topology::new(alloc, nodes, edges, false).ok())
}

fn time_mode(rt: &HostRuntime, alloc: Global, topology: &Topology, mode: Mode) -> anyhow::Result<()>
    requires { IsMode mode }
{
    let begin = Instant::now(rt)?;
    let answer = distill(alloc, topology, mode, 100_000);
    let spent = begin.elapsed(rt)?.as_millis();
    match answer {
        Ok(distilled) => {
            let mut total = 0u64;
            for pipe in distilled.pipes() {
                total = total.saturating_add(pipe.params.latency_us);
            }
            println!(rt; "{mode:?}: {spent} ms, {} pipes of {total} us together", distilled.pipes().len())?;
        }
        Err(Refusal::Fault(fault)) => println!(rt; "{mode:?}: {spent} ms, refused, {} pipes", fault.count)?,
        Err(Refusal::NoMemory) => anyhow::bail!("no memory"),
    }
    Ok(())
}

fn main(rt: HostRuntime) -> anyhow::Result<()> {
    let alloc = rt.alloc();
    let Some(topology) = topology_of(alloc)? else {
        anyhow::bail!("no topology");
    };
    time_mode(&rt, alloc, &topology, Mode::Hop)?;
    time_mode(&rt, alloc, &topology, Mode::End)?;
    time_mode(&rt, alloc, &topology, Mode::Walk(1))?;
    time_mode(&rt, alloc, &topology, Mode::WalkOut(1, 1))?;
    time_mode(&rt, alloc, &topology, Mode::Walk(2))?;
    Ok(())
}
"""


def run(program: str) -> str:
    with tempfile.TemporaryDirectory() as folder:
        top = Path(folder)
        for name in BELOW:
            shutil.copytree(ROOT / "crates" / name, top / "crates" / name, ignore=shutil.ignore_patterns("out"))
        crate = top / "crates" / "try_distill"
        (crate / "src").mkdir(parents=True)
        (crate / "src" / "main.rt").write_text("// Tries `distill`.\n" + program)
        lines = [line for line in (ROOT / "crates.txt").read_text().splitlines() if line.split(":")[0] in BELOW]
        (top / "crates.txt").write_text("\n".join(lines + ["try_distill: distill topo mn_base anyhow"]) + "\n")
        subprocess.run(["git", "init", "-q"], cwd=top, check=True)
        done = subprocess.run(["rt", "run"], cwd=crate, capture_output=True, text=True)
        if done.returncode != 0:
            sys.exit(done.stdout[-2000:] + done.stderr[-4000:])
        return done.stdout


# ---- the plain program

def simple_walks(links, numbers, start, goal):
    """All walks over these links from start to goal that meet no node twice, as lists of link numbers."""
    out = {}
    for number in numbers:
        out.setdefault(links[number][0], []).append(number)
    stack = [(start, [], {start})]
    while stack:
        node, walk, seen = stack.pop()
        if node == goal:
            yield walk
            continue
        for number in out.get(node, []):
            to = links[number][1]
            if to not in seen:
                stack.append((to, walk + [number], seen | {to}))


def frontiers_of(count, links, edge_nodes):
    reached = set(edge_nodes)
    frontiers = [set(edge_nodes)]
    while frontiers[-1]:
        last = frontiers[-1]
        near = {b for a, b, *_ in links if a in last} | {a for a, b, *_ in links if b in last}
        frontiers.append(near - reached)
        reached |= near
    return frontiers


def parts_of(count, links, edge_nodes, mode):
    if mode == "Hop":
        return list(range(len(links))), [], []
    numbers = [int(n) for n in mode[mode.index("("):].strip("()").split(",")] if "(" in mode else [0]
    frontiers = frontiers_of(count, links, edge_nodes)
    at = lambda k: frontiers[k - 1] if k <= len(frontiers) else set()
    w = numbers[0]
    outer = set().union(*(at(k) for k in range(1, w + 1)))
    border = set(at(w + 1))
    if len(numbers) == 2:
        c = sum(1 for frontier in frontiers if frontier)
        core = set().union(*(at(k) for k in range(1, c + 1) if k > c - numbers[1] and k >= w + 2))
        outer |= core
        for a, b, *_ in links:
            for one, other in ((a, b), (b, a)):
                if other in core and one not in outer:
                    border.add(one)
    kept = [n for n, link in enumerate(links) if link[0] in outer or link[1] in outer]
    return kept, sorted(border), [n for n in range(len(links)) if n not in kept]


def pipe_for(links, walk):
    on = [links[n] for n in walk]
    narrow = min(on, key=lambda link: link[2])  # the first of the least
    us = sum(link[3] for link in on)
    keeps = [(1_000_000 - link[5]) * 2**32 // 1_000_000 for link in on]
    keep = keeps[0]
    for other in keeps[1:]:
        keep = keep * other // 2**32
    ticks = max(1, -(-us * 1000 // 100_000))
    return (on[0][0], on[-1][1], narrow[2], us, ticks, narrow[4], keep, len(walk))


def pipes_of(count, links, edge_nodes, mode):
    kept, border, middle = parts_of(count, links, edge_nodes, mode)
    pipes = [pipe_for(links, [number]) for number in kept]
    for a, b in itertools.permutations(border, 2):
        walks = list(simple_walks(links, middle, a, b))
        if walks:
            pipes.append(pipe_for(links, min(walks, key=lambda walk: (sum(links[n][3] for n in walk), len(walk), walk))))
    return pipes


def latencies(count, edges, edge_nodes):
    far = float("inf")
    table = [[0 if a == b else far for b in range(count)] for a in range(count)]
    for a, b, us in edges:
        table[a][b] = min(table[a][b], us)
    for k, a, b in itertools.product(range(count), repeat=3):
        table[a][b] = min(table[a][b], table[a][k] + table[k][b])
    return [[table[a][b] for b in edge_nodes] for a in edge_nodes]


def compare() -> None:
    nodes, links, mode, pipes, tried, meshed = [], [], None, [], 0, 0
    cases = 0

    def finish():
        nonlocal tried, meshed
        edge_nodes = [n for n, is_edge in enumerate(nodes) if is_edge]
        expected = pipes_of(len(nodes), links, edge_nodes, mode)
        assert pipes == expected, (nodes, links, mode, pipes, expected)
        target = latencies(len(nodes), [link[:2] + link[3:4] for link in links], edge_nodes)
        assert latencies(len(nodes), [pipe[:2] + pipe[3:4] for pipe in pipes], edge_nodes) == target, (nodes, links, mode)
        tried += 1
        meshed += sum(1 for pipe in pipes if pipe[7] > 1)

    for line in run(RANDOM.replace("CASES", str(CASES))).splitlines():
        word, *rest = line.split(" ", 1)
        if word == "node":
            nodes.append(rest[0] == "1")
        elif word == "link":
            links.append(tuple(int(n) for n in rest[0].split()))
        elif word == "pipe":
            pipes.append(tuple(int(n) for n in rest[0].split()))
        else:
            if mode is not None:
                finish()
            mode, pipes = (rest[0] if word == "mode" else None), []
            if word == "end":
                nodes, links = [], []
                cases += 1
    assert cases == CASES
    print(f"{cases} topologies, {tried} answers as expected, {meshed} pipes for two links or more; least latencies stay in each")


# ---- the large topology

def edges():
    state = 1

    def draw(below):
        nonlocal state
        state = (state * 6364136223846793005 + 1442695040888963407) % 2**64
        return (state >> 33) % below

    for _ in range(16_384):
        source = draw(4_096)
        yield source, (source + 1 + draw(4_095)) % 4_096, 1 + draw(10_000)


def networkx() -> None:
    try:
        import networkx
    except ImportError:
        print("NetworkX isn't here")
        return
    graph = networkx.Graph()
    graph.add_nodes_from(range(4_096))
    for a, b, us in edges():
        if not graph.has_edge(a, b) or us < graph[a][b]["weight"]:
            graph.add_edge(a, b, weight=us)
    begin = time.perf_counter()
    total, pairs = 0, 0
    for source in range(512):
        found = networkx.single_source_dijkstra_path_length(graph, source)
        for target in range(512):
            if target != source and target in found:
                total += found[target]
                pairs += 1
    spent = (time.perf_counter() - begin) * 1e3
    print(f"NetworkX {networkx.__version__}, end to end: {spent:.0f} ms, {pairs} pairs of {total} us together")


if __name__ == "__main__":
    compare()
    print(run(LARGE), end="")
    networkx()
