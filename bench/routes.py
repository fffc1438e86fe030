#!/usr/bin/env python3
"""Times routes on the largest graph, and toward each of 4,096 nodes over 32,768 arcs, beside NetworkX, which finds the same weights.

usage: bench/routes.py      needs `rt`, and NetworkX (Debian's python3-networkx) for the second part
"""
import shutil
import subprocess
import tempfile
import time
from pathlib import Path

ROOT = Path(__file__).resolve().parent.parent
NODES, ARCS, LINKS = 4096, 262_144, 32_768
SOME = 32  # destinations that NetworkX is timed on

PROGRAM = r"""// Times the routes to node 0 of a graph of 4,096 nodes and 262,144 arcs, and to each node over the first 32,768 of the arcs, and
// prints what walks weigh together.
#![tactic(auto)]

ghost use Rattle.std.specs.Prelude.{◌≡◌, ◌≤◌, length, IfOk};

use mn_base::NoMemory;
use routes::{Arc, Graph, Incoming, Routes};
use std::alloc::{AllocError, Global};
use std::time::Instant;

fn next(state: u64) -> u64 {
    state
        .wrapping_mul(6_364_136_223_846_793_005)
        .wrapping_add(1_442_695_040_888_963_407)
}

fn ends(alloc: Global, count: u32) -> Result<Vec<(u32, u32, u64)>, AllocError> {
    let mut state = 1u64;
    let mut ends = Vec::new(alloc);
    for _ in 0..count {
        let from = next(state);
        let to = next(from);
        state = next(to);
        let weight = (state >> 33) % 10_000_001;
        ends.push((((from >> 33) % 4_096) as u32, ((to >> 33) % 4_096) as u32, weight))?;
    }
    Ok(ends)
}

fn graph_of(alloc: Global, nodes: u32, ends: &[(u32, u32, u64)]) -> Result<Graph, NoMemory>
    requires nodes { nodes ≤ 4096 }
    requires count { length ends.now ≤ 262144 }
    ensures { IfOk result (λ g. g.nodes ≡ nodes) }
{
    let mut arcs = Vec::new(alloc);
    for (from, to, weight) in ends {
        if *from < nodes && *to < nodes && *weight <= 40_950_000_000 {
            arcs.push(Arc {
                from: *from,
                to: *to,
                weight: *weight,
            })?;
        }
    }
    Ok(Graph::new(nodes, arcs))
}

fn weight_of(walk: &[u32], ends: &[(u32, u32, u64)]) -> u64 {
    let mut total = 0u64;
    for arc in walk {
        if let Some((_, _, weight)) = ends.get(*arc as usize) {
            total = total.saturating_add(*weight);
        }
    }
    total
}

/// What the walks from node 0 to each node weigh together.
fn to_each(alloc: Global, graph: &Graph, ends: &[(u32, u32, u64)]) -> Result<u64, NoMemory>
    requires { graph.now.nodes ≡ 4096 }
{
    let incoming = Incoming::new(alloc, graph)?;
    let mut total = 0u64;
    for destination in 0..4_096u32 {
        let routes = Routes::by_incoming(alloc, &incoming, destination)?;
        if let Some(walk) = routes.walk(alloc, 0)? {
            total = total.saturating_add(weight_of(&walk, ends));
        }
    }
    Ok(total)
}

fn main(rt: HostRuntime) -> anyhow::Result<()> {
    let alloc = rt.alloc();
    let few = ends(alloc, 32_768)?;
    let ends = ends(alloc, 262_144)?;
    if few.len() > 262_144 || ends.len() > 262_144 {
        return Ok(());
    }
    let Ok(links) = graph_of(alloc, 4_096, &few) else {
        anyhow::bail!("no memory");
    };
    let begin = Instant::now(&rt)?;
    let Ok(total) = to_each(alloc, &links, &few) else {
        anyhow::bail!("no memory");
    };
    let all = begin.elapsed(&rt)?;
    println!(rt; "toward each of 4,096 nodes over 32,768 arcs {} us", all.as_micros())?;
    println!(rt; "weight {total}")?;
    let Ok(graph) = graph_of(alloc, 4_096, &ends) else {
        anyhow::bail!("no memory");
    };
    let begin = Instant::now(&rt)?;
    let Ok(routes) = Routes::toward(alloc, &graph, 0) else {
        anyhow::bail!("no memory");
    };
    let toward = begin.elapsed(&rt)?;
    let begin = Instant::now(&rt)?;
    let mut total = 0u64;
    let mut hops = 0u64;
    for source in 0..4_096u32 {
        if let Ok(Some(walk)) = routes.walk(alloc, source) {
            hops = hops.saturating_add(walk.len() as u64);
            total = total.saturating_add(weight_of(&walk, &ends));
        }
    }
    let walks = begin.elapsed(&rt)?;
    println!(rt; "toward {} us, all walks {} us", toward.as_micros(), walks.as_micros())?;
    println!(rt; "weight {total}, arcs {hops}")?;
    Ok(())
}
"""

# What the program's loop over the ends keeps.
INVARIANT = """use Rattle.std.proofs.Common.{◌≤◌, length}
use Rattle.std.specs.List.{All}
use Rattle.routes.specs.GraphView.{IsArcAmong}
use Rattle.time_routes.proofs.graph_of.Given as goal

abbrev pub invariant-loop-from : goal.invariant-loop-from
invariant-loop-from l = (length l.arcs.items ≤ l.from-index) × All (IsArcAmong l.nodes) l.arcs.items
"""


def arcs(count):
    state = 1
    for _ in range(count):
        parts = []
        for _ in range(3):
            state = (state * 6364136223846793005 + 1442695040888963407) % 2**64
            parts.append(state >> 33)
        yield parts[0] % NODES, parts[1] % NODES, parts[2] % 10_000_001


def ours() -> None:
    with tempfile.TemporaryDirectory() as folder:
        top = Path(folder)
        for name in ("mn_base", "routes"):
            shutil.copytree(ROOT / "crates" / name, top / "crates" / name, ignore=shutil.ignore_patterns("out"))
        crate = top / "crates" / "time_routes"
        for path, text in (("src/main.rt", PROGRAM), ("proofs/graph_of/Invariants.antt", INVARIANT)):
            (crate / path).parent.mkdir(parents=True)
            (crate / path).write_text(text)
        (top / "crates.txt").write_text("mn_base:\nroutes: mn_base\ntime_routes: routes mn_base anyhow\n")
        subprocess.run(["git", "init", "-q"], cwd=top, check=True)
        done = subprocess.run(["rt", "run"], cwd=crate, capture_output=True, text=True)
        print(done.stdout, end="")


def reversed_graph(count):
    import networkx

    graph = networkx.DiGraph()
    graph.add_nodes_from(range(NODES))
    for start, end, weight in arcs(count):  # against their direction, the lightest of parallel arcs
        if not graph.has_edge(end, start) or weight < graph[end][start]["weight"]:
            graph.add_edge(end, start, weight=weight)
    return graph


def networkx() -> None:
    import networkx

    links = reversed_graph(LINKS)
    begin = time.perf_counter()
    for destination in range(SOME):
        networkx.single_source_dijkstra_path_length(links, destination)
    print(f"NetworkX {networkx.__version__}, toward {SOME} nodes: {(time.perf_counter() - begin) * 1e6:.0f} us")
    found = networkx.single_source_dijkstra_path_length(links.reverse(), 0)
    print(f"weight {sum(found.values())}")
    graph = reversed_graph(ARCS)
    begin = time.perf_counter()
    found = networkx.single_source_dijkstra_path_length(graph, 0)
    print(f"NetworkX {networkx.__version__}: {(time.perf_counter() - begin) * 1e6:.0f} us")
    print(f"weight {sum(found.values())}")


ours()
networkx()
