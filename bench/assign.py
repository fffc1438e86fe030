#!/usr/bin/env python3
"""Compares `assign` with a plain program that searches all pipes in each turn, on random topologies of up to 12 nodes and 1 to 16 cores, and
times the program on 262,144 pipes and on 32,766 pipes at one node, with 16 cores.

usage: bench/assign.py [TOPOLOGIES]      1,000 topologies where none are given, 0 for the times alone; needs `rt`

The topologies are made by the program below, which prints each with its pipes and their owners; what the owners should be is worked out here.
The times are those of crates/modelnet/out/modelnet, or of MODELNET_BIN: of `distill` and of `assign`, which distils first.
"""
import os
import shutil
import subprocess
import sys
import tempfile
import time
from pathlib import Path

ROOT = Path(__file__).resolve().parent.parent
BELOW = ("mn_base", "topo", "routes", "frontier", "walk_out", "distill", "changes", "ownership")

RANDOM = r"""#![tactic(auto)]

ghost use Rattle.std.specs.Prelude.{◌<◌};

use distill::{Distilled, Mode, distill};
use ownership::{assign, print_directory};
use std::alloc::Global;
use topo::{EdgeSpec, Node, Topology};

const EDGE: EdgeSpec = EdgeSpec {
    source: 0,
    target: 0,
    bps: 10_000_000,
    latency_us: 100,
    queue: 50,
    ppm: 0,
};

fn next(state: &mut u64, below: u64) -> u64
    requires { 0 < below }
    ensures { result < below }
{
    *state = state
        .wrapping_mul(6_364_136_223_846_793_005)
        .wrapping_add(1_442_695_040_888_963_407);
    (*state >> 33) % below
}

fn topology_of(rt: &impl Print, alloc: Global, state: &mut u64) -> anyhow::Result<Option<Topology>> {
    let count = 1 + next(state, 12);
    let mut nodes = Vec::new(alloc);
    for id in 0..count {
        let is_edge = next(state, 3) == 0;
        println!(rt; "node {}", u8::from(is_edge))?;
        nodes.push(Node { id, address: is_edge.then_some(id as u32) })?;
    }
    let directed = next(state, 4) == 0;
    let mut edges = Vec::new(alloc);
    for _ in 0..next(state, 2 * count + 1) {
        let source = next(state, count);
        let target = next(state, count);
        edges.push(EdgeSpec { source, target, ..EDGE })?;
    }
    if nodes.len() > 100 || edges.len() > 100 {
        return Ok(None);
    }
    Ok(Topology::new(alloc, nodes, edges, directed).ok())
}

fn print_owners(rt: &impl Print, alloc: Global, distilled: &Distilled, cores: u32) -> anyhow::Result<()> {
    println!(rt; "cores {cores}")?;
    for pipe in distilled.pipes() {
        println!(rt; "ends {} {}", pipe.from, pipe.to)?;
    }
    if cores < 1 || cores > 16 {
        return Ok(());
    }
    let Ok(directory) = assign(alloc, distilled, cores) else {
        anyhow::bail!("no memory");
    };
    let Ok(text) = print_directory(alloc, &directory) else {
        anyhow::bail!("no memory");
    };
    if let Ok(text) = std::str::from_utf8(text.as_slice()) {
        print!(rt; "{text}")?;
    }
    println!(rt; "end")?;
    Ok(())
}

fn main(rt: HostRuntime) -> anyhow::Result<()> {
    let alloc = rt.alloc();
    let mut state = 1u64;
    for _ in 0..TOPOLOGIES {
        let Some(topology) = topology_of(&rt, alloc, &mut state)? else {
            anyhow::bail!("no topology");
        };
        let Ok(distilled) = distill(alloc, &topology, Mode::Hop, 100_000) else {
            anyhow::bail!("refused");
        };
        let cores = 1 + next(&mut state, 16) as u32;
        print_owners(&rt, alloc, &distilled, cores)?;
    }
    Ok(())
}
"""

def run(program: str) -> str:
    """What the program prints, which `rt try` runs compiled, without a proof."""
    with tempfile.TemporaryDirectory() as folder:
        top = Path(folder)
        for name in BELOW:
            shutil.copytree(ROOT / "crates" / name, top / "crates" / name, ignore=shutil.ignore_patterns("out"))
        crate = top / "crates" / "try_assign"
        (crate / "src").mkdir(parents=True)
        (crate / "src" / "main.rt").write_text("// Tries `assign`.\n" + program)
        lines = [line for line in (ROOT / "crates.txt").read_text().splitlines() if line.split(":")[0] in BELOW]
        (top / "crates.txt").write_text("\n".join(lines + ["try_assign: ownership distill topo mn_base anyhow"]) + "\n")
        subprocess.run(["git", "init", "-q"], cwd=top, check=True)
        done = subprocess.run(["rt", "try", "--steps", "1"], cwd=crate, capture_output=True, text=True)
        if "end" not in done.stdout and "cores" not in done.stdout:
            sys.exit(done.stdout[-2000:] + done.stderr[-4000:])
        return done.stdout


# ---- the plain program

def owners_of(edge_nodes, pipes, cores):
    sets = [{edge_nodes[i * len(edge_nodes) // cores]} if edge_nodes else set() for i in range(cores)]
    owners = [None] * len(pipes)
    turn = 0
    while None in owners:
        core = turn % cores
        free = [q for q, owner in enumerate(owners) if owner is None]
        near = [q for q in free if set(pipes[q]) & sets[core]]
        pipe = (near or free)[0]
        owners[pipe] = core
        sets[core] |= set(pipes[pipe])
        turn += 1
    return owners


def compare(topologies: int) -> None:
    nodes, pipes, owners, cores, seen = [], [], [], 0, 0
    for line in run(RANDOM.replace("TOPOLOGIES", str(topologies))).splitlines():
        words = line.split()
        if words[0] == "node":
            nodes.append(words[1] == "1")
        elif words[0] == "cores":
            cores = int(words[1])
        elif words[0] == "ends":
            pipes.append((int(words[1]), int(words[2])))
        elif words[0] == "pipe":
            owners.append(int(words[3]))
        elif words[0] == "end":
            expected = owners_of([n for n, is_edge in enumerate(nodes) if is_edge], pipes, cores)
            assert owners == expected, (nodes, pipes, cores, owners, expected)
            seen += 1
            nodes, pipes, owners = [], [], []
    assert seen == topologies, seen
    print(f"{seen} topologies, owners as expected")


# ---- times

EDGE = "bandwidth 10000000 latency 100"


def gml(addresses, edges, directed) -> str:
    """A topology whose nodes have these addresses (or none), with edges between nodes by number."""
    lines = ["graph [", f"  directed {int(directed)}"]
    for number, address in enumerate(addresses):
        named = "" if address is None else f' address "10.0.{address // 256}.{address % 256}"'
        lines.append(f"  node [ id {number}{named} ]")
    for source, target in edges:
        lines.append(f"  edge [ source {source} target {target} {EDGE} ]")
    return "\n".join(lines + ["]"]) + "\n"


def ring() -> str:
    """512 nodes with addresses, from each of which a link leads to a node of a ring of 512, and the links of the ring."""
    edges = [(n, 512 + n) for n in range(512)] + [(512 + n, 512 + (n + 1) % 512) for n in range(512)]
    return gml([n if n < 512 else None for n in range(1_024)], edges, True)


def hub() -> str:
    """16,383 links between node 0 and 511 others."""
    return gml(list(range(512)), [(0, 1 + n % 511) for n in range(16_383)], False)


def times() -> None:
    program = os.environ.get("MODELNET_BIN", str(ROOT / "crates/modelnet/out/modelnet"))
    for text, mode in ((ring(), "walk:1"), (hub(), "hop")):
        with tempfile.NamedTemporaryFile("w", suffix=".gml") as file:
            file.write(text)
            file.flush()
            spent = {}
            for command in (["distill"], ["assign", "--cores", "16"]):
                begin = time.monotonic()
                done = subprocess.run([program, *command, "--topology", file.name, "--mode", mode], capture_output=True, check=True)
                spent[command[0]] = time.monotonic() - begin
            pipes = done.stdout.count(b"\npipe ")
            print(f"{pipes} pipes on 16 cores: assign {spent['assign']:.2f} s, distill alone {spent['distill']:.2f} s")


if __name__ == "__main__":
    topologies = int(sys.argv[1]) if len(sys.argv) > 1 else 1_000
    if topologies > 0:
        compare(topologies)
    times()
