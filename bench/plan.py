#!/usr/bin/env python3
"""Times `plan` on a million packets between 512 edge nodes over 32,768 links, in modes hop and end, and tells the program's peak memory.

usage: bench/plan.py [PACKETS]      needs `rt`; some minutes, most of which prove the crates below

The program below makes the topology (a random one of 4,096 nodes) and the capture (random pairs of edge nodes), reads the capture by
`read_pcap` and plans it on 16 cores. It prints how long the reading and the plan took, and how many packets, routes and unbound packets
there are.
"""
import shutil
import subprocess
import sys
import tempfile
from pathlib import Path

ROOT = Path(__file__).resolve().parent.parent
BELOW = ("mn_base", "mn_edge", "pcap_io", "topo", "ip_bind", "routes", "frontier", "walk_out", "distill", "changes", "ownership", "pipe",
         "loss_words", "journal", "plan")

PROGRAM = r"""// Times `plan`.
#![tactic(auto)]

ghost use Rattle.std.specs.Prelude.{◌<◌, ◌≤◌, ◌∷◌, [], length};
ghost use Rattle.distill.specs.Modes.{IsMode};

use distill::Mode;
use journal::LossBy;
use pcap_io::read_pcap;
use plan::{Options, plan};
use std::alloc::Global;
use std::env;
use std::time::Instant;
use topo::{EdgeSpec, Node, Topology};

fn next(state: &mut u64, below: u64) -> u64
    requires { 0 < below }
    ensures { result < below }
{
    *state = state
        .wrapping_mul(6_364_136_223_846_793_005)
        .wrapping_add(1_442_695_040_888_963_407);
    (*state >> 33) % below
}

fn topology_of(alloc: Global) -> anyhow::Result<Topology> {
    let mut state = 1u64;
    let mut nodes = Vec::new(alloc);
    for id in 0..4_096u32 {
        nodes.push(Node {
            id: u64::from(id),
            address: (id < 512).then_some(0x0a00_0000 + id),
        })?;
    }
    let mut edges = Vec::new(alloc);
    for _ in 0..16_384 {
        let source = next(&mut state, 4_096);
        let target = (source + 1 + next(&mut state, 4_095)) % 4_096;
        let latency_us = 1 + next(&mut state, 10_000);
        edges.push(EdgeSpec { source, target, bps: 10_000_000, latency_us, queue: 50, ppm: 0 })?;
    }
    if nodes.len() > 10_000 || edges.len() > 100_000 {
        anyhow::bail!("too many");
    }
    let Ok(topology) = Topology::new(alloc, nodes, edges, false) else {
        anyhow::bail!("no topology");
    };
    Ok(topology)
}

const PACKETS: u32 = 1_000_000;

/// So many packets of 1,000 bytes, 10 us after each other, of which an IPv4 header is captured.
fn capture(alloc: Global) -> anyhow::Result<Vec<u8>> {
    let mut state = 2u64;
    let mut text = Vec::with_capacity(alloc, 24 + 36 * PACKETS as usize)?;
    text.extend_from_slice(&[0x4d, 0x3c, 0xb2, 0xa1, 2, 0, 4, 0, 0, 0, 0, 0, 0, 0, 0, 0, 0, 0, 4, 0, 0x65, 0, 0, 0])?;
    for number in 0..PACKETS {
        let source = next(&mut state, 512) as u32;
        let destination = next(&mut state, 512) as u32;
        for part in [number / 100_000, number % 100_000 * 10_000, 20, 1_000] {
            text.extend_from_slice(&part.to_le_bytes())?;
        }
        text.extend_from_slice(&[0x45, 0, 3, 0xe8, 0, 0, 0, 0, 0x40, 0x11, 0, 0])?;
        text.extend_from_slice(&(0x0a00_0000 + source).to_be_bytes())?;
        text.extend_from_slice(&(0x0a00_0000 + destination).to_be_bytes())?;
    }
    Ok(text)
}

fn time_plan(rt: &HostRuntime, alloc: Global, topology: &Topology, mode: Mode) -> anyhow::Result<()>
    requires { IsMode mode }
{
    let text = capture(alloc)?;
    if text.len() > 100_000_000 {
        anyhow::bail!("too long");
    }
    let begin = Instant::now(rt)?;
    let Ok(trace) = read_pcap(alloc, &text) else {
        anyhow::bail!("no trace");
    };
    drop(text);
    let read = begin.elapsed(rt)?.as_millis();
    let options = Options { mode, cores: 16, seed: 0, tick_ns: 100_000, loss: LossBy::Packet };
    let begin = Instant::now(rt)?;
    let Ok(planned) = plan(alloc, topology, trace, &options, None) else {
        anyhow::bail!("no plan");
    };
    let spent = begin.elapsed(rt)?.as_millis();
    let parts = planned.setup.parts();
    println!(rt; "{mode:?}: read {read} ms, planned {spent} ms, {} packets, {} routes, {} unbound", parts.packets.len(), parts.routes.len(), planned.unbounds.len())?;
    Ok(())
}

fn main(rt: HostRuntime) -> anyhow::Result<()> {
    let alloc = rt.alloc();
    let topology = topology_of(alloc)?;
    if env::args(&rt)?.count() > 1 {
        time_plan(&rt, alloc, &topology, Mode::End)
    } else {
        time_plan(&rt, alloc, &topology, Mode::Hop)
    }
}
"""


def main() -> None:
    packets = int(sys.argv[1]) if len(sys.argv) > 1 else 1_000_000
    with tempfile.TemporaryDirectory() as folder:
        top = Path(folder)
        for name in BELOW:
            shutil.copytree(ROOT / "crates" / name, top / "crates" / name, ignore=shutil.ignore_patterns("out"))
        crate = top / "crates" / "time_plan"
        (crate / "src").mkdir(parents=True)
        (crate / "src" / "main.rt").write_text(PROGRAM.replace("1_000_000;", f"{packets};"))
        lines = [line for line in (ROOT / "crates.txt").read_text().splitlines() if line.split(":")[0].split(" ")[0] in BELOW]
        (top / "crates.txt").write_text("\n".join(lines + ["time_plan: plan pcap_io distill journal topo mn_base anyhow"]) + "\n")
        subprocess.run(["git", "init", "-q"], cwd=top, check=True)
        done = subprocess.run(["rt", "run", "--jobs", "2"], cwd=crate, capture_output=True, text=True)
        if done.returncode != 0:
            sys.exit(done.stdout[-2000:] + done.stderr[-4000:])
        for words in ([], ["end"]):
            measured = subprocess.run(["/usr/bin/time", "-f", "%M KiB", str(crate / "out" / "time_plan"), *words], capture_output=True, text=True)
            print(measured.stdout.strip(), measured.stderr.strip())


if __name__ == "__main__":
    main()
