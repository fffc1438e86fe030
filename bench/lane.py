#!/usr/bin/env python3
"""Times a million items between two threads: a lane (crates/gate_box), and two channels of one place in plain Rust.

usage: bench/lane.py      needs `rt`, `rustc` and `cargo`; some minutes, most of them to prove the driver

The channels are std's `sync_channel(1)` and crossbeam_channel's `bounded(1)`, whose threads sleep and are woken; for crossbeam's a
loop over `try_send` and `try_recv` stands beside it, by the same `Backoff` as the lane's, whose calls never wait. Each line is one
round: items a second. crossbeam_channel is read from a folder of sources (Debian: librust-crossbeam-channel-dev with
librust-crossbeam-utils-dev and librust-cfg-if-dev, in /usr/share/cargo/registry; REGISTRY names another) and left out without it.
"""
import os
import shutil
import subprocess
import sys
import tempfile
from pathlib import Path

ROOT = Path(__file__).resolve().parent.parent
ITEMS = 1_000_000

DRIVER = r"""//! Passes a million items through one lane between two threads, and says how long it took.
#![tactic(auto)]

ghost use Rattle.std.specs.Prelude.{◌<◌, ◌^◌};

use crossbeam_utils::Backoff;
use gate_box::{Lane, Receiver, Sender, pair};
use std::thread;
use std::time::Instant;

/// A lane whose item n is the number n.
struct Numbers;

impl Lane for Numbers {
    ghost use Rattle.std.specs.Prelude.{◌≡◌};

    type Name = u32;

    type Item = u64;

    ghost is_item = { λ name n item. item ≡ n };
}

fn post_all(mut sender: Sender<Numbers>, count: u64) -> u64
    requires { count < 2 ^ 60 }
{
    let backoff = Backoff::new();
    for _attempt in 0..u64::MAX {
        let next = sender.next();
        if next >= count {
            break;
        }
        match sender.try_post(next) {
            Ok(()) => backoff.reset(),
            Err(_) => backoff.snooze(),
        }
    }
    sender.next()
}

fn take_all(mut receiver: Receiver<Numbers>, count: u64) -> u64
    requires { count < 2 ^ 60 }
{
    let backoff = Backoff::new();
    let mut sum = 0u64;
    for _attempt in 0..u64::MAX {
        if receiver.next() >= count {
            break;
        }
        match receiver.try_take() {
            Ok(item) => {
                sum = sum.wrapping_add(item);
                backoff.reset();
            }
            Err(_) => backoff.snooze(),
        }
    }
    sum
}

fn main(rt: HostRuntime) -> anyhow::Result<()> {
    for _round in 0..3u32 {
        let Ok((sender, receiver)) = pair::<Numbers>(rt.alloc(), 0) else {
            anyhow::bail!("no memory");
        };
        let begin = Instant::now(&rt)?;
        let (_posted, sum) = thread::join(
            &rt,
            move || post_all(sender, 1_000_000),
            move || take_all(receiver, 1_000_000),
        );
        let time = begin.elapsed(&rt)?;
        println!(rt; "{} {sum}", time.as_micros())?;
    }
    Ok(())
}
"""

# Passes a million items from thread to thread, three times, by the calls put in for CHANNEL, POST and TAKE.
ROUNDS = r"""
fn main() {
    for _ in 0..3 {
        let (sender, receiver) = CHANNEL;
        let begin = std::time::Instant::now();
        let posts = std::thread::spawn(move || {
            for item in 0..1_000_000u64 {
                POST
            }
        });
        let mut sum = 0u64;
        for _ in 0..1_000_000u64 {
            sum = sum.wrapping_add(TAKE);
        }
        posts.join().unwrap();
        println!("{} {sum}", begin.elapsed().as_micros());
    }
}
"""

MANIFEST = """[package]
name = "channel"
version = "0.1.0"
edition = "2021"

[dependencies]
crossbeam-channel = "0.5"
crossbeam-utils = "0.8"
"""

TRY_POST = """let backoff = crossbeam_utils::Backoff::new();
                while sender.try_send(item).is_err() {
                    backoff.snooze();
                }"""

TRY_TAKE = """{
                let backoff = crossbeam_utils::Backoff::new();
                loop {
                    if let Ok(item) = receiver.try_recv() {
                        break item;
                    }
                    backoff.snooze();
                }
            }"""


def rounds(channel: str, post: str, take: str) -> str:
    return ROUNDS.replace("CHANNEL", channel).replace("POST", post).replace("TAKE", take)


def lane(top: Path) -> str:
    for name in ("mn_base", "gate_box"):
        shutil.copytree(ROOT / "crates" / name, top / "crates" / name, ignore=shutil.ignore_patterns("out", "must-fail"))
    crate = top / "crates" / "lane_speed"
    (crate / "src").mkdir(parents=True)
    (crate / "src" / "main.rt").write_text(DRIVER)
    shutil.copy(ROOT / "HANDLES", top / "HANDLES")
    (top / "crates.txt").write_text(
        "mn_base:\ngate_box tests_may=Threads: mn_base atomic_table\nlane_speed: gate_box mn_base crossbeam_utils anyhow\n"
    )
    subprocess.run(["git", "init", "-q"], cwd=top, check=True)
    done = subprocess.run(["rt", "run"], cwd=crate, capture_output=True, text=True)
    if done.returncode != 0:
        sys.exit(done.stdout + done.stderr)
    return done.stdout


def std_channel(top: Path) -> str:
    (top / "channel.rs").write_text(rounds("std::sync::mpsc::sync_channel::<u64>(1)", "sender.send(item).unwrap();", "receiver.recv().unwrap()"))
    subprocess.run(["rustc", "-O", "-o", top / "std_channel", top / "channel.rs"], check=True)
    return subprocess.run([top / "std_channel"], capture_output=True, text=True, check=True).stdout


def crossbeam_channel(top: Path, post: str, take: str) -> str:
    registry = Path(os.environ.get("REGISTRY", "/usr/share/cargo/registry"))
    if not list(registry.glob("crossbeam-channel-0.5*")):
        return ""
    crate = top / "crossbeam"
    (crate / "src").mkdir(parents=True, exist_ok=True)
    (crate / ".cargo").mkdir(exist_ok=True)
    (crate / "Cargo.toml").write_text(MANIFEST)
    (crate / ".cargo" / "config.toml").write_text(
        f'[source.crates-io]\nreplace-with = "folder"\n[source.folder]\ndirectory = "{registry}"\n'
    )
    (crate / "src" / "main.rs").write_text(rounds("crossbeam_channel::bounded::<u64>(1)", post, take))
    done = subprocess.run(["cargo", "run", "--release", "--offline", "-q"], cwd=crate, capture_output=True, text=True)
    if done.returncode != 0:
        sys.exit(done.stderr)
    return done.stdout


def print_rounds(what: str, lines: str) -> None:
    for line in lines.splitlines():
        time, total = line.split()
        if int(total) != ITEMS * (ITEMS - 1) // 2:
            sys.exit(f"{what}: the items add up to {total}")
        print(f"{what}: {ITEMS * 10**6 // int(time):>12,} items a second")


with tempfile.TemporaryDirectory() as name:
    folder = Path(name)
    print_rounds("crossbeam_channel, bounded(1)", crossbeam_channel(folder, "sender.send(item).unwrap();", "receiver.recv().unwrap()"))
    print_rounds("crossbeam_channel, bounded(1), try again", crossbeam_channel(folder, TRY_POST, TRY_TAKE))
    print_rounds("std, sync_channel(1)", std_channel(folder))
    print_rounds("lane", lane(folder))
