#!/usr/bin/env python3
"""Tries and times the heap of due visits (crates/deadline_heap) beside programs that know nothing of a wheel.

usage: bench/heap.py          both; a minute, most of it to prove the driver
       bench/heap.py calls    random calls, beside a plain sorted list in Python
       bench/heap.py time     a million moves near the base and in mixed order, and a million visits of one tick, beside
                              BinaryHeap of plain Rust; the sums of what came out have to be equal

It needs `rt`, and `rustc` for the second part. The driver is a small crate of its own, proved like any other: it keeps
that no packet is inserted twice.
"""
import bisect
import random
import shutil
import subprocess
import sys
import tempfile
from pathlib import Path

ROOT = Path(__file__).resolve().parent.parent
TURN = 1_024
LAST = 2**64 - 1

# The driver: with an argument it makes the calls of its standard input, one a line; with none it times itself.
DRIVER = {
    "src/main.rt": r"""//! Makes the calls that its standard input names, or times a million of them.
#![tactic(auto)]

ghost use Rattle.std.specs.Prelude.{◌≡◌, ◌⊎◌, ℕ, ◌+◌, ◌<◌, ◌↔◌, [], IfOk, OnOk};
ghost use Rattle.mn_base.specs.Among.{Among};
ghost use Rattle.mn_base.specs.declared.due.Due.{Due};
ghost use Rattle.deadline_heap.specs.Canonical.{HasNoneOf};
ghost use Rattle.heap_calls.specs.Packets.{AreAbove, AreBelow};

use deadline_heap::{Due, Heap};
use mn_base::{NoMemory, read_u64};
use std::alloc::{AllocError, Global};
use std::time::Instant;

/// Takes the first out and inserts its packet so many ticks later, one hop further.
fn step(heap: &mut Heap, limit: u64, by: u64) -> Result<Option<Due>, NoMemory>
    ensures { OnOk result ((end : ℕ) → AreBelow end heap.old → AreBelow end heap.new) }
{
    let Some(due) = heap.pop_before(limit) else {
        return Ok(None);
    };
    heap.insert(Due {
        tick: due.tick.wrapping_add(by),
        packet: due.packet,
        hop: due.hop.wrapping_add(1),
    })?;
    Ok(Some(due))
}

/// Takes the first out.
fn take(heap: &mut Heap, limit: u64) -> Option<Due>
    ensures { (end : ℕ) → AreBelow end heap.old → AreBelow end heap.new }
{
    heap.pop_before(limit)
}

/// Inserts the packet that is above all.
fn enter(heap: &mut Heap, tick: u64, packet: u32) -> Result<(), NoMemory>
    requires { AreBelow packet heap.old }
    ensures { OnOk result (AreBelow (packet + 1) heap.new) }
{
    heap.insert(Due {
        tick,
        packet,
        hop: 0,
    })
}

/// Inserts the packet that is below all.
fn enter_below(heap: &mut Heap, tick: u64, packet: u32) -> Result<(), NoMemory>
    requires { AreAbove packet heap.old }
    ensures { OnOk result ((below : ℕ) → below < packet → AreAbove below heap.new) }
{
    heap.insert(Due {
        tick,
        packet,
        hop: 0,
    })
}

fn next(state: u64) -> u64 {
    state
        .wrapping_mul(6_364_136_223_846_793_005)
        .wrapping_add(1_442_695_040_888_963_407)
}

fn mix(sum: u64, due: Option<Due>) -> u64 {
    match due {
        Some(due) => sum
            .wrapping_mul(31)
            .wrapping_add(due.tick ^ due.packet as u64),
        None => sum,
    }
}

/// `held` packets at ticks below 500, and then so many moves of the first by 1 to 500 ticks, or in one of `far` by up to 2^20.
fn moves(alloc: Global, held: u32, count: u32, far: u64) -> Result<u64, NoMemory> {
    let mut heap = Heap::new(alloc)?;
    let mut state = 1u64;
    for packet in 0..held {
        state = next(state);
        enter(&mut heap, (state >> 33) % 500, packet)?;
    }
    let mut sum = 0u64;
    for _move in 0..count {
        state = next(state);
        let draw = state >> 33;
        let is_far = far != 0 && draw % far == 0;
        let by = if is_far { draw % 1_048_576 } else { draw % 500 };
        let due = step(&mut heap, u64::MAX, by.saturating_add(1))?;
        sum = mix(sum, due);
    }
    Ok(sum)
}

/// So many visits of one tick, from the greatest packet down, and all taken out.
fn one_tick(alloc: Global, count: u32) -> Result<u64, NoMemory> {
    let mut heap = Heap::new(alloc)?;
    for packet in (0..count).rev() {
        enter_below(&mut heap, 7, packet)?;
    }
    let mut sum = 0u64;
    for _move in 0..count {
        sum = mix(sum, heap.pop_before(8));
    }
    Ok(sum)
}

fn number(word: Option<&str>) -> u64 {
    match word {
        Some(word) => read_u64(word.as_bytes()).unwrap_or(0),
        None => 0,
    }
}

fn due_text(alloc: Global, due: Option<Due>) -> Result<String, AllocError> {
    match due {
        Some(due) => format!(in alloc; "{} {} {}", due.tick, due.packet, due.hop),
        None => format!(in alloc; "none"),
    }
}

/// Makes one call. `i T` inserts the next packet, `s L B` takes the first before L out and inserts it B ticks later, `p L` takes
/// it out, `l` asks for the least tick.
fn call(
    alloc: Global,
    heap: &mut Heap,
    packet: u32,
    line: &str,
) -> Result<(u32, String), anyhow::Error>
    requires { AreBelow packet heap.old }
    ensures { IfOk result (λ given. AreBelow given.0 heap.new) }
{
    let mut words = line.split_whitespace();
    let kind = words.next().unwrap_or("");
    let first = number(words.next());
    let second = number(words.next());
    if kind == "i" && packet < u32::MAX {
        let Ok(()) = enter(heap, first, packet) else {
            anyhow::bail!("no memory");
        };
        return Ok((packet + 1, String::new(alloc)));
    }
    if kind == "s" {
        let Ok(due) = step(heap, first, second) else {
            anyhow::bail!("no memory");
        };
        return Ok((packet, due_text(alloc, due)?));
    }
    if kind == "p" {
        let due = take(heap, first);
        return Ok((packet, due_text(alloc, due)?));
    }
    let least = match heap.least() {
        Some(tick) => format!(in alloc; "{tick}")?,
        None => format!(in alloc; "none")?,
    };
    Ok((packet, least))
}

fn calls(rt: &(impl Input + Print + AllocGlobal), mut heap: Heap) -> Result<(), anyhow::Error>
    requires { heap ≡ [] }
{
    let alloc = rt.alloc();
    let mut packet = 0u32;
    for line in rt.lines(alloc) {
        let line = line?;
        let (after, answer) = call(alloc, &mut heap, packet, line.as_str())?;
        packet = after;
        println!(rt; "{answer}")?;
    }
    Ok(())
}

fn main(rt: HostRuntime) -> anyhow::Result<()> {
    let alloc = rt.alloc();
    let mut arguments = std::env::args(&rt)?;
    let _program = arguments.next();
    if let Some(_calls) = arguments.next() {
        let Ok(heap) = Heap::new(alloc) else {
            anyhow::bail!("no memory");
        };
        return calls(&rt, heap);
    }
    let sizes = [100u32, 1_000, 10_000, 100_000];
    for held in sizes.iter() {
        for far in [0u64, 8].iter() {
            let begin = Instant::now(&rt)?;
            let sum = moves(alloc, *held, 1_000_000, *far).unwrap_or(0);
            let time = begin.elapsed(&rt)?;
            println!(rt; "{held} held, far {far}: {} us, {sum}", time.as_micros())?;
        }
    }
    let begin = Instant::now(&rt)?;
    let sum = one_tick(alloc, 1_000_000).unwrap_or(0);
    let time = begin.elapsed(&rt)?;
    println!(rt; "one tick: {} us, {sum}", time.as_micros())?;
    Ok(())
}
""",
    "specs/Lib.antt": r"""pub mod Packets
""",
    "specs/Packets.antt": r"""-- The packets of a heap, all below or all above a number.
use Rattle.std.specs.Prelude.{ℕ, ◌<◌, List}
use Rattle.mn_base.specs.Among.{Among}
use Rattle.mn_base.specs.declared.due.Due.{Due}

abbrev pub AreBelow : ℕ → List Due → Type 0
AreBelow end visits = (other : Due) → Among other visits → other.packet < end

abbrev pub AreAbove : ℕ → List Due → Type 0
AreAbove below visits = (other : Due) → Among other visits → below < other.packet
""",
    "proofs/Lib.antt": r"""pub mod Kept
""",
    "proofs/Kept.antt": r"""-- What an insertion and a removal leave of the bounds on packets.
use Rattle.std.proofs.Common.{◌≡◌, ◌⊎◌, inl, inr, ⊎_elim, ℕ, ◌+◌, ◌<◌, ◌≤◌, List, [], ◌∷◌, Option, Some, None, Result, Ok, Err, refl, sym, ap, subst, arith}
use Rattle.std.specs.Prelude.{◌↔◌, OnOk, IfNone, IfSome}
use Rattle.mn_base.specs.Among.{Among}
use Rattle.mn_base.specs.declared.due.Due.{Due}
use Rattle.heap_calls.specs.Packets.{AreAbove, AreBelow}

pub more_below : {E : Type 0} (r : Result (Unit {0}) E) (packet : ℕ) (due : Due) (old new : List Due) → due.packet ≡ packet → AreBelow packet old
    → OnOk r ((other : Due) → Among other new ↔ ((due ≡ other) ⊎ Among other old)) → OnOk r (AreBelow (packet + 1) new)
more_below (Err _) packet due old new is below members = tt
more_below (Ok _) packet due old new is below members = λ other there.
    ⊎_elim
    (λ same. let e : due.packet ≡ other.packet = ap (λ (d : Due). d.packet) same in let k : due.packet ≡ packet = is in omega arith)
    (λ before. let l : other.packet < packet = below other before in omega arith)
    ((members other).0 there)

pub more_above : {E : Type 0} (r : Result (Unit {0}) E) (packet : ℕ) (due : Due) (old new : List Due) → due.packet ≡ packet → AreAbove packet old
    → OnOk r ((other : Due) → Among other new ↔ ((due ≡ other) ⊎ Among other old)) → OnOk r ((below : ℕ) → below < packet → AreAbove below new)
more_above (Err _) packet due old new is above members = tt
more_above (Ok _) packet due old new is above members = λ below less other there.
    ⊎_elim
    (λ same. let e : due.packet ≡ other.packet = ap (λ (d : Due). d.packet) same in let k : due.packet ≡ packet = is in let l : below < packet = less in omega arith)
    (λ before. let l : packet < other.packet = above other before in let m : below < packet = less in omega arith)
    ((members other).0 there)

pub fewer : (r : Option Due) (old new : List Due) (P : Type 0) (Q : Due → Type 0) → IfNone r ((new ≡ old) × P) → IfSome r (λ due. (old ≡ due ∷ new) × Q due)
    → (end : ℕ) → AreBelow end old → AreBelow end new
fewer None old new P Q none some end below = subst (AreBelow end) (sym none.0) below
fewer (Some due) old new P Q none some end below = λ other there. below other (subst (λ (l : List Due). Among other l) (sym some.0) (inr there))

pub moved : (first due : Due) (old left new : List Due) → due.packet ≡ first.packet → old ≡ first ∷ left → ((other : Due) → Among other new ↔ ((due ≡ other) ⊎ Among other left))
    → (end : ℕ) → AreBelow end old → AreBelow end new
moved first due old left new same is members end below other there =
    ⊎_elim
    (λ e. let p : due.packet ≡ other.packet = ap (λ (d : Due). d.packet) e in
        let q : due.packet ≡ first.packet = same in
        let l : first.packet < end = below first (subst (λ (l : List Due). Among first l) (sym is) (inl refl)) in
        omega arith)
    (λ before. below other (subst (λ (l : List Due). Among other l) (sym is) (inr before)))
    ((members other).0 there)
""",
    "proofs/call/Answers.antt": r"""use Rattle.heap_calls.proofs.call.Goals as goal

pub returns-then-eq-3 : goal.returns-then-eq-3
returns-then-eq-3 c = c.take-due.ensures c.args.packet c.requires
""",
    "proofs/calls/Invariants.antt": r"""use Rattle.heap_calls.specs.Packets.{AreBelow}
use Rattle.heap_calls.proofs.calls.Given as goal

abbrev pub invariant-loop-line : goal.invariant-loop-line
invariant-loop-line g l = AreBelow l.packet l.heap
""",
    "proofs/enter/Answers.antt": r"""use Rattle.std.proofs.Common.{refl}
use Rattle.heap_calls.proofs.Kept.{more_below}
use Rattle.heap_calls.proofs.enter.Goals as goal

pub returns : goal.returns
returns c = more_below c.insert.result c.args.packet _ c.args.heap.now c.insert.new.self refl c.requires c.insert.ensures.members
""",
    "proofs/enter_below/Answers.antt": r"""use Rattle.std.proofs.Common.{refl}
use Rattle.heap_calls.proofs.Kept.{more_above}
use Rattle.heap_calls.proofs.enter_below.Goals as goal

pub returns : goal.returns
returns c = more_above c.insert.result c.args.packet _ c.args.heap.now c.insert.new.self refl c.requires c.insert.ensures.members
""",
    "proofs/moves/Invariants.antt": r"""use Rattle.heap_calls.specs.Packets.{AreBelow}
use Rattle.heap_calls.proofs.moves.Given as goal

abbrev pub invariant-loop-packet : goal.invariant-loop-packet
invariant-loop-packet l = AreBelow l.packet l.heap
""",
    "proofs/one_tick/Invariants.antt": r"""use Rattle.std.proofs.Common.{ℕ, ◌<◌}
use Rattle.heap_calls.specs.Packets.{AreAbove}
use Rattle.heap_calls.proofs.one_tick.Given as goal

abbrev pub invariant-loop-packet : goal.invariant-loop-packet
invariant-loop-packet l = (below : ℕ) → below < l.packet → AreAbove below l.heap
""",
    "proofs/step/Answers.antt": r"""use Rattle.std.proofs.Common.{refl, subst, sym, Option, None}
use Rattle.mn_base.specs.declared.due.Due.{Due}
use Rattle.heap_calls.proofs.Kept.{fewer, moved}
use Rattle.heap_calls.proofs.step.Goals as goal

pub returns-in_default : goal.returns-in_default
returns-in_default c = fewer c.pop_before.result _ _ _ _ c.pop_before.ensures.none c.pop_before.ensures.first

pub returns : goal.returns
returns c = moved c.in-Some.due _ _ _ _ refl c.in-Some.ensures.first.0 c.in_ok-insert.ensures.members
""",
    "proofs/take/Answers.antt": r"""use Rattle.heap_calls.proofs.Kept.{fewer}
use Rattle.heap_calls.proofs.take.Goals as goal

pub returns : goal.returns
returns c = fewer c.pop_before.result _ _ _ _ c.pop_before.ensures.none c.pop_before.ensures.first
""",
}

# The same moves by the heap of Rust's own library.
RUST = r"""
use std::cmp::Reverse;
use std::collections::BinaryHeap;
use std::time::Instant;

fn next(state: u64) -> u64 {
    state.wrapping_mul(6_364_136_223_846_793_005).wrapping_add(1_442_695_040_888_963_407)
}

fn moves(held: u32, count: u32, far: u64) -> u64 {
    let mut heap = BinaryHeap::new();
    let mut state = 1u64;
    for packet in 0..held {
        state = next(state);
        heap.push(Reverse(((state >> 33) % 500, packet, 0u32)));
    }
    let mut sum = 0u64;
    for _ in 0..count {
        state = next(state);
        let draw = state >> 33;
        let by = if far != 0 && draw % far == 0 { draw % 1_048_576 } else { draw % 500 };
        let Reverse((tick, packet, hop)) = heap.pop().unwrap();
        heap.push(Reverse((tick.wrapping_add(by + 1), packet, hop + 1)));
        sum = sum.wrapping_mul(31).wrapping_add(tick ^ packet as u64);
    }
    sum
}

fn one_tick(count: u32) -> u64 {
    let mut heap = BinaryHeap::new();
    for packet in (0..count).rev() {
        heap.push(Reverse((7u64, packet, 0u32)));
    }
    let mut sum = 0u64;
    while let Some(Reverse((tick, packet, _))) = heap.pop() {
        sum = sum.wrapping_mul(31).wrapping_add(tick ^ packet as u64);
    }
    sum
}

fn main() {
    for held in [100u32, 1_000, 10_000, 100_000] {
        for far in [0u64, 8] {
            let begin = Instant::now();
            let sum = moves(held, 1_000_000, far);
            println!("{held} held, far {far}: {} us, {sum}", begin.elapsed().as_micros());
        }
    }
    let begin = Instant::now();
    let sum = one_tick(1_000_000);
    println!("one tick: {} us, {sum}", begin.elapsed().as_micros());
}
"""


def built(top: Path) -> Path:
    """Proves and builds the driver over the two crates as they stand."""
    for name in ("mn_base", "deadline_heap"):
        shutil.copytree(ROOT / "crates" / name, top / "crates" / name, ignore=shutil.ignore_patterns("out", "must-fail"))
    crate = top / "crates" / "heap_calls"
    for path, text in DRIVER.items():
        (crate / path).parent.mkdir(parents=True, exist_ok=True)
        (crate / path).write_text(text)
    (crate / "stdin").write_text("l\n")
    (crate / "args").write_text("calls\n")
    (top / "crates.txt").write_text("mn_base:\ndeadline_heap: mn_base\nheap_calls: deadline_heap mn_base anyhow\n")
    subprocess.run(["git", "init", "-q"], cwd=top, check=True)
    done = subprocess.run(["rt", "run"], cwd=crate, capture_output=True, text=True)
    binary = crate / "out" / "heap_calls"
    if not binary.exists():
        sys.exit(done.stdout + done.stderr)
    return binary


def drawn_calls(draw: random.Random, count: int) -> list[str]:
    """Calls with ticks below the base, in the wheel, on its end, behind it and far behind it."""
    calls, held, now = [], [], 0
    for _ in range(count):
        near = now + draw.choice([0, 1, draw.randrange(500), TURN - 1, TURN, TURN + 1, draw.randrange(3 * TURN)])
        tick = draw.choice([near, near, near, draw.randrange(now + 1), now + draw.randrange(1 << 40), LAST - draw.randrange(3)])
        limit = draw.choice([now, now + 1, now + draw.randrange(2 * TURN), now + draw.randrange(1 << 20), LAST])
        kind = draw.choice("iissspl") if len(held) < 400 else draw.choice("sspppl")
        if kind == "i":
            calls.append(f"i {tick}")
            bisect.insort(held, tick)
        elif kind == "l":
            calls.append("l")
        else:
            by = draw.choice([0, 1, draw.randrange(500), TURN - 1, TURN, draw.randrange(1 << 21)])
            calls.append(f"s {limit} {by}" if kind == "s" else f"p {limit}")
            if held and held[0] < limit:
                tick = held.pop(0)
                if limit < LAST:
                    now = max(now, tick)
                if kind == "s":
                    bisect.insort(held, (tick + by) % 2**64)
    return calls


def plain_answers(calls: list[str]) -> list[str]:
    """What a plain sorted list of (tick, packet, hop) answers."""
    held, packets, answers = [], 0, []
    for call in calls:
        kind, *numbers = call.split()
        numbers = [int(word) for word in numbers]
        if kind == "i":
            bisect.insort(held, (numbers[0], packets, 0))
            packets += 1
            answers.append("")
        elif kind == "l":
            answers.append(str(held[0][0]) if held else "none")
        elif held and held[0][0] < numbers[0]:
            tick, packet, hop = held.pop(0)
            answers.append(f"{tick} {packet} {hop}")
            if kind == "s":
                bisect.insort(held, ((tick + numbers[1]) % 2**64, packet, hop + 1))
        else:
            answers.append("none")
    return answers


def try_calls(binary: Path) -> None:
    for seed in range(20):
        calls = drawn_calls(random.Random(seed), 20_000)
        done = subprocess.run([binary, "calls"], input="\n".join(calls) + "\n", capture_output=True, text=True, check=True)
        given, wanted = done.stdout.split("\n")[:-1], plain_answers(calls)
        for number, (call, one, other) in enumerate(zip(calls, given, wanted)):
            if one != other:
                sys.exit(f"seed {seed}, call {number}, `{call}`: {one!r}, and the plain list says {other!r}")
        if len(given) != len(wanted):
            sys.exit(f"seed {seed}: {len(given)} answers to {len(wanted)} calls")
    print("20 lists of 20,000 calls: each answer is that of the plain list")


def time_moves(binary: Path, top: Path) -> None:
    (top / "plain.rs").write_text(RUST)
    subprocess.run(["rustc", "-O", "-o", top / "plain", top / "plain.rs"], check=True)
    lines = [subprocess.run([name], capture_output=True, text=True, check=True).stdout.split("\n")[:-1] for name in (binary, top / "plain")]
    for ours, rust in zip(*lines):
        what, rest = ours.split(": ")
        time, total = rest.split(" us, ")
        rust_time, rust_total = rust.split(": ")[1].split(" us, ")
        if total != rust_total:
            sys.exit(f"{what}: other visits came out than of Rust's heap")
        print(f"{what}: {int(time):>8,} us, Rust's BinaryHeap {int(rust_time):>8,} us, {int(time) / int(rust_time):.2f} times its time")


with tempfile.TemporaryDirectory() as folder:
    top = Path(folder)
    binary = built(top)
    if "time" not in sys.argv[1:]:
        try_calls(binary)
    if "calls" not in sys.argv[1:]:
        time_moves(binary, top)
