#!/usr/bin/env python3
"""Compares `journal` and `fates` with a plain program on random setups: 1 to 4 pipes that change while packets wait, loss words by packet and by
arrival, several cores. What comes of each visit is worked out here, from the rules alone.

usage: bench/setups.py [SETUPS] [SEED]      1,000 setups and seed 1 where none are given; needs `rt`; some minutes

The driver is a crate of its own in a copy of the crates that it uses. `rt try` runs it without a proof, on an interpreter and compiled, so the
conditions of `Setup::new` are looked at here (`conditions`).
"""
import random
import shutil
import subprocess
import sys
import tempfile
from pathlib import Path

ROOT = Path(__file__).resolve().parent.parent
BELOW = ("mn_base", "pipe", "loss_words", "journal")
BATCH = 500

DRIVER = r"""//! Reads setups, one a line, and prints the journal and the fates of each.
#![tactic(auto)]

use journal::{Fate, LossBy, PacketPlan, PipeChange, Setup, SetupParts, fates, journal};
use mn_base::{PipeParams, keep_of_ppm, read_u64};
use pipe::Step;
use std::alloc::Global;

/// The numbers of a line, and how many of them were taken.
#[derive(Drop)]
struct Numbers {
    values: Vec<u64>,
    taken: usize,
}

impl Numbers {
    fn take(&mut self) -> u64 {
        let value = self.values[self.taken];
        self.taken += 1;
        value
    }

    fn take_u32(&mut self) -> u32 {
        self.take() as u32
    }

    fn params(&mut self, tick_ns: u64) -> PipeParams {
        let bps = self.take();
        let latency_us = self.take();
        let queue = self.take_u32();
        let keep = keep_of_ppm(self.take_u32());
        PipeParams::new(bps, latency_us, queue, keep, tick_ns)
    }
}

fn numbers(alloc: Global, line: &str) -> anyhow::Result<Numbers> {
    let mut values = Vec::new(alloc);
    for word in line.split_whitespace() {
        values.push(read_u64(word.as_bytes()).unwrap_or(0))?;
    }
    Ok(Numbers { values, taken: 0 })
}

fn setup(alloc: Global, line: &mut Numbers) -> anyhow::Result<Setup> {
    let tick_ns = line.take();
    let seed = line.take();
    let base_ns = line.take();
    let link_type = line.take_u32();
    let cores = line.take_u32();
    let loss = if line.take() == 1 { LossBy::Arrival } else { LossBy::Packet };
    let mut pipes = Vec::new(alloc);
    let mut owners = Vec::new(alloc);
    for _ in 0..line.take() {
        owners.push(line.take_u32())?;
        pipes.push(line.params(tick_ns))?;
    }
    let mut routes = Vec::new(alloc);
    for _ in 0..line.take() {
        let mut route = Vec::new(alloc);
        for _ in 0..line.take() {
            route.push(line.take_u32())?;
        }
        routes.push(route)?;
    }
    let mut packets = Vec::new(alloc);
    for _ in 0..line.take() {
        let number = line.take_u32();
        let entry_tick = line.take();
        let len = line.take_u32();
        let route = line.take_u32();
        let core = line.take_u32();
        packets.push(PacketPlan { entry_tick, number, len, route, core })?;
    }
    let mut changes = Vec::new(alloc);
    for _ in 0..line.take() {
        let tick = line.take();
        let pipe = line.take_u32();
        let params = line.params(tick_ns);
        changes.push(PipeChange { tick, pipe, params })?;
    }
    Ok(Setup::new(SetupParts { tick_ns, seed, base_ns, link_type, cores, pipes, owners, routes, packets, changes, loss }))
}

fn print(rt: &impl Print, alloc: Global, setup: &Setup) -> anyhow::Result<()> {
    let Ok(visits) = journal(alloc, setup) else {
        anyhow::bail!("no memory");
    };
    for visit in visits.iter() {
        match visit.step {
            Step::Lost => println!(rt; "{} {} {} {} lost", visit.tick, visit.packet, visit.hop, visit.pipe)?,
            Step::Full => println!(rt; "{} {} {} {} full", visit.tick, visit.packet, visit.hop, visit.pipe)?,
            Step::Pass { exit } => println!(rt; "{} {} {} {} {exit}", visit.tick, visit.packet, visit.hop, visit.pipe)?,
        }
    }
    let Ok(fates) = fates(alloc, setup) else {
        anyhow::bail!("no memory");
    };
    for fate in fates.iter() {
        match *fate {
            Fate::Left { tick } => println!(rt; "left {tick}")?,
            Fate::Dropped { pipe, tick, cause } => println!(rt; "dropped {pipe} {tick} {cause:?}")?,
        }
    }
    println!(rt; "end")?;
    Ok(())
}

fn main(rt: HostRuntime) -> anyhow::Result<()> {
    let alloc = rt.alloc();
    for line in rt.lines(alloc) {
        let line = line?;
        let mut numbers = numbers(alloc, line.as_str())?;
        let setup = setup(alloc, &mut numbers)?;
        print(&rt, alloc, &setup)?;
    }
    Ok(())
}
"""


# ---- loss words: the block function of RFC 8439 with 8 rounds, a 64-bit counter and a 64-bit stream

def quarter(s, a, b, c, d):
    for x, y, z, by in ((a, b, d, 16), (c, d, b, 12), (a, b, d, 8), (c, d, b, 7)):
        s[x] = (s[x] + s[y]) % 2**32
        mixed = s[z] ^ s[x]
        s[z] = (mixed << by | mixed >> (32 - by)) % 2**32


def loss_word(seed, pipe, place):
    key = [seed % 2**32, seed >> 32, 0, 0, 0, 0, 0, 0]
    start = [0x61707865, 0x3320646E, 0x79622D32, 0x6B206574, *key, place // 16, 0, pipe, 0]
    s = list(start)
    for _ in range(4):
        for a, b, c, d in ((0, 4, 8, 12), (1, 5, 9, 13), (2, 6, 10, 14), (3, 7, 11, 15), (0, 5, 10, 15), (1, 6, 11, 12), (2, 7, 8, 13), (3, 4, 9, 14)):
            quarter(s, a, b, c, d)
    return (s[place % 16] + start[place % 16]) % 2**32


def test_words():
    """The vectors of crates/loss_words, of which the first is the published first block under a zero key."""
    text = (ROOT / "crates/loss_words/src/tests.rt").read_text().split("VECTORS")[1].split("];")[0]
    rows = [row.strip(" (),\n") for row in text.split("\n") if row.strip().startswith("(")]
    for row in rows:
        seed, pipe, place, word = (int(value.replace("_", ""), 0) for value in row.split(", "))
        assert loss_word(seed, pipe, place) == word, row
    assert len(rows) == 6 and loss_word(0, 0, 0) == 0x2FEF003E


# ---- the plain program. A pipe's values are (bps, latency_us, queue, ppm).

def ceil_div(a, b):
    return -(-a // b)


def transmission(bps, length):
    return ceil_div(length * 8 * 10**9, bps)


def latency_ticks(latency_us, tick_ns):
    return max(1, ceil_div(latency_us * 1000, tick_ns))


def keep(ppm):
    return (10**6 - ppm) * 2**32 // 10**6


class Rules:
    """The rules. Each wrong rule of `WRONG` differs in one of them."""

    def values_at(self, setup, pipe, tick):
        found = setup["pipes"][pipe]
        for when, which, values in setup["changes"]:
            if which == pipe and when <= tick:
                found = values
        return found

    def place(self, setup, packet, earlier):
        return len(earlier) if setup["arrival"] else packet

    def waits(self, finish, now):
        return finish > now

    def exit(self, setup, pipe, tick, finish):
        return ceil_div(finish, setup["tick_ns"]) + latency_ticks(self.values_at(setup, pipe, tick)[1], setup["tick_ns"])

    def bps_of(self, setup, pipe, tick, _now):
        return self.values_at(setup, pipe, tick)[0]

    def step(self, setup, earlier, pipe, tick, packet, length):
        """What comes of a visit that follows the earlier ones to its pipe, of which all finishes are worked out anew."""
        now = tick * setup["tick_ns"]
        _bps, _latency, queue, ppm = self.values_at(setup, pipe, tick)
        finishes, last = [], 0
        for other, their_length, step in earlier:
            if isinstance(step, int):
                last = max(other * setup["tick_ns"], last) + transmission(self.bps_of(setup, pipe, other, tick), their_length)
                finishes.append(last)
        if loss_word(setup["seed"], pipe, self.place(setup, packet, earlier)) >= keep(ppm):
            return "lost"
        if sum(self.waits(finish, now) for finish in finishes) >= queue:
            return "full"
        return self.exit(setup, pipe, tick, max(now, last) + transmission(self.bps_of(setup, pipe, tick, tick), length))

    def run(self, setup):
        """All visits in canonical order, and the fate of each packet."""
        routes, packets = setup["routes"], {packet[0]: packet for packet in setup["packets"]}
        due = [(entry, number, 0) for number, entry, _len, route, _core in packets.values() if routes[route]]
        fates = {number: f"left {entry}" for number, entry, *_ in packets.values()}
        earlier = [[] for _ in setup["pipes"]]
        visits = []
        while due:
            tick, number, hop = first = min(due)
            due.remove(first)
            _number, _entry, length, route, _core = packets[number]
            pipe = routes[route][hop]
            step = self.step(setup, earlier[pipe], pipe, tick, number, length)
            earlier[pipe].append((tick, length, step))
            visits.append((tick, number, hop, pipe, step))
            if isinstance(step, str):
                fates[number] = f"dropped {pipe} {tick} {'Loss' if step == 'lost' else 'Full'}"
            elif hop + 1 < len(routes[route]):
                due.append((step, number, hop + 1))
            else:
                fates[number] = f"left {step}"
        return visits, [fates[packet[0]] for packet in setup["packets"]]


def wrong(**rules):
    return type("Wrong", (Rules,), rules)()


WRONG = {
    "pipes never change": wrong(values_at=lambda _self, setup, pipe, _tick: setup["pipes"][pipe]),
    "a change counts from the tick after": wrong(values_at=lambda self, setup, pipe, tick: Rules.values_at(self, setup, pipe, tick - 1)),
    "the parameters of the exit's tick": wrong(exit=lambda self, setup, pipe, _tick, finish: Rules.exit(
        self, setup, pipe, ceil_div(finish, setup["tick_ns"]), finish)),
    "a packet that waits transmits at the new bandwidth": wrong(bps_of=lambda self, setup, pipe, _tick, now: self.values_at(setup, pipe, now)[0]),
    "a finish at the tick waits": wrong(waits=lambda _self, finish, now: finish >= now),
    "the latency is added before rounding up": wrong(exit=lambda self, setup, pipe, tick, finish: ceil_div(
        finish + self.values_at(setup, pipe, tick)[1] * 1000, setup["tick_ns"])),
    "always by packet": wrong(place=lambda _self, _setup, packet, _earlier: packet),
    "always by arrival": wrong(place=lambda _self, _setup, _packet, earlier: len(earlier)),
    "a lost visit takes no place": wrong(place=lambda self, setup, packet, earlier: Rules.place(
        self, setup, packet, [visit for visit in earlier if visit[2] != "lost"])),
}


# ---- random setups

def draw_values(draw, tick_ns):
    """A pipe on which 1,000 bytes take a tenth of a tick to 20 ticks; every fourth time a whole number of ticks."""
    ticks = draw.randint(1, 8) if draw.random() < 0.25 else draw.uniform(0.1, 20)
    bps = min(10**12, max(1_000, int(8 * 10**12 / (tick_ns * ticks))))
    whole = draw.randint(0, 12) * tick_ns // 1000
    latency_us = min(10_000_000, draw.choice((0, whole, whole, draw.randint(0, 15 * tick_ns // 1000))))
    return bps, latency_us, draw.randint(1, 4), draw.choice((0, 0, 300_000, 300_000, 1_000_000))


def draw_setup(draw):
    tick_ns = draw.choice((1_000, 50_000, 100_000, 100_000, 333_333, 1_000_000, 10_000_000))
    cores = draw.randint(1, 4)
    pipes = [draw_values(draw, tick_ns) for _ in range(draw.randint(1, 4))]
    routes = [draw.sample(range(len(pipes)), draw.randint(0 if draw.random() < 0.1 else 1, len(pipes))) for _ in range(draw.randint(1, 3))]
    late = draw.choice((0, 0, 0, draw.randrange(3 * 10**18 // tick_ns)))  # every fourth setup begins late
    near = [late + draw.randint(0, 60) for _ in range(draw.randint(1, 3))]
    numbers = sorted(draw.sample(range(draw.choice((12, 40, 1_048_576))), draw.randint(1, 12)))
    packets = []
    for number in numbers:
        entry = draw.choice(near) + draw.choice((0, 0, draw.randint(0, 12)))
        length = draw.choice((0, 40, 1_000, 1_000, 1_500, draw.randint(1, 3_000)))
        packets.append((number, entry, length, draw.randrange(len(routes)), draw.randrange(cores)))
    changes = {}
    for _ in range(draw.randint(0, 5)):
        tick = draw.choice((0, draw.choice(near), draw.choice(near) + draw.randint(0, 30), draw.choice(packets)[1]))
        changes[tick, draw.randrange(len(pipes))] = draw_values(draw, tick_ns)
    return {
        "tick_ns": tick_ns,
        "seed": draw.choice((0, 1, draw.randrange(2**64))),
        "base_ns": draw.randrange(5 * 10**17),
        "link_type": draw.choice((1, 101, 228)),
        "cores": cores,
        "arrival": draw.random() < 0.5,
        "pipes": pipes,
        "owners": [draw.randrange(cores) for _ in pipes],
        "routes": routes,
        "packets": packets,
        "changes": [(tick, pipe, values) for (tick, pipe), values in sorted(changes.items())],
    }


def stay(setup, pipe):
    """The longest that a pipe may keep a packet, in ns."""
    all_values = [setup["pipes"][pipe]] + [values for _tick, which, values in setup["changes"] if which == pipe]
    latency = max(latency_ticks(values[1], setup["tick_ns"]) for values in all_values)
    queue = max(values[2] for values in all_values)
    return (latency + 2) * setup["tick_ns"] + queue * max(transmission(values[0], 262_144) for values in all_values)


def conditions(setup):
    """What `Setup::new` and `PipeParams::new` ask of their caller."""
    tick_ns, cores, pipes, routes, packets = (setup[name] for name in ("tick_ns", "cores", "pipes", "routes", "packets"))
    marks = [(tick, pipe) for tick, pipe, _values in setup["changes"]]
    assert 1_000 <= tick_ns <= 10_000_000 and setup["link_type"] in (1, 101, 228) and 1 <= cores <= 16 and 0 <= setup["seed"] < 2**64
    assert len(setup["owners"]) == len(pipes) <= 262_144 and all(owner < cores for owner in setup["owners"])
    for bps, latency_us, queue, ppm in pipes + [change[2] for change in setup["changes"]]:
        assert 1_000 <= bps <= 10**12 and latency_us <= 40_950_000_000 and 1 <= queue <= 1_000 and ppm <= 10**6
        assert latency_ticks(latency_us, tick_ns) <= 41_000_000_000
    for route in routes:
        assert len(route) <= 255 and len(set(route)) == len(route) and all(pipe < len(pipes) for pipe in route)
        assert sum(stay(setup, pipe) for pipe in route) < 550_000_000_000_000_000
    assert all(p[0] < q[0] for p, q in zip(packets, packets[1:])) and all(p < q for p, q in zip(marks, marks[1:]))
    assert all(pipe < len(pipes) for _tick, pipe in marks)
    for number, entry, length, route, core in packets:
        assert number < 1_048_576 and length <= 262_144 and route < len(routes) and core < cores
        assert entry * tick_ns < 2**62 - 550_000_000_000_000_000 and setup["base_ns"] + entry * tick_ns < 3_600_005_000_000_000_000


def as_line(setup):
    numbers = [setup[name] for name in ("tick_ns", "seed", "base_ns", "link_type", "cores", "arrival")]
    numbers.append(len(setup["pipes"]))
    for owner, values in zip(setup["owners"], setup["pipes"]):
        numbers += [owner, *values]
    numbers.append(len(setup["routes"]))
    for route in setup["routes"]:
        numbers += [len(route), *route]
    numbers.append(len(setup["packets"]))
    for packet in setup["packets"]:
        numbers += packet
    numbers.append(len(setup["changes"]))
    for tick, pipe, values in setup["changes"]:
        numbers += [tick, pipe, *values]
    return " ".join(str(int(number)) for number in numbers)


# ---- worked cases, on one pipe of 8 Mbit/s and 5 ms

def one_pipe(ppm, ticks, changes, arrival):
    return {
        "tick_ns": 100_000, "seed": 0, "base_ns": 0, "link_type": 101, "cores": 1, "arrival": arrival, "pipes": [(8_000_000, 5_000, 50, ppm)],
        "owners": [0], "routes": [[0]], "packets": [(number, tick, 1_000, 0, 0) for number, tick in enumerate(ticks)], "changes": changes,
    }


# Packet 1 waits for packet 0, which finishes at tick 10, and is then ten times as fast.
CHANGED = one_pipe(0, [0, 5], [(5, 0, (80_000_000, 1_000, 50, 0))], False)
# The same sixteen packets in two orders of the file: by arrival the same ticks are lost.
FORTH, BACK = (one_pipe(500_000, ticks, [], True) for ticks in (range(0, 1_600, 100), range(1_500, -1, -100)))


def test_worked(rules):
    assert rules.run(CHANGED) == ([(0, 0, 0, 0, 60), (5, 1, 0, 0, 21)], ["left 60", "left 21"])
    forth, back = rules.run(FORTH)[1], rules.run(BACK)[1]
    assert forth == back[::-1] and forth[:2] == ["left 60", "dropped 0 100 Loss"]


# ---- the comparison

def make_driver(top):
    for name in BELOW:
        shutil.copytree(ROOT / "crates" / name, top / "crates" / name, ignore=shutil.ignore_patterns("out"))
    crate = top / "crates" / "try_setups"
    (crate / "src").mkdir(parents=True)
    (crate / "src" / "main.rt").write_text(DRIVER)
    lines = [line for line in (ROOT / "crates.txt").read_text().splitlines() if line.split(":")[0] in BELOW]
    (top / "crates.txt").write_text("\n".join(lines + ["try_setups: journal pipe mn_base anyhow"]) + "\n")
    subprocess.run(["git", "init", "-q"], cwd=top, check=True)
    return crate


def answers(crate, setups):
    """What the product says of each setup, as lists of lines."""
    done = subprocess.run(
        ["rt", "try", "--steps", "4000000000", "--seconds", "600"],
        cwd=crate, input="".join(as_line(setup) + "\n" for setup in setups), capture_output=True, text=True,
    )
    parts = done.stdout.split("end\n")
    if len(parts) != len(setups) + 1:
        sys.exit(done.stdout[-3000:] + done.stderr[-3000:])
    return [part.splitlines() for part in parts[:-1]]


def main():
    count = int(sys.argv[1]) if len(sys.argv) > 1 else 1_000
    draw = random.Random(int(sys.argv[2]) if len(sys.argv) > 2 else 1)
    test_words()
    rules = Rules()
    test_worked(rules)
    setups = [CHANGED, FORTH, BACK] + [draw_setup(draw) for _ in range(count)]
    expected = []
    for setup in setups:
        conditions(setup)
        expected.append(rules.run(setup))
    visits = [visit for their_visits, _fates in expected for visit in their_visits]
    lost, full = (sum(visit[4] == step for visit in visits) for step in ("lost", "full"))
    print(f"{len(setups)} setups, {sum(setup['arrival'] for setup in setups)} of them by arrival, {sum(len(s['changes']) for s in setups)} changes")
    print(f"{len(visits)} visits: {len(visits) - lost - full} passed, {lost} lost, {full} full")
    for name, other in WRONG.items():
        print(f"  {sum(other.run(setup) != right for setup, right in zip(setups, expected))} setups tell: {name}")

    with tempfile.TemporaryDirectory() as folder:
        crate = make_driver(Path(folder))
        unequal = 0
        for start in range(0, len(setups), BATCH):
            for number, said in enumerate(answers(crate, setups[start:start + BATCH]), start):
                ours = [" ".join(map(str, visit)) for visit in expected[number][0]] + expected[number][1]
                if said != ours:
                    unequal += 1
                    print(f"setup {number}: {setups[number]}\n  modelnet: {said}\n  plain:    {ours}")
    print(f"{len(setups)} setups, {'all equal' if unequal == 0 else f'{unequal} unequal'}")
    sys.exit(unequal != 0)


if __name__ == "__main__":
    main()
