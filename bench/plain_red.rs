//! `modelnet red` as a plain loop in Rust: a `BinaryHeap` of due visits and no contracts, for a comparison of time and of bytes.
//!
//! It shares no code with crates/. It reads nanosecond and microsecond captures of either byte order, takes `--trace`, `--out`,
//! `--report`, `--tick-ns`, `--seed` and pipes as `BPS:LATENCY_US:QUEUE:PPM:SHIFT:MIN:MAX:EARLY`, and checks nothing.
//!
//! rustc --edition 2024 -O -C target-cpu=x86-64-v2 bench/plain_red.rs

use std::cmp::Reverse;
use std::collections::{BinaryHeap, VecDeque};
use std::fmt::Write as _;
use std::fs::{self, File};
use std::io::{BufWriter, Write};

struct Record {
    time_ns: u64,
    original: u32,
    start: usize,
    captured: usize,
}

struct Pipe {
    bps: u64,
    latency_ticks: u64,
    queue: usize,
    keep: u64,
    shift: u32,
    least: u64,
    most: u64,
    early_ppm: u64,
    average: u64,
    last_finish: u64,
    finishes: VecDeque<u64>,
    losses: Option<(u32, [u32; 16])>,
    earlies: Option<(u32, [u32; 16])>,
    passed: u64,
    lost: u64,
    full: u64,
    early: u64,
}

enum Fate {
    Left(u64),
    Dropped { pipe: usize, tick: u64, cause: &'static str },
}

fn quarter(s: &mut [u32; 16], a: usize, b: usize, c: usize, d: usize) {
    s[a] = s[a].wrapping_add(s[b]);
    s[d] = (s[d] ^ s[a]).rotate_left(16);
    s[c] = s[c].wrapping_add(s[d]);
    s[b] = (s[b] ^ s[c]).rotate_left(12);
    s[a] = s[a].wrapping_add(s[b]);
    s[d] = (s[d] ^ s[a]).rotate_left(8);
    s[c] = s[c].wrapping_add(s[d]);
    s[b] = (s[b] ^ s[c]).rotate_left(7);
}

/// A block of ChaCha with 8 rounds: the key is the seed and 24 zero bytes.
fn chacha8(seed: u64, stream: u64, block: u64) -> [u32; 16] {
    let start = [
        0x6170_7865, 0x3320_646e, 0x7962_2d32, 0x6b20_6574, seed as u32, (seed >> 32) as u32, 0, 0, 0, 0, 0, 0,
        block as u32, (block >> 32) as u32, stream as u32, (stream >> 32) as u32,
    ];
    let mut s = start;
    for _ in 0..4 {
        quarter(&mut s, 0, 4, 8, 12);
        quarter(&mut s, 1, 5, 9, 13);
        quarter(&mut s, 2, 6, 10, 14);
        quarter(&mut s, 3, 7, 11, 15);
        quarter(&mut s, 0, 5, 10, 15);
        quarter(&mut s, 1, 6, 11, 12);
        quarter(&mut s, 2, 7, 8, 13);
        quarter(&mut s, 3, 4, 9, 14);
    }
    for i in 0..16 {
        s[i] = s[i].wrapping_add(start[i]);
    }
    s
}

/// The word of a stream at a place, by the block that was computed last.
fn word_at(kept: &mut Option<(u32, [u32; 16])>, seed: u64, stream: u64, place: u32) -> u32 {
    let wanted = place / 16;
    let words = match kept {
        Some((block, words)) if *block == wanted => *words,
        _ => {
            let words = chacha8(seed, stream, u64::from(wanted));
            *kept = Some((wanted, words));
            words
        }
    };
    words[place as usize % 16]
}

impl Pipe {
    fn is_lost(&mut self, seed: u64, number: usize, packet: u32) -> bool {
        self.keep != 1 << 32 && u64::from(word_at(&mut self.losses, seed, number as u64, packet)) >= self.keep
    }

    /// Whether the packet is dropped early, once the average has moved by how many wait.
    fn is_early(&mut self, seed: u64, number: usize, packet: u32) -> bool {
        let weight = 1u64 << self.shift;
        let waiting = self.finishes.len() as u64;
        self.average = ((weight - 1) * self.average + waiting * 65_536) / weight;
        if self.average >= self.most {
            return true;
        }
        if self.average < self.least || self.early_ppm == 0 {
            return false;
        }
        let part = u128::from(self.early_ppm) * u128::from(self.average - self.least);
        let limit = (part << 32) / u128::from(1_000_000 * (self.most - self.least));
        u128::from(word_at(&mut self.earlies, seed, (1 << 32) + number as u64, packet)) < limit
    }
}

fn records(text: &[u8]) -> (u32, Vec<Record>) {
    let magic = u32::from_le_bytes(text[..4].try_into().unwrap());
    let little = matches!(magic, 0xa1b2_c3d4 | 0xa1b2_3c4d);
    let fraction_ns = if matches!(magic, 0xa1b2_3c4d | 0x4d3c_b2a1) { 1 } else { 1_000 };
    let number = |at: usize| {
        let four = text[at..at + 4].try_into().unwrap();
        if little { u32::from_le_bytes(four) } else { u32::from_be_bytes(four) }
    };
    let mut all = Vec::new();
    let mut at = 24;
    while at < text.len() {
        let captured = number(at + 8) as usize;
        all.push(Record {
            time_ns: u64::from(number(at)) * 1_000_000_000 + u64::from(number(at + 4)) * fraction_ns,
            original: number(at + 12),
            start: at + 16,
            captured,
        });
        at += 16 + captured;
    }
    (number(20), all)
}

fn main() {
    let (mut trace, mut out, mut report) = (String::new(), String::new(), String::new());
    let (mut tick_ns, mut seed) = (100_000u64, 0u64);
    let mut specs = Vec::new();
    let mut words = std::env::args().skip(1).filter(|word| word != "red");
    while let Some(word) = words.next() {
        match word.as_str() {
            "--trace" => trace = words.next().unwrap(),
            "--out" => out = words.next().unwrap(),
            "--report" => report = words.next().unwrap(),
            "--tick-ns" => tick_ns = words.next().unwrap().parse().unwrap(),
            "--seed" => seed = words.next().unwrap().parse().unwrap(),
            _ => specs.push(word),
        }
    }
    let mut pipes: Vec<Pipe> = specs
        .iter()
        .map(|spec| {
            let values: Vec<u64> = spec.split(':').map(|value| value.parse().unwrap()).collect();
            Pipe {
                bps: values[0],
                latency_ticks: (values[1] * 1_000).div_ceil(tick_ns).max(1),
                queue: values[2] as usize,
                keep: (1_000_000 - values[3]) * (1 << 32) / 1_000_000,
                shift: values[4] as u32,
                least: values[5] * 65_536,
                most: values[6] * 65_536,
                early_ppm: values[7],
                average: 0,
                last_finish: 0,
                finishes: VecDeque::new(),
                losses: None,
                earlies: None,
                passed: 0,
                lost: 0,
                full: 0,
                early: 0,
            }
        })
        .collect();

    let text = fs::read(&trace).unwrap();
    let (link_type, packets) = records(&text);
    let base_ns = packets.iter().map(|packet| packet.time_ns).min().unwrap_or(0);

    let mut due = BinaryHeap::with_capacity(packets.len());
    for (number, packet) in packets.iter().enumerate() {
        due.push(Reverse(((packet.time_ns - base_ns) / tick_ns, number as u32, 0u32)));
    }
    let mut fates: Vec<Fate> = packets.iter().map(|_| Fate::Left(0)).collect();
    while let Some(Reverse((tick, packet, hop))) = due.pop() {
        let number = hop as usize;
        let pipe = &mut pipes[number];
        let now = tick * tick_ns;
        while pipe.finishes.front().is_some_and(|finish| *finish <= now) {
            pipe.finishes.pop_front();
        }
        if pipe.is_lost(seed, number, packet) {
            pipe.lost += 1;
            fates[packet as usize] = Fate::Dropped { pipe: number, tick, cause: "loss" };
        } else if pipe.is_early(seed, number, packet) {
            pipe.early += 1;
            fates[packet as usize] = Fate::Dropped { pipe: number, tick, cause: "early" };
        } else if pipe.finishes.len() >= pipe.queue {
            pipe.full += 1;
            fates[packet as usize] = Fate::Dropped { pipe: number, tick, cause: "full" };
        } else {
            pipe.passed += 1;
            let transmission = (u64::from(packets[packet as usize].original) * 8_000_000_000).div_ceil(pipe.bps);
            let finish = now.max(pipe.last_finish) + transmission;
            pipe.last_finish = finish;
            pipe.finishes.push_back(finish);
            let exit = finish.div_ceil(tick_ns) + pipe.latency_ticks;
            if number + 1 < pipes.len() {
                due.push(Reverse((exit, packet, hop + 1)));
            } else {
                fates[packet as usize] = Fate::Left(exit);
            }
        }
    }

    let mut left: Vec<(u64, usize)> = Vec::new();
    let mut lines = String::new();
    for (packet, fate) in fates.iter().enumerate() {
        match fate {
            Fate::Left(tick) => left.push((*tick, packet)),
            Fate::Dropped { pipe, tick, cause } => {
                writeln!(lines, "drop {packet} pipe {pipe} tick {tick} cause {cause}").unwrap();
            }
        }
    }
    left.sort_unstable();

    let mut to = BufWriter::with_capacity(65_536, File::create(&out).unwrap());
    for value in [0xa1b2_3c4du32, 0x0004_0002, 0, 0, 262_144, link_type] {
        to.write_all(&value.to_le_bytes()).unwrap();
    }
    for (tick, packet) in &left {
        let record = &packets[*packet];
        let time_ns = base_ns + tick * tick_ns;
        for value in [(time_ns / 1_000_000_000) as u32, (time_ns % 1_000_000_000) as u32, record.captured as u32, record.original] {
            to.write_all(&value.to_le_bytes()).unwrap();
        }
        to.write_all(&text[record.start..record.start + record.captured]).unwrap();
    }
    to.flush().unwrap();

    let mut head = String::from("modelnet red report 1\n");
    let all = packets.len();
    writeln!(head, "packets {all} bound {all} unbound 0 left {} dropped {}", left.len(), all - left.len()).unwrap();
    for (number, pipe) in pipes.iter().enumerate() {
        if pipe.passed + pipe.lost + pipe.full + pipe.early > 0 {
            let Pipe { passed, lost, full, early, .. } = pipe;
            writeln!(head, "pipe {number} passed {passed} lost {lost} full {full} early {early}").unwrap();
        }
    }
    head.push_str(&lines);
    fs::write(&report, head).unwrap();
}
