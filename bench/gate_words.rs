//! Times lanes that are used at once, by how far apart their gate words lie.
//!
//! usage: rustc -O -o /tmp/gate_words bench/gate_words.rs && /tmp/gate_words [LANES] [ITEMS]
//!
//! LANES lanes (2 where none is given) of two threads each pass ITEMS items (a million). A lane is a gate word and a box, in steps as
//! those of crates/gate_box: claim, put, post; take, clear. The words of neighbours are 8 bytes apart, so that two lanes share a cache
//! line; 64 bytes, a line each; and 128 bytes, as in crates/gate_box, where no line that is fetched with its neighbour is shared
//! either. Each line is one round: items a second through each lane.

use std::sync::atomic::{AtomicU64, Ordering::SeqCst};
use std::thread;
use std::time::Instant;

/// The bytes of a word.
const WORD: usize = 8;

/// A region whose words are used as the gate words of lanes, at the start of a cache line.
#[repr(align(128))]
struct Words([AtomicU64; 256]);

/// The box of one lane, in a line of its own.
#[repr(align(128))]
struct Slot(AtomicU64);

/// After a miss the thread looks again, and gives its processor up where that doesn't help.
fn wait(misses: &mut u32) {
    *misses += 1;
    if *misses < 64 {
        std::hint::spin_loop();
    } else {
        thread::yield_now();
    }
}

fn post_all(gate: &AtomicU64, slot: &Slot, items: u64) {
    let mut misses = 0;
    for next in 0..items {
        while gate.compare_exchange(4 * next, 4 * next + 1, SeqCst, SeqCst).is_err() {
            wait(&mut misses);
        }
        misses = 0;
        slot.0.swap(next, SeqCst);
        gate.store(4 * next + 2, SeqCst);
    }
}

fn take_all(gate: &AtomicU64, slot: &Slot, items: u64) -> u64 {
    let (mut misses, mut sum) = (0, 0);
    for next in 0..items {
        while gate.compare_exchange(4 * next + 2, 4 * next + 3, SeqCst, SeqCst).is_err() {
            wait(&mut misses);
        }
        misses = 0;
        sum += slot.0.swap(0, SeqCst);
        gate.store(4 * next + 4, SeqCst);
    }
    sum
}

/// Items a second through each of the lanes, whose words are so many bytes apart.
fn rate(lanes: usize, items: u64, apart: usize) -> u64 {
    let words = Words([const { AtomicU64::new(0) }; 256]);
    let slots: Vec<Slot> = (0..lanes).map(|_| Slot(AtomicU64::new(0))).collect();
    let begin = Instant::now();
    thread::scope(|scope| {
        for (lane, slot) in slots.iter().enumerate() {
            let gate = &words.0[lane * apart / WORD];
            scope.spawn(move || post_all(gate, slot, items));
            scope.spawn(move || assert_eq!(take_all(gate, slot, items), items * (items - 1) / 2));
        }
    });
    items * 1_000_000 / begin.elapsed().as_micros() as u64
}

fn main() {
    let mut words = std::env::args().skip(1);
    let lanes = words.next().map_or(2, |word| word.parse().expect("a number of lanes"));
    let items = words.next().map_or(1_000_000, |word| word.parse().expect("a number of items"));
    assert!((1..=16).contains(&lanes), "from 1 to 16 lanes");
    for _round in 0..3 {
        for apart in [8, 64, 128] {
            println!("{lanes} lanes, words {apart:>3} bytes apart: {:>10} items a second, each", rate(lanes, items, apart));
        }
    }
}
