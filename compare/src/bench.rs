//! Prints ratios of time, ours to plain Rust, from one run: the same calls over the same files, both
//! optimised. Ratios only: absolute times say more about the machine than about the code.

#[allow(dead_code)]
mod independent;
mod linked;
mod numbers;
#[allow(dead_code)]
mod parks;
mod plain;

use parks::{Made, Rng, MOST_ROUNDS};
use std::hint::black_box;
use std::time::{Duration, Instant};

/// Samples of each side, taken in turn; the least of each counts.
const SAMPLES: u32 = 41;
/// The least time of one sample: a call is repeated until it takes this long.
const SAMPLE: Duration = Duration::from_millis(3);

fn main() {
    println!("Ratios of time, ours to plain Rust, each a whole call: file in, file out.");
    println!("Each node searches the whole link list, on both sides. Count 1 does two rounds'");
    println!("work: the one asked for, and the one that tells whether it is quiet.");
    println!(
        "At each measure: samples x calls a sample, both sides in turn; the least sample of each counts."
    );
    for (name, file) in files() {
        let rounds = linked::run(&file, MOST_ROUNDS, &mut file.clone(), 0)[2];
        measure_run(&format!("one round, {name}"), &file, 1);
        measure_run(&format!("whole run of {rounds} rounds, {name}"), &file, MOST_ROUNDS);
    }
    let largest = full().file();
    let title = format!("check, largest file ({} bytes)", largest.len());
    measure(&title, |_| linked::check(black_box(&largest)), |_| plain::check(black_box(&largest)), 0);
    measure(
        "exact table, full park",
        |area| linked::exact(black_box(&largest), area, 0),
        |area| plain::exact(black_box(&largest), area, 0),
        largest.len(),
    );
}

/// 256 nodes, 1,024 links; costs such that it settles in a few rounds.
fn full() -> Made {
    parks::full(&mut Rng::new(6), (30_000, 65_535))
}

/// The parks that are run, each with all state zero.
fn files() -> [(&'static str, Vec<u8>); 3] {
    let mut rng = Rng::new(60);
    let mut tower = |a: u16, b: u16| [a, b, rng.from_to(50, 200) as u16];
    // Six rows of ten towers, each linked to the next in its row and in its column.
    let mut towers = Vec::new();
    for node in 1..=60 {
        if node % 10 != 0 {
            towers.push(tower(node, node + 1));
        }
        if node <= 50 {
            towers.push(tower(node, node + 10));
        }
    }
    let chain: Vec<[u16; 3]> = (1..256).map(|node| [node, node + 1, 100]).collect();
    [
        ("full park (256 nodes, 1,024 links)", full().file()),
        ("60 towers (104 links)", Made::new(60, 1, &towers, &[8, 35, 60]).file()),
        ("chain (256 nodes, 255 links)", Made::new(256, 1, &chain, &[256]).file()),
    ]
}

fn measure_run(name: &str, file: &[u8], count: u32) {
    measure(
        name,
        |area| linked::run(black_box(file), count, area, 0),
        |area| plain::run(black_box(file), count, area, 0),
        file.len(),
    );
}

/// One line: the least time of ours over the least time of Rust. The area has `length` bytes.
fn measure<A, B>(name: &str, mut by_ours: A, mut by_rust: B, length: usize)
where
    A: FnMut(&mut [u8]) -> numbers::Answer,
    B: FnMut(&mut [u8]) -> numbers::Answer,
{
    let (mut first, mut second) = (vec![1; length], vec![2; length]);
    let same = by_ours(&mut first) == by_rust(&mut second) && first == second;
    assert!(same, "{name}: the two do not do the same work");
    let calls = calls_a_sample(|| by_rust(&mut second));
    let (mut ours, mut rust) = (Duration::MAX, Duration::MAX);
    for _ in 0..SAMPLES {
        ours = ours.min(time(calls, || by_ours(&mut first)));
        rust = rust.min(time(calls, || by_rust(&mut second)));
    }
    let ratio = ours.as_secs_f64() / rust.as_secs_f64();
    println!("{:<76}  ours/rust  {ratio:.2}", format!("{name}, {SAMPLES} x {calls}"));
}

/// How many calls make one sample.
fn calls_a_sample(mut call: impl FnMut() -> numbers::Answer) -> u32 {
    let mut calls = 1;
    while time(calls, &mut call) < SAMPLE {
        calls *= 2;
    }
    calls
}

fn time(calls: u32, mut call: impl FnMut() -> numbers::Answer) -> Duration {
    let start = Instant::now();
    for _ in 0..calls {
        black_box(call());
    }
    start.elapsed()
}
