//! The time of a call, by the median of many short rounds.

use std::time::{Duration, Instant};

/// Rounds of each measurement, and the least time of one.
const ROUNDS: usize = 101;
const ROUND: Duration = Duration::from_millis(1);

/// The calls of one round: as many as take about `ROUND`.
fn calls_a_round(work: &mut dyn FnMut()) -> u32 {
    let mut calls = 1;
    loop {
        let time = round(work, calls);
        if time >= ROUND || calls >= 1 << 24 {
            return calls;
        }
        calls *= 2;
    }
}

/// The time of so many calls.
fn round(work: &mut dyn FnMut(), calls: u32) -> Duration {
    let start = Instant::now();
    for _ in 0..calls {
        work();
    }
    start.elapsed()
}

/// The median time of a call of each work, in nanoseconds; the works take turns.
pub fn medians(works: &mut [&mut dyn FnMut()]) -> Vec<f64> {
    let calls: Vec<u32> = works.iter_mut().map(|work| calls_a_round(*work)).collect();
    let mut times = vec![Vec::with_capacity(ROUNDS); works.len()];
    for _ in 0..ROUNDS {
        for ((work, calls), times) in works.iter_mut().zip(&calls).zip(&mut times) {
            times.push(round(*work, *calls).as_nanos() as f64 / f64::from(*calls));
        }
    }
    let median = |mut times: Vec<f64>| {
        times.sort_by(f64::total_cmp);
        times[ROUNDS / 2]
    };
    times.into_iter().map(median).collect()
}

/// The same of so many works.
pub fn nanoseconds<const N: usize>(mut works: [&mut dyn FnMut(); N]) -> [f64; N] {
    let times = medians(&mut works);
    std::array::from_fn(|work| times[work])
}

/// Prints the head of a list of times: the engine's, then those of the others.
pub fn head(others: &[&str]) {
    print!("\n{:<18}{:>6}{:>11}", "call", "blocks", "engine");
    others.iter().for_each(|other| print!("{other:>11}"));
    others.iter().for_each(|other| print!("  / {other}"));
    println!("   growth");
}

/// Prints a line: the engine's time, the others', its ratio to each, and its growth since one block.
pub fn line(name: &str, blocks: usize, others: &[&str], times: &[f64], first: &mut Option<f64>) {
    let engine = times[0];
    print!("{name:<18}{blocks:>6}");
    times.iter().for_each(|time| print!("{time:>11.1}"));
    for (other, time) in others.iter().zip(&times[1..]) {
        print!("{:>width$.2}", engine / time, width = other.len() + 4);
    }
    println!("{:>9.1}", engine / *first.get_or_insert(engine));
}
