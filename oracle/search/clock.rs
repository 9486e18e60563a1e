//! The time of a search, in nanoseconds: the best of several runs over the four arrows in turn.
use std::hint::black_box;
use std::time::Instant;

pub fn nanoseconds(count: usize, mut search: impl FnMut(u64) -> u64) -> f64 {
    let turns = 4_000_000 / count as u64;
    let mut best = f64::INFINITY;
    for _ in 0..7 {
        let start = Instant::now();
        for turn in 0..turns {
            black_box(search(black_box(turn % 4)));
        }
        best = best.min(start.elapsed().as_nanos() as f64 / turns as f64);
    }
    best
}
