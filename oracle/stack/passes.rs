//! What `bench/stack` times, for the port and for egui's text: calls on a stack of areas side by side, each on a layer of its own, the lowest first.
use std::hint::black_box;
use std::time::Instant;

pub trait Stack {
    fn set_state(&mut self, area: &Area);
    fn move_to_top(&mut self, area: &Area);
    fn set_sublayer(&mut self, parent: &Area, child: &Area);
    fn end_pass(&mut self);
    /// The id of the layer that is hit, or 0.
    fn layer_id_at(&mut self, x: f32, y: f32) -> u64;
}

pub struct Area {
    pub id: u64,
    pub x: f32,
}

/// How wide and high each area is.
pub const SIZE: f32 = 16.0;

pub const SIZES: [usize; 2] = [8, 64];

const RUNS: usize = 200_000;

/// Ids are spread over all numbers, as hashes are.
fn areas(count: usize) -> Vec<Area> {
    (0..count)
        .map(|i| Area {
            id: (i as u64 + 1).wrapping_mul(0x9e37_79b9_7f4a_7c15),
            x: 32.0 * i as f32,
        })
        .collect()
}

/// Nanoseconds a turn, the best of seven runs.
fn best(turns: usize, mut turn: impl FnMut(usize)) -> f64 {
    let mut best = f64::INFINITY;
    for _ in 0..7 {
        let begun = Instant::now();
        (0..turns).for_each(&mut turn);
        best = best.min(begun.elapsed().as_nanos() as f64 / turns as f64);
    }
    best
}

/// The name and the time of each kind of call.
pub fn times<S: Stack>(count: usize, new: impl Fn() -> S) -> Vec<(&'static str, f64)> {
    let areas = areas(count);
    let shown = || {
        let mut stack = new();
        areas.iter().for_each(|a| stack.set_state(a));
        stack.end_pass();
        stack
    };
    let hit = |x: f32| {
        let mut stack = shown();
        best(RUNS, |_| {
            black_box(stack.layer_id_at(black_box(x), 8.0));
        })
    };
    let ends = RUNS / count;
    vec![
        ("set_state", {
            let mut stack = shown();
            best(RUNS, |i| stack.set_state(black_box(&areas[i % count])))
        }),
        ("end_pass", {
            let mut stack = shown();
            best(ends, |_| stack.end_pass())
        }),
        ("the lowest raised, end_pass", {
            let mut stack = shown();
            best(ends, |i| {
                stack.move_to_top(black_box(&areas[i % count]));
                stack.end_pass();
            })
        }),
        ("half are sublayers, end_pass", {
            let mut stack = shown();
            best(ends, |_| {
                for i in 0..count / 2 {
                    stack.set_sublayer(&areas[i], &areas[i + count / 2]);
                }
                stack.end_pass();
            })
        }),
        ("hit, the top layer", hit(areas[count - 1].x)),
        ("hit, the lowest", hit(areas[0].x)),
        ("hit, none", hit(-100.0)),
    ]
}
