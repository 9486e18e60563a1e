//! What is timed of the focus, the port's and egui's: pages of two sizes, and passes over them.
use std::hint::black_box;
use std::time::Instant;

pub const SIZES: [usize; 2] = [16, 256];

pub const CALLS: [&str; 5] = [
    "begin, no event",
    "begin, 64 events",
    "an interest call",
    "end, quiet",
    "end, an arrow",
];

/// A field of a page: ids spread like hashes, and rectangles in rows of sixteen, left, top, right, bottom.
pub fn field(place: usize) -> (u64, [f32; 4]) {
    let id = (place as u64 + 1).wrapping_mul(0x9e37_79b9_7f4a_7c15) | 1;
    let (x, y) = ((place % 16) as f32 * 96.0, (place / 16) as f32 * 40.0);
    (id, [x, y, x + 80.0, y + 24.0])
}

/// An event: a key with its code, whether it is pressed, and its modifiers; or a request for the focus.
pub enum Happening {
    Key(u64, bool, u64),
    Request(u64),
}

/// Keys of all kinds, and last a request for a field in the middle of the page.
pub fn events(size: usize) -> Vec<Happening> {
    let keys = (0..63u64).map(|i| Happening::Key(i * 7 % 145, i % 2 == 0, i % 3));
    keys.chain([Happening::Request(field(size / 2).0)]).collect()
}

/// One side's focus. `turn` counts the calls; an arrow goes in the direction of turn modulo 4 from the field in the middle.
pub trait Side {
    fn begin(&mut self, with_events: bool) -> u64;
    /// One interest call for each field, in a pass that has begun.
    fn interests(&mut self) -> u64;
    fn end(&mut self, turn: u64, arrow: bool) -> u64;
}

/// Nanoseconds a turn, the best of seven runs.
fn nanoseconds(turns: u64, mut turn: impl FnMut(u64) -> u64) -> f64 {
    let mut best = f64::INFINITY;
    for _ in 0..7 {
        let start = Instant::now();
        for n in 0..turns {
            black_box(turn(black_box(n)));
        }
        best = best.min(start.elapsed().as_nanos() as f64 / turns as f64);
    }
    best
}

/// The times of the five calls, in their order.
pub fn times(side: &mut impl Side, size: usize) -> [f64; 5] {
    side.begin(false);
    side.interests();
    side.end(0, false);
    let turns = 400_000 / size as u64;
    [
        nanoseconds(turns, |_| side.begin(false)),
        nanoseconds(turns, |_| side.begin(true)),
        nanoseconds(turns, |_| side.interests()) / size as f64,
        nanoseconds(turns, |n| side.end(n, false)),
        nanoseconds(turns, |n| side.end(n, true)),
    ]
}

pub fn print(names: &[&str], sizes: impl Fn(usize, &str) -> [f64; 5]) {
    for size in SIZES {
        let all: Vec<[f64; 5]> = names.iter().map(|name| sizes(size, name)).collect();
        for (call, name) in CALLS.iter().enumerate() {
            let columns: Vec<String> = all.iter().map(|t| format!("{:.2}", t[call])).collect();
            println!("{name}|{size}|{}", columns.join("|"));
        }
    }
}
