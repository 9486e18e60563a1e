//! The port's directional search (crates/board, a static library) on the tables that `oracle searches` and `oracle times` take.
//!
//!     search searches N SEED     what it finds in N tables: a line a table, an id for each direction from 0 to 6
//!     search table N SEED        the table of line N: an id and four edges a line, the focused field last
//!     search times               nanoseconds a search, and the same for the plain loop in Rust below
mod clock;
#[path = "../compare/rng.rs"]
mod rng;
mod tables;

use rng::Rng;
use std::io::{BufWriter, Write};
use tables::{COUNTS, LAYOUTS, Table};

#[link(name = "board", kind = "static")]
unsafe extern "C" {
    fn jaturemi_find(
        ids: *const u64,
        ids_len: usize,
        rects: *const f32,
        rects_len: usize,
        focused: u64,
        left: f32,
        top: f32,
        right: f32,
        bottom: f32,
        direction: u64,
    ) -> u64;
}

/// A table as the port holds it.
struct Lent {
    ids: Vec<u64>,
    rects: Vec<f32>,
    focused: u64,
    current: [f32; 4],
}

impl Lent {
    fn new(table: &Table) -> Self {
        let focused = table.fields[table.focused];
        Self {
            ids: table.fields.iter().map(|f| f.id).collect(),
            rects: table.fields.iter().flat_map(|f| f.edges).collect(),
            focused: focused.id,
            current: focused.edges,
        }
    }

    /// The same with what is no candidate: every field's place once more with id 0, which is free, and at the end an id without
    /// its four edges.
    fn with_others(mut self) -> Self {
        self.ids = self.ids.iter().flat_map(|&id| [0, id]).collect();
        self.ids.push(1);
        let places = self.rects.chunks(4).flat_map(|place| [place, place]);
        self.rects = places.flatten().copied().chain([0.0; 3]).collect();
        self
    }

    fn find(&self, direction: u64) -> u64 {
        let (ids, rects) = (&self.ids, &self.rects);
        let [left, top, right, bottom] = self.current;
        // SAFETY: both slices live through the call, which only reads them.
        unsafe {
            jaturemi_find(
                ids.as_ptr(),
                ids.len(),
                rects.as_ptr(),
                rects.len(),
                self.focused,
                left,
                top,
                right,
                bottom,
                direction,
            )
        }
    }
}

/// How far the middle of a lies past that of b, or 0 where they overlap by half of the smaller or more.
fn range_diff(a: [f32; 2], b: [f32; 2]) -> f32 {
    let overlap = a[1].min(b[1]) - a[0].max(b[0]);
    if overlap >= 0.5 * (b[1] - b[0]).min(a[1] - a[0]) {
        return 0.0;
    }
    0.5 * (a[0] + a[1]) - 0.5 * (b[0] + b[1])
}

/// The loop as a Rust programmer would write it over a slice, with no map at all.
fn plain_loop(table: &Table, direction: u64) -> u64 {
    let [left, top, right, bottom] = table.fields[table.focused].edges;
    let (dx, dy): (f32, f32) =
        [(0.0, -1.0), (1.0, 0.0), (0.0, 1.0), (-1.0, 0.0)][direction as usize];
    let mut best = (f32::INFINITY, 0);
    for (place, field) in table.fields.iter().enumerate() {
        if place == table.focused {
            continue;
        }
        let [x0, y0, x1, y1] = field.edges;
        let x = range_diff([x0, x1], [left, right]);
        let y = range_diff([y0, y1], [top, bottom]);
        let length = x.hypot(y);
        let (ux, uy) = if length <= 0.0 {
            (x, y)
        } else {
            (x / length, y / length)
        };
        let cos = ux * dx + uy * dy;
        if 0.5_f32.sqrt() <= cos {
            let score = length / (cos * cos);
            if score < best.0 || (score == best.0 && field.id < best.1) {
                best = (score, field.id);
            }
        }
    }
    best.1
}

fn number(word: &str) -> u64 {
    word.parse().expect("a number")
}

fn main() -> std::io::Result<()> {
    let args: Vec<String> = std::env::args().skip(1).collect();
    let words: Vec<&str> = args.iter().map(String::as_str).collect();
    let mut out = BufWriter::new(std::io::stdout().lock());
    match words[..] {
        ["searches", count, seed] => {
            let mut rng = Rng::of(number(seed), 0);
            for _ in 0..number(count) {
                let lent = Lent::new(&tables::table(&mut rng)).with_others();
                let found: Vec<String> = (0..7).map(|d| lent.find(d).to_string()).collect();
                writeln!(out, "{}", found.join(" "))?;
            }
        }
        ["table", line, seed] => {
            let mut rng = Rng::of(number(seed), 0);
            let tables = (0..number(line)).map(|_| tables::table(&mut rng));
            let table = tables.last().expect("lines are counted from 1");
            for field in table.fields.iter().chain([&table.fields[table.focused]]) {
                writeln!(out, "{} {:?}", field.id, field.edges)?;
            }
        }
        ["times"] => {
            for (name, count) in LAYOUTS.iter().flat_map(|name| COUNTS.map(|n| (name, n))) {
                let table = tables::layout(name, count);
                let lent = Lent::new(&table);
                let port = clock::nanoseconds(count, |d| lent.find(d));
                let plain = clock::nanoseconds(count, |d| plain_loop(&table, d));
                writeln!(out, "{name} {count} {port:.1} {plain:.1}")?;
            }
        }
        _ => panic!("usage: search searches N SEED | table N SEED | times"),
    }
    out.flush()
}
