//! Searches that hang on the last bit: two fields of nearly equal score, one field at the edge of the cone, two spans that overlap by
//! half. In the first two, fields are single points, so that the difference to a field is the difference of the points.
use crate::draw::{Draw, steps};

/// A difference in 32nds: along the arrow, and across it.
type Apart = (i64, i64);

const RIGHT: u64 = 2;

pub fn close_calls(d: &mut Draw) -> Vec<String> {
    let mut lines = Vec::new();
    for _ in 0..6 {
        let turn = d.rng.below(4);
        let end = match d.rng.below(10) {
            0..5 => {
                let apart = rivals(d);
                end(d, turn, &apart)
            }
            5..8 => {
                let apart = edge(d);
                end(d, turn, &apart)
            }
            _ => overlap(d, turn),
        };
        lines.push(format!("begin 1 k {} 1 0 0", turned_key(turn)));
        lines.extend((1..=3).map(|id| format!("interest {id} 1 7")));
        lines.push("request_focus 1".to_owned());
        lines.push(end);
        lines.push("focused".to_owned());
    }
    lines
}

/// How far ahead and aside a field may be, in 32nds: some searches near, most far.
fn reach(d: &mut Draw) -> i64 {
    d.rng.pick(&[40, 700, 20_000, 500_000])
}

/// The square of the score, in f64: length to the sixth by the part along the arrow to the fourth.
fn score((along, across): Apart) -> f64 {
    let (x, y) = (along as f64, across as f64);
    (x * x + y * y).powi(3) / x.powi(4)
}

/// Two fields in the cone whose scores are as near to each other as a few hundred draws find.
fn rivals(d: &mut Draw) -> Vec<Apart> {
    let reach = reach(d);
    let along = d.rng.between(reach / 2, reach);
    let first = (along, d.rng.between(-along / 2, along / 2));
    let mut best = (f64::INFINITY, first);
    for _ in 0..400 {
        let near = rival(d, first, reach);
        let gap = (score(near) / score(first) - 1.0).abs();
        if gap < best.0 && near.0 != first.0 {
            best = (gap, near);
        }
    }
    vec![first, best.1]
}

/// A field whose score is near: its part across is found by halving.
fn rival(d: &mut Draw, first: Apart, reach: i64) -> Apart {
    let along = d.rng.between(1 + first.0 / 2, reach);
    let (mut low, mut high) = (0, along);
    while low + 1 < high {
        let middle = (low + high) / 2;
        if score((along, middle)) < score(first) {
            low = middle;
        } else {
            high = middle;
        }
    }
    (along, low * d.rng.pick(&[1, -1]))
}

/// One field on the diagonal, or a step beside it.
fn edge(d: &mut Draw) -> Vec<Apart> {
    let reach = reach(d);
    let along = d.rng.between(1, reach);
    let across = along + d.rng.pick(&[0, 0, 0, 1, -1]);
    vec![(along, across * d.rng.pick(&[1, -1]))]
}

/// A field beside another that overlaps it across the arrow by half of the smaller span, or a step more or less. Along the arrow they are
/// so near that without an overlap the field is out of the cone.
fn overlap(d: &mut Draw, turn: usize) -> String {
    let span = d.rng.between(100, 400);
    let smaller = d.rng.between(40, span);
    let half = (smaller + d.rng.between(0, 1)) / 2 + d.rng.pick(&[0, 0, 1, -1]);
    let low = span - half;
    let first = [(0, 0), (8, span)];
    let second = [(10, low), (18, low + smaller)];
    let mut line = "end 2".to_owned();
    for (id, corners) in [(1, first), (2, second)] {
        let [a, b] = corners.map(|corner| turned(turn, corner));
        let words = [a.0.min(b.0), a.1.min(b.1), a.0.max(b.0), a.1.max(b.1)].map(steps);
        line.push_str(&format!(
            " {id} {} {} {} {}",
            words[0], words[1], words[2], words[3]
        ));
    }
    line
}

/// The arrow's key after so many quarter turns from Right to Down.
fn turned_key(turn: usize) -> u64 {
    [RIGHT, 0, 1, 3][turn]
}

fn turned(turn: usize, (along, across): Apart) -> (i64, i64) {
    match turn {
        0 => (along, across),
        1 => (-across, along),
        2 => (-along, -across),
        _ => (across, -along),
    }
}

/// The end of the pass: field 1 somewhere, and the others as far from it as asked for, if the grid has room for them.
fn end(d: &mut Draw, turn: usize, apart: &[Apart]) -> String {
    let places: Vec<(i64, i64)> = apart.iter().map(|&a| turned(turn, a)).collect();
    let room = 524_288
        - places
            .iter()
            .map(|p| p.0.abs().max(p.1.abs()))
            .max()
            .unwrap_or(0);
    let (x, y) = (
        d.rng.between(-room.max(0), room.max(0)),
        d.rng.between(-room.max(0), room.max(0)),
    );
    let mut line = format!("end {} {}", 1 + places.len(), entry(1, x, y));
    for (i, place) in places.iter().enumerate() {
        line.push(' ');
        line.push_str(&entry(2 + i as u64, x + place.0, y + place.1));
    }
    line
}

fn entry(id: u64, x: i64, y: i64) -> String {
    let (x, y) = (steps(x), steps(y));
    format!("{id} {x} {y} {x} {y}")
}
