//! Document 01's refusals, written from its table alone: each gives its number or nothing, and the lowest number wins.
use crate::emath::{Pos2, Rect};
use crate::words::{EventWords, LayerWords, StateWords, WidgetWords};

pub const ZERO_ID: u64 = 1;
pub const CODE: u64 = 2;
pub const OFF_GRID: u64 = 3;
pub const REVERSED: u64 = 4;
pub const LIST: u64 = 5;
pub const FULL: u64 = 6;
pub const OTHER_LAYER: u64 = 7;
pub const PAIR: u64 = 8;
pub const FAMILY: u64 = 9;

pub const LAYERS: usize = 64;
pub const WIDGETS: usize = 256;
pub const CACHED: usize = 256;
pub const EVENTS: usize = 64;
pub const USED: usize = 256;

pub type Refusal = Option<u64>;

pub fn lowest(all: impl IntoIterator<Item = Refusal>) -> Refusal {
    all.into_iter().flatten().min()
}

pub fn when(number: u64, applies: bool) -> Refusal {
    applies.then_some(number)
}

pub fn id(n: u64) -> Refusal {
    when(ZERO_ID, n == 0)
}

pub fn code(n: u64, last: u64) -> Refusal {
    when(CODE, last < n)
}

pub fn order(n: u64) -> Refusal {
    code(n, 4)
}

pub fn direction(n: u64) -> Refusal {
    code(n, 6)
}

pub fn layer((o, l): LayerWords) -> Refusal {
    lowest([order(o), id(l)])
}

/// A whole number of steps of 1/steps, of any size. An f64 holds the product exactly.
fn on_grid(x: f32, steps: f64) -> bool {
    x.is_finite() && (f64::from(x) * steps).fract() == 0.0
}

fn within(x: f32, steps: f64, bound: f32) -> bool {
    on_grid(x, steps) && x.abs() <= bound
}

pub fn corner(p: Pos2) -> Refusal {
    let taken = within(p.x, 32.0, 16384.0) && within(p.y, 32.0, 16384.0);
    when(OFF_GRID, !taken)
}

fn pivot_pos(p: Pos2) -> Refusal {
    let taken = within(p.x, 64.0, 32768.0) && within(p.y, 64.0, 32768.0);
    when(OFF_GRID, !taken)
}

/// A finite negative size on the grid is 4, however large.
fn side(x: f32) -> Refusal {
    if x < 0.0 && on_grid(x, 32.0) {
        Some(REVERSED)
    } else {
        when(OFF_GRID, !within(x, 32.0, 16384.0))
    }
}

pub fn rect(r: Rect) -> Refusal {
    let reversed = r.max.x < r.min.x || r.max.y < r.min.y;
    lowest([corner(r.min), corner(r.max), when(REVERSED, reversed)])
}

pub fn state(s: &StateWords) -> Refusal {
    lowest([
        code(s.pivot[0], 2),
        code(s.pivot[1], 2),
        s.pivot_pos.and_then(pivot_pos),
        s.size.and_then(|z| lowest([side(z.x), side(z.y)])),
    ])
}

pub fn event(e: &EventWords) -> Refusal {
    match *e {
        EventWords::Key { key, modifiers, .. } => lowest([code(key, 144), code(modifiers, 31)]),
        EventWords::Focus(target) => id(target),
        EventWords::Pointer(_) | EventWords::Zoom(_) | EventWords::Other => None,
    }
}

/// A list too long is 5 before its entries are looked at.
pub fn events(all: &[EventWords]) -> Refusal {
    if EVENTS < all.len() {
        Some(LIST)
    } else {
        lowest(all.iter().map(event))
    }
}

pub fn used(all: &[(u64, Rect)]) -> Refusal {
    if USED < all.len() {
        return Some(LIST);
    }
    let mut ids: Vec<u64> = all.iter().map(|&(n, _)| n).collect();
    ids.sort_unstable();
    let twice = ids.windows(2).any(|pair| pair[0] == pair[1]);
    let entries = all.iter().map(|&(n, r)| lowest([id(n), rect(r)]));
    lowest(entries.chain([when(LIST, twice)]))
}

pub fn widget(called: LayerWords, w: &WidgetWords) -> Refusal {
    lowest([
        layer(called),
        id(w.id),
        id(w.parent),
        layer(w.layer),
        rect(w.rect),
        rect(w.interact_rect),
        code(w.sense, 7),
        when(OTHER_LAYER, called != w.layer),
    ])
}
