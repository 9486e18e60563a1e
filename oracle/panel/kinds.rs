//! The kinds of sessions: random, around limits and refusals, badly spelt, and realistic ones.
use super::draw::Draw;
use super::{limits, pages, spelling, tables};
use crate::rng::Rng;

type Kind = fn(&mut Draw) -> Vec<String>;

/// Each kind with its malice.
const KINDS: &[(&str, usize, Kind)] = &[
    ("any forms", 1, any_forms),
    ("refusals", 12, any_forms),
    ("misspelt", 2, spelling::misspelt),
    ("limits", 0, limits::limits),
    ("numbers", 30, limits::numbers),
    ("areas", 1, tables::areas),
    ("hits", 0, tables::hits),
    ("families", 0, tables::families),
    ("stacks", 0, tables::stacks),
    ("pages", 0, pages::pages),
    ("ring", 0, pages::ring),
    ("arrows", 0, pages::arrows),
    ("grid", 0, pages::grid),
    ("boxes", 0, pages::boxes),
];

pub struct Session {
    pub kind: &'static str,
    pub bytes: Vec<u8>,
}

pub fn session(seed: u64, number: u64) -> Session {
    let (kind, malice, make) = KINDS[(number % KINDS.len() as u64) as usize];
    let mut rng = Rng::of(seed, number);
    let pool = rng.pick(&[2, 3, 6, 6]);
    let mut draw = Draw { rng, malice, pool };
    let lines = make(&mut draw);
    let mut bytes = lines.join("\n").into_bytes();
    // The end of the input also ends the last line.
    if draw.rng.percent(80) {
        bytes.push(b'\n');
    }
    // Longer sessions are `no 5` alone, which `limits` draws by itself.
    if kind != "limits" {
        bytes.truncate(65_536);
    }
    Session { kind, bytes }
}

fn any_forms(d: &mut Draw) -> Vec<String> {
    let count = 5 + d.rng.below(60);
    (0..count).map(|_| d.any_form()).collect()
}
