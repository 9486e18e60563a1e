//! The kinds of lists: random, around limits and refusals, and realistic ones. Each list begins with `new` and ends with `state`.
use crate::close_calls;
use crate::domain::respell;
use crate::draw::Draw;
use crate::keys;
use crate::limits;
use crate::pages;
use crate::registry;
use crate::rng::Rng;
use crate::tables;

type Kind = fn(&mut Draw) -> Vec<String>;

/// Each kind with its malice.
pub const KINDS: &[(&str, usize, Kind)] = &[
    ("leaves", 4, leaves),
    ("hostile leaves", 25, leaves),
    ("any calls", 2, any_calls),
    ("refusals", 15, any_calls),
    ("malformed", 5, malformed),
    ("malformed leaves", 1, malformed_leaves),
    ("limits", 0, limits::limits),
    ("registry", 1, registry::registry),
    ("widget pages", 0, registry::page),
    ("refused widgets", 0, registry::refused),
    ("areas", 1, tables::areas),
    ("stacks", 0, tables::stacks),
    ("full stacks", 0, limits::full_stack),
    ("hits", 0, tables::hits),
    ("popups", 1, tables::popups),
    ("ring", 0, pages::ring),
    ("passes", 1, pages::passes),
    ("filters", 0, pages::filters),
    ("modifiers", 0, keys::modifiers),
    ("hand-overs", 0, keys::hand_overs),
    ("arrows", 0, pages::arrows),
    ("close calls", 0, close_calls::close_calls),
    ("modal", 1, pages::modal),
];

pub struct List {
    pub number: u64,
    pub kind: &'static str,
    pub lines: Vec<String>,
}

pub fn list(seed: u64, number: u64) -> List {
    let (kind, malice, make) = KINDS[(number % KINDS.len() as u64) as usize];
    let mut rng = Rng::of(seed, number);
    let pool = rng.pick(&[2, 3, 6, 6]);
    let mut draw = Draw { rng, malice, pool };
    let mut lines = vec!["new".to_owned()];
    lines.append(&mut make(&mut draw));
    lines.push("state".to_owned());
    List {
        number,
        kind,
        lines,
    }
}

/// A call that needs no state.
fn leaf(d: &mut Draw) -> String {
    let calls = ["left_top_pos", "rect", "set_left_top_pos", "matches"];
    let name = d.rng.pick(&calls);
    d.call(name)
}

fn leaves(d: &mut Draw) -> Vec<String> {
    let count = 20 + d.rng.below(30);
    (0..count).map(|_| leaf(d)).collect()
}

fn any_calls(d: &mut Draw) -> Vec<String> {
    let count = 5 + d.rng.below(60);
    let mut lines = Vec::new();
    for _ in 0..count {
        lines.push(d.any_call());
        if d.rng.percent(20) {
            lines.push("state".to_owned());
        }
    }
    lines
}

fn malformed(d: &mut Draw) -> Vec<String> {
    spoilt(d, Draw::any_call)
}

fn malformed_leaves(d: &mut Draw) -> Vec<String> {
    spoilt(d, leaf)
}

/// Calls of which most have one thing wrong.
fn spoilt(d: &mut Draw, call: fn(&mut Draw) -> String) -> Vec<String> {
    let count = 5 + d.rng.below(40);
    (0..count)
        .map(|_| {
            let line = call(d);
            if d.rng.percent(70) {
                spoil(d, &line)
            } else {
                line
            }
        })
        .collect()
}

/// A line with one thing wrong, or rarely still right.
fn spoil(d: &mut Draw, line: &str) -> String {
    let mut words: Vec<String> = line.split(' ').map(str::to_owned).collect();
    let counted = ["begin", "end"].contains(&words[0].as_str());
    if counted && d.rng.percent(40) {
        words[1] = count_beside(d, &words[1]);
        return words.join(" ");
    }
    let place = d.rng.below(words.len());
    let word = d.rng.pick(ODD).to_owned();
    if !respell(&mut words, place, &word, d.rng.below(8)) {
        words[place] = word;
    }
    words.join(" ")
}

/// Words that are none, or that only some places take.
const ODD: &[&str] = &[
    "",
    "00",
    "01",
    "+1",
    "-1",
    "-0",
    "nan",
    "inf",
    "1.0",
    "2",
    "1e3",
    "x",
    "ok",
    "0x1",
    ":",
    "/",
    "k",
    "o",
    "4294967295",
    "4294967296",
    "18446744073709551615",
    "18446744073709551616",
    "99999999999999999999",
    "\t",
    "1\r",
    "\u{e9}",
];

/// A count of a list that is not its count.
fn count_beside(d: &mut Draw, count: &str) -> String {
    let count: u64 = count.parse().unwrap_or(0);
    let others = [0, count + 1, count.saturating_sub(1), u64::MAX];
    d.rng.pick(&others).to_string()
}
