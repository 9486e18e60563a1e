//! Every limit from both sides: tables filled up to it and past it, lists, numbers and lines as long as may be and longer.
use super::draw::{BOUND, Draw, listed};

pub fn limits(d: &mut Draw) -> Vec<String> {
    match d.rng.below(24) {
        0 => whole_session(d),
        1 => long_lines(d),
        2..8 => full_stack(d),
        8..13 => full_cache(d),
        13..18 => long_events(d),
        _ => long_used(d),
    }
}

/// Numbers at the edge of what is read and of what is taken, in every place.
pub fn numbers(d: &mut Draw) -> Vec<String> {
    let names = ["area", "hit", "end", "want", "begin", "modal"];
    (0..40)
        .map(|_| {
            d.malice = d.rng.pick(&[3, 8, 30, 60]);
            let name = d.rng.pick(&names);
            d.form(name)
        })
        .collect()
}

/// A session as long as may be, or a byte or two beside that, of blank lines or of forms.
fn whole_session(d: &mut Draw) -> Vec<String> {
    let length = d.rng.pick(&[65_535, 65_536, 65_537, 65_538]);
    let line = d.rng.pick(&["", "(focus)", "(begin)", "(hit 0 0)", "x"]);
    let count = length / (line.len() + 1);
    let mut lines = vec![line.to_owned(); count];
    lines.push(" ".repeat(length - count * (line.len() + 1)));
    lines
}

/// A form whose line has so many bytes: zeros at the end of its last number, and used entries before.
fn of_length(name: &str, entry: &str, length: usize) -> String {
    let room = length - name.len() - 2;
    let mut line = format!("({name}");
    for _ in 0..room / (entry.len() + 1) - 1 {
        line.push(' ');
        line.push_str(entry);
    }
    let left = length - line.len() - 1;
    line.push(' ');
    line.push_str(&entry[..entry.len() - 1]);
    line.push_str(&"0".repeat(left - entry.len() - 1));
    line + "))"
}

fn long_lines(d: &mut Draw) -> Vec<String> {
    let length = d.rng.pick(&[16_383, 16_384, 16_385]);
    let mut lines = vec![
        "(begin)".to_owned(),
        of_length("end", "(7 0 0 4 1)", length),
        of_length("begin", "(ask 1)", length),
        format!("(focus){}", " ".repeat(length - 7)),
    ];
    if d.rng.percent(50) {
        // An entry that is none, in a line that is else a form.
        let place = d.rng.below(2) + 1;
        lines[place] = lines[place].replacen(" (", "(", 1);
    }
    d.rng.shuffle(&mut lines);
    lines
}

/// The ids from 1 to a count near the limit.
fn near(d: &mut Draw, limit: u64) -> Vec<u64> {
    let count = limit - 2 + d.rng.below(4) as u64;
    let mut ids: Vec<u64> = (1..=count).collect();
    if d.rng.percent(50) {
        d.rng.shuffle(&mut ids);
    }
    ids
}

/// Once a table is full, other refusals join the one for its limit.
fn turn_hostile(d: &mut Draw) {
    d.malice = d.rng.pick(&[0, 8, 20]);
}

fn full_stack(d: &mut Draw) -> Vec<String> {
    let ids = near(d, 64);
    let mut lines: Vec<String> = ids
        .into_iter()
        .map(|id| match d.rng.below(3) {
            0 => format!("(top {} {id})", d.order()),
            _ => format!("(area {} {id} {} 0 64 64)", d.order(), 8 * id),
        })
        .collect();
    lines.push(d.rng.pick(&["(end)", "(hit 8 8)"]).to_owned());
    turn_hostile(d);
    for _ in 0..20 {
        let (order, id, other) = (d.order(), 60 + d.rng.below(10), 60 + d.rng.below(10));
        lines.push(match d.rng.below(9) {
            0 => format!("(top {order} {id})"),
            1 => format!("(area {order} {id} 0 0 64 64)"),
            2 => format!("(sub 1 {id} {id})"),
            3 => format!("(modal 1 {id})"),
            4 => d.any_form(),
            5 => format!("(hit {} {})", 8 * id, d.rng.below(66)),
            6 => "(end)".to_owned(),
            _ => format!("(sub {order} {id} {other})"),
        });
    }
    lines
}

fn full_cache(d: &mut Draw) -> Vec<String> {
    let mut lines = vec!["(begin)".to_owned()];
    if d.rng.percent(40) {
        // The modal layer of the next pass turns interest calls away.
        lines.push("(modal 2 9)".to_owned());
    }
    lines.extend(near(d, 256).iter().map(|id| format!("(want 1 7 {id})")));
    if d.rng.percent(60) {
        lines.push("(end)".to_owned());
    }
    turn_hostile(d);
    for _ in 0..14 {
        let id = 250 + d.rng.below(12);
        lines.push(match d.rng.below(8) {
            0 => "(modal 2 9)".to_owned(),
            1 => "(end)".to_owned(),
            2 => format!("(begin (ask {id}))"),
            3 => d.form("begin"),
            4 => d.form("want"),
            5 => format!("(want {} {id})", d.layer()),
            _ => format!("(want 1 7 {id})"),
        });
    }
    if d.rng.percent(50) {
        // A search drops the unused ids; their places are used again.
        let used: Vec<u64> = (1..=d.rng.below(9) as u64).collect();
        d.malice = 0;
        let end = d.end(&used);
        lines.extend(["(begin (ask 1))", "(begin (key 2 1 0))", &end].map(str::to_owned));
        lines.extend((1000..1257).map(|id| format!("(want 1 7 {id})")));
    }
    lines.push("(focus)".to_owned());
    lines
}

fn cached_pair() -> Vec<String> {
    vec!["(want 1 7 1)".to_owned(), "(want 1 7 2)".to_owned()]
}

fn long_events(d: &mut Draw) -> Vec<String> {
    let mut lines = cached_pair();
    for _ in 0..6 {
        d.malice = d.rng.pick(&[0, 0, 1]);
        let count = 62 + d.rng.below(5);
        lines.push(d.begin(count));
        lines.push("(focus)".to_owned());
    }
    lines
}

fn long_used(d: &mut Draw) -> Vec<String> {
    let mut lines = cached_pair();
    for _ in 0..3 {
        d.malice = d.rng.pick(&[0, 0, 0, 1]);
        let mut ids = near(d, 257);
        d.repeat_one(&mut ids);
        lines.push("(begin (ask 1))".to_owned());
        lines.push("(begin (key 2 1 0))".to_owned());
        lines.push(d.end(&ids));
        lines.push("(focus)".to_owned());
    }
    if d.rng.percent(30) {
        let entry = format!("(1 {BOUND} {BOUND} {BOUND} {BOUND})");
        lines.push(listed("end", &[entry]));
    }
    lines
}
