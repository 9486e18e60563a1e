//! Every limit from both sides: a table filled up to it and past it, with other refusals beside it; a list as long as may be and longer.
use crate::draw::Draw;
use crate::registry;

pub fn limits(d: &mut Draw) -> Vec<String> {
    match d.rng.below(40) {
        0 => long_lines(d),
        1..9 => full_stack(d),
        9..17 => full_cache(d),
        17..25 => registry::full(d),
        25..33 => long_events(d),
        _ => long_used(d),
    }
}

/// The ids from 1 to a count near the limit.
pub fn near(d: &mut Draw, limit: u64) -> Vec<u64> {
    let count = limit - 2 + d.rng.below(4) as u64;
    let mut ids: Vec<u64> = (1..=count).collect();
    if d.rng.percent(50) {
        d.rng.shuffle(&mut ids);
    }
    ids
}

/// Once the table is full, other refusals join the one for its limit.
pub fn turn_hostile(d: &mut Draw) {
    d.malice = d.rng.pick(&[0, 10, 25]);
}

fn layers(d: &mut Draw, count: Vec<u64>) -> Vec<String> {
    let fill = count.into_iter().map(|id| {
        let order = d.order();
        if d.rng.percent(50) {
            format!("set_state {order} {id} {}", d.state())
        } else {
            format!("move_to_top {order} {id}")
        }
    });
    fill.collect()
}

pub fn full_stack(d: &mut Draw) -> Vec<String> {
    let ids = near(d, 64);
    let mut lines = layers(d, ids);
    lines.push(d.rng.pick(&["end 0", "layer_ids"]).to_owned());
    turn_hostile(d);
    for _ in 0..16 {
        lines.push(beside_full_stack(d));
        if d.rng.percent(20) {
            lines.push(
                d.rng
                    .pick(&["layer_ids", "state", "end 0", "count"])
                    .to_owned(),
            );
        }
    }
    if d.rng.percent(20) {
        lines.push("reset_areas".to_owned());
        d.malice = 0;
        lines.append(&mut layers(d, (30..96).collect()));
    }
    lines
}

fn beside_full_stack(d: &mut Draw) -> String {
    let order = d.order();
    let [id, other] = [(); 2].map(|()| 60 + d.rng.below(10));
    match d.rng.below(9) {
        0 => format!("move_to_top {order} {id}"),
        1 => format!("set_state {order} {id} {}", d.state()),
        2 => format!("set_sublayer 1 {id} 1 {id}"),
        3 => format!("set_modal_layer 1 {id}"),
        4 => d.call("set_sublayer"),
        5 => d.call("move_to_top"),
        6 => d.call("set_state"),
        _ => format!("set_sublayer {order} {id} 1 {other}"),
    }
}

fn interests(ids: Vec<u64>) -> impl Iterator<Item = String> {
    ids.into_iter().map(|id| format!("interest {id} 1 7"))
}

fn full_cache(d: &mut Draw) -> Vec<String> {
    let mut lines = vec!["begin 0".to_owned()];
    if d.rng.percent(40) {
        // The modal layer of the next pass turns interest calls away.
        lines.push("set_modal_layer 2 9".to_owned());
    }
    let ids = near(d, 256);
    lines.extend(interests(ids));
    if d.rng.percent(60) {
        lines.push("end 0".to_owned());
    }
    turn_hostile(d);
    for _ in 0..14 {
        lines.push(beside_full_cache(d));
    }
    if d.rng.percent(30) {
        // A search drops the unused ids; their places are used again.
        let used: Vec<u64> = (1..=d.rng.below(9) as u64).collect();
        d.malice = 0;
        lines.push("request_focus 1".to_owned());
        lines.push("begin 1 k 2 1 0 0".to_owned());
        lines.push(format!("end {}", d.used_of(&used)));
        lines.extend(interests((1000..1257).collect()));
    }
    lines
}

fn beside_full_cache(d: &mut Draw) -> String {
    let id = 250 + d.rng.below(12);
    match d.rng.below(9) {
        0 => format!("ignore_focus {id}"),
        1 => format!("request_focus {id}"),
        2 => "set_modal_layer 2 9".to_owned(),
        3 => "end 0".to_owned(),
        4 => format!("begin 1 k {} 1 0 0", d.key()),
        5 => d.call("interest"),
        6 => format!("interest {id} {}", d.layer()),
        _ => format!("interest {id} 1 7"),
    }
}

fn cached_pair() -> Vec<String> {
    vec!["interest 1 1 7".to_owned(), "interest 2 1 7".to_owned()]
}

fn long_events(d: &mut Draw) -> Vec<String> {
    let mut lines = cached_pair();
    for _ in 0..6 {
        d.malice = d.rng.pick(&[0, 0, 1]);
        let count = 62 + d.rng.below(5);
        lines.push(format!("begin {}", d.events_of(count)));
        lines.push("state".to_owned());
    }
    lines
}

fn long_used(d: &mut Draw) -> Vec<String> {
    let mut lines = cached_pair();
    for _ in 0..3 {
        d.malice = d.rng.pick(&[0, 0, 0, 1]);
        let mut ids = near(d, 257);
        d.repeat_one(&mut ids);
        lines.push("begin 1 k 2 1 0 0".to_owned());
        lines.push("request_focus 1".to_owned());
        lines.push(format!("end {}", d.used_of(&ids)));
        lines.push("focused".to_owned());
    }
    lines
}

/// Lines up to 65,536 bytes, which are well formed and too long as lists, or hold one word that is none.
fn long_lines(d: &mut Draw) -> Vec<String> {
    let events = format!("begin 32761 a 10{}", " o".repeat(32760));
    let used = format!("end 6500{}", " 1 0 0 0 0".repeat(6500));
    let spoilt = format!("{} x", &events[..60_000]);
    assert_eq!(events.len(), 65_536, "the longest line");
    let mut lines = vec![events, used, spoilt];
    d.rng.shuffle(&mut lines);
    lines
}
