//! Keys one by one, and the focus handed over in every way that a few calls on a few ids can bring about.
use crate::draw::Draw;

/// One key with every set of modifiers, a pass each.
pub fn modifiers(d: &mut Draw) -> Vec<String> {
    let key = d.rng.below(7);
    let (pressed, repeat) = (u64::from(d.rng.percent(85)), d.rng.below(2));
    let mut lines = vec!["interest 1 1 7".to_owned()];
    for modifiers in 0..32 {
        if d.rng.percent(50) {
            lines.push("request_focus 1".to_owned());
        }
        lines.push(format!("begin 1 k {key} {pressed} {repeat} {modifiers}"));
        lines.push(d.rng.pick(&["focus_direction", "state"]).to_owned());
    }
    lines
}

/// Calls that give the focus or let it wait, on one to three ids, with the state after each.
pub fn hand_overs(d: &mut Draw) -> Vec<String> {
    let ids = d.rng.pick(&[1, 1, 2, 3]);
    let count = 8 + d.rng.below(30);
    let calls = (0..count).map(|_| hand_over(d, ids));
    calls.flat_map(|call| [call, "state".to_owned()]).collect()
}

fn hand_over(d: &mut Draw, ids: usize) -> String {
    let id = 1 + d.rng.below(ids);
    let tab = format!("k 5 1 0 {}", d.rng.pick(&[0, 4]));
    match d.rng.below(20) {
        0 | 1 => format!("request_focus {id}"),
        2 => format!("request_focus_next_frame {id}"),
        3 | 4 => format!("move_focus {}", d.rng.pick(&[4, 5])),
        5..8 => format!("begin 1 {tab}"),
        8 => "begin 0".to_owned(),
        9 => format!("begin 2 {tab} a {id}"),
        10 => format!("end 1 {id} 0 0 0 0"),
        11 => d.rng.pick(&["end 0", "stop_text_input", "new"]).to_owned(),
        12 => format!("{} {id}", d.rng.pick(&["surrender_focus", "ignore_focus"])),
        _ => format!("interest {id} 1 7"),
    }
}
