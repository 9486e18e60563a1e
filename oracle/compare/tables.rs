//! Lists about the tables: layers that share an id, what a point hits, popups.
use crate::draw::{Draw, steps};

/// Five calls or more, fewer than `most` of them past that.
fn mixed(d: &mut Draw, calls: &[&'static str], most: usize) -> Vec<String> {
    let count = 5 + d.rng.below(most);
    (0..count)
        .map(|_| {
            let name = d.rng.pick(calls);
            if name == "end 0" {
                return name.to_owned();
            }
            d.call(name)
        })
        .collect()
}

/// The same, with one more line put in anywhere in so many of a hundred lists.
pub fn mixed_with(
    d: &mut Draw,
    calls: &[&'static str],
    most: usize,
    line: &str,
    share: usize,
) -> Vec<String> {
    let mut lines = mixed(d, calls, most);
    if d.rng.percent(share) {
        let place = d.rng.below(lines.len());
        lines.insert(place, line.to_owned());
    }
    lines
}

pub fn popups(d: &mut Draw) -> Vec<String> {
    let calls = [
        "open_popup",
        "open_popup_at",
        "keep_popup_open",
        "close_popup",
        "toggle_popup",
        "close_all_popups",
        "is_popup_open",
        "any_popup_open",
        "popup_position",
        "set_everything_is_visible",
        "everything_is_visible",
        "begin",
        "end",
        "end",
        "state",
    ];
    mixed(d, &calls, 40)
}

pub fn areas(d: &mut Draw) -> Vec<String> {
    let calls = [
        "set_state",
        "set_state",
        "set_state",
        "move_to_top",
        "move_to_top",
        "set_sublayer",
        "set_sublayer",
        "end",
        "end 0",
        "end 0",
        "end 0",
        "layer_id_at",
        "layer_id_at",
        "layer_ids",
        "count",
        "get",
        "area_rect",
        "is_interactable",
        "visible_last_frame",
        "is_visible",
        "is_sublayer",
        "compare_order",
        "visible_layer_ids",
        "visible_windows",
        "child_layers",
        "top_layer_id",
        "parent_layer",
        "set_modal_layer",
        "state",
    ];
    mixed_with(d, &calls, 60, "reset_areas", 10)
}

/// Passes over a few layers that share ids, and at the end whatever can be asked of each of them.
pub fn stacks(d: &mut Draw) -> Vec<String> {
    let mut lines = Vec::new();
    for _ in 0..2 + d.rng.below(5) {
        let calls = 1 + d.rng.below(8);
        lines.extend((0..calls).map(|_| stack_call(d)));
        lines.push(d.rng.pick(&["end 0", "end 0", "layer_ids"]).to_owned());
    }
    lines.append(&mut asked_of_all());
    lines
}

const ORDERS: [u64; 3] = [0, 1, 2];

const IDS: [u64; 4] = [5, 6, 7, 8];

fn stack_call(d: &mut Draw) -> String {
    let order = d.rng.pick(&[1, 1, 1, 0, 2]);
    let [id, other] = [(); 2].map(|()| d.rng.pick(&IDS));
    match d.rng.below(8) {
        0..3 => format!("set_state {order} {id} {}", d.state()),
        3 | 4 => format!("move_to_top {order} {id}"),
        5 => {
            let area = area(d);
            point(d, area)
        }
        _ => format!("set_sublayer {order} {id} {order} {other}"),
    }
}

fn asked_of_all() -> Vec<String> {
    let whole = ["layer_ids", "visible_layer_ids", "visible_windows", "count"];
    let mut lines: Vec<String> = whole.map(str::to_owned).to_vec();
    lines.extend(IDS.map(|id| format!("get {id}")));
    lines.extend(ORDERS.map(|order| format!("top_layer_id {order}")));
    for (order, id) in ORDERS.iter().flat_map(|o| IDS.iter().map(move |i| (o, i))) {
        let of_layer = [
            "visible_last_frame",
            "is_visible",
            "is_interactable",
            "parent_layer",
            "child_layers",
        ];
        lines.extend(of_layer.map(|call| format!("{call} {order} {id}")));
        lines.extend(IDS.map(|other| format!("compare_order {order} {id} {order} {other}")));
    }
    lines
}

/// A few areas over one another, and points at their corners and edges or a step beside them.
pub fn hits(d: &mut Draw) -> Vec<String> {
    let count = 2 + d.rng.below(5);
    let areas: Vec<[i64; 4]> = (0..count).map(|_| area(d)).collect();
    let mut lines = Vec::new();
    for _ in 0..3 + d.rng.below(5) {
        lines.append(&mut shown(d, &areas));
        let asides = 1 + d.rng.below(3);
        lines.extend((0..asides).map(|_| aside(d)));
        lines.extend((0..4).map(|_| {
            let area = d.rng.pick(&areas);
            point(d, area)
        }));
    }
    lines
}

/// The states of most areas.
fn shown(d: &mut Draw, areas: &[[i64; 4]]) -> Vec<String> {
    let mut lines = Vec::new();
    for (i, area) in areas.iter().enumerate() {
        if d.rng.percent(60) {
            lines.push(set_state(d, i, area));
        }
    }
    lines
}

/// A small rectangle, in 32nds.
fn area(d: &mut Draw) -> [i64; 4] {
    let [x, y] = [(); 2].map(|()| 8 * d.rng.between(-2, 4));
    let [width, height] = [(); 2].map(|()| 8 * d.rng.between(0, 6));
    [x, y, x + width, y + height]
}

/// The state of an area on one of two layers that may share its id.
fn set_state(d: &mut Draw, place: usize, area: &[i64; 4]) -> String {
    let [x, y] = [area[0], area[1]].map(steps);
    let [width, height] = [area[2] - area[0], area[3] - area[1]].map(steps);
    let (order, interactable) = (d.order(), u64::from(d.rng.percent(70)));
    let id = 1 + place / 2;
    format!("set_state {order} {id} 1 {x} {y} 0 0 1 {width} {height} {interactable}")
}

fn aside(d: &mut Draw) -> String {
    let (order, id) = (d.order(), 1 + d.rng.below(5));
    match d.rng.below(7) {
        0 => format!("move_to_top {order} {id}"),
        1 => format!("set_modal_layer {order} {id}"),
        2 => format!("set_sublayer 1 {id} 1 {}", 1 + d.rng.below(4)),
        3 => "begin 0".to_owned(),
        4 => "top_modal_layer".to_owned(),
        _ => "end 0".to_owned(),
    }
}

fn point(d: &mut Draw, area: [i64; 4]) -> String {
    if d.rng.percent(8) {
        return d.call("layer_id_at");
    }
    let x = d.rng.pick(&[area[0], area[2]]) + d.rng.pick(&[0, 0, 1, -1]);
    let y = d.rng.pick(&[area[1], area[3]]) + d.rng.pick(&[0, 0, 1, -1]);
    format!("layer_id_at {} {}", steps(x), steps(y))
}
