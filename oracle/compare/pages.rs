//! Realistic lists: pages of fields, passed over again and again with keys, arrows and a modal box.
use crate::domain::spot;
use crate::draw::{Draw, steps};

pub struct Field {
    pub id: u64,
    pub layer: (u64, u64),
    /// In 32nds: min x, min y, max x, max y.
    pub rect: [i64; 4],
}

pub type Page = Vec<Field>;

const TAB: u64 = 5;
const SHIFT: u64 = 4;

pub fn key(code: u64, modifiers: u64) -> String {
    format!("k {code} 1 0 {modifiers}")
}

pub fn begin(events: &[String]) -> String {
    let mut line = format!("begin {}", events.len());
    for event in events {
        line.push(' ');
        line.push_str(event);
    }
    line
}

pub fn interest(field: &Field) -> String {
    format!("interest {} {} {}", field.id, field.layer.0, field.layer.1)
}

pub fn end<'a>(fields: impl Iterator<Item = &'a Field>) -> String {
    let entries: Vec<String> = fields
        .map(|f| {
            let [x0, y0, x1, y1] = f.rect.map(steps);
            format!(" {} {x0} {y0} {x1} {y1}", f.id)
        })
        .collect();
    format!("end {}{}", entries.len(), entries.concat())
}

/// A rectangle of a layout, or anywhere.
fn rect(d: &mut Draw, layout: usize, place: i64) -> [i64; 4] {
    let (x, y) =
        spot(layout, place).unwrap_or_else(|| (d.rng.between(-400, 400), d.rng.between(-400, 400)));
    let (width, height) = d.size(layout);
    [x, y, x + width, y + height]
}

pub fn page(d: &mut Draw, count: usize, layer: (u64, u64)) -> Page {
    let layout = d.rng.below(5);
    let places = d.places(count);
    let ids = d.ids(count);
    let fields = ids.into_iter().zip(places);
    fields
        .map(|(id, place)| Field {
            id,
            layer,
            rect: rect(d, layout, place),
        })
        .collect()
}

/// A whole pass: begin, an interest call a field, end.
fn pass(lines: &mut Vec<String>, page: &Page, events: &[String]) {
    lines.push(begin(events));
    lines.extend(page.iter().map(interest));
    lines.push(end(page.iter()));
    lines.push("focused".to_owned());
}

/// Tab and Shift+Tab, a quiet pass after each, as demand 3 has it.
pub fn ring(d: &mut Draw) -> Vec<String> {
    let count = match d.rng.below(60) {
        0 => 256,
        1..10 => 1 + d.rng.below(40),
        _ => 1 + d.rng.below(6),
    };
    let presses = if count < 64 { d.rng.below(12) } else { 2 };
    let page = page(d, count, (1, 7));
    let mut lines = Vec::new();
    pass(&mut lines, &page, &[key(TAB, 0)]);
    pass(&mut lines, &page, &[]);
    for _ in 0..presses {
        let modifiers = d.rng.pick(&[0, 0, SHIFT]);
        pass(&mut lines, &page, &[key(TAB, modifiers)]);
        pass(&mut lines, &page, &[]);
    }
    with_refused(d, lines)
}

/// Refused calls anywhere among the lines.
fn with_refused(d: &mut Draw, mut lines: Vec<String>) -> Vec<String> {
    for _ in 0..d.rng.below(4) {
        let place = d.rng.below(lines.len());
        lines.insert(place, refused(d));
    }
    lines
}

/// A call of the ring's that is refused, wherever it stands.
fn refused(d: &mut Draw) -> String {
    let calls = [
        "begin 1 k 145 1 0 0",
        "begin 2 k 5 1 0 0 a 0",
        "interest 0 1 7",
        "interest 1 5 7",
        "end 1 0 0 0 0 0",
        "end 2 1 0 0 0 0 1 0 0 0 0",
        "end 1 1 1065353216 0 0 0",
    ];
    d.rng.pick(&calls).to_owned()
}

/// A field with a filter, and passes in which several keys come at once.
pub fn filters(d: &mut Draw) -> Vec<String> {
    let count = 1 + d.rng.below(3);
    let page = page(d, count, (1, 7));
    let mut lines = Vec::new();
    pass(&mut lines, &page, &[]);
    for _ in 0..1 + d.rng.below(5) {
        let id = page[d.rng.below(count)].id;
        lines.push(format!("request_focus {id}"));
        pass(&mut lines, &page, &[]);
        let flags = [(); 4].map(|()| d.rng.below(2).to_string());
        lines.push(format!("set_focus_lock_filter {id} {}", flags.join(" ")));
        if d.rng.percent(30) {
            // A new focus, or the same anew, comes with a filter of its own.
            let other = page[d.rng.below(count)].id;
            let ask = d.rng.pick(&["request_focus_next_frame", "request_focus"]);
            lines.push(format!("{ask} {other}"));
        }
        let keys = 1 + d.rng.below(4);
        let keys: Vec<String> = (0..keys)
            .map(|_| key(d.rng.below(6) as u64, d.rng.pick(&[0, 0, 0, SHIFT])))
            .collect();
        pass(&mut lines, &page, &keys);
        lines.push("state".to_owned());
        lines.push(format!("lost_focus {id}"));
    }
    lines
}

const ASKS: [&str; 2] = ["request_focus", "request_focus_next_frame"];

/// Calls on an id that do not ask for it.
pub const OF_ID: [&str; 7] = [
    "surrender_focus",
    "ignore_focus",
    "has_focus",
    "had_focus_last_frame",
    "lost_focus",
    "gained_focus",
    "owns_ime_events",
];

/// A call that a program makes between the calls of a pass, on a field of the page.
fn aside(d: &mut Draw, page: &Page) -> String {
    let id = page[d.rng.below(page.len())].id;
    let name = d.rng.pick(&[&ASKS[..], &OF_ID].concat());
    match d.rng.below(12) {
        0 => "stop_text_input".to_owned(),
        1 => d.call("move_focus"),
        2..=4 => {
            let flags = [(); 4].map(|()| d.rng.below(2).to_string());
            format!("set_focus_lock_filter {id} {}", flags.join(" "))
        }
        5 => d
            .rng
            .pick(&["state", "focus_direction", "should_interrupt_ime"])
            .to_owned(),
        _ => format!("{name} {id}"),
    }
}

fn events(d: &mut Draw, page: &Page) -> Vec<String> {
    let count = d.rng.pick(&[0, 0, 1, 1, 1, 2, 3]);
    (0..count)
        .map(|_| {
            if d.rng.percent(15) {
                format!("a {}", page[d.rng.below(page.len())].id)
            } else {
                d.event()
            }
        })
        .collect()
}

/// Passes in which fields come and go, keys of every kind are pressed and programs ask for the focus.
pub fn passes(d: &mut Draw) -> Vec<String> {
    let count = 1 + d.rng.below(7);
    let page = page(d, count, (1, 7));
    let mut lines = Vec::new();
    for _ in 0..2 + d.rng.below(10) {
        let events = events(d, &page);
        lines.push(begin(&events));
        lines.append(&mut interests(d, &page));
        let kept: Vec<bool> = page.iter().map(|_| d.rng.percent(92)).collect();
        let used = page.iter().zip(&kept).filter(|(_, kept)| **kept);
        lines.push(end(used.map(|(field, _)| field)));
        lines.push(d.rng.pick(&["state", "focused"]).to_owned());
    }
    lines
}

/// The interest calls of a pass: some are missing, some come twice, and others stand between them.
fn interests(d: &mut Draw, page: &Page) -> Vec<String> {
    let mut lines = Vec::new();
    for field in page {
        if d.rng.percent(90) {
            lines.push(interest(field));
        }
        if d.rng.percent(10) {
            lines.push(interest(&page[d.rng.below(page.len())]));
        }
        if d.rng.percent(20) {
            lines.push(aside(d, page));
        }
    }
    lines
}

/// Arrows over pages of every layout, with fields that move and vanish.
pub fn arrows(d: &mut Draw) -> Vec<String> {
    let count = if d.rng.percent(4) {
        60 + d.rng.below(60)
    } else {
        2 + d.rng.below(20)
    };
    let mut page = page(d, count, (1, 7));
    let mut lines = Vec::new();
    pass(&mut lines, &page, &[]);
    let start = d.rng.below(page.len());
    lines.push(format!("request_focus {}", page[start].id));
    for _ in 0..3 + d.rng.below(10) {
        if d.rng.percent(10) {
            let moved = d.rng.below(page.len());
            page[moved].rect = rect(d, 4, 0);
        }
        lines.push(begin(&[key(d.rng.below(4) as u64, 0)]));
        if d.rng.percent(50) {
            lines.extend(page.iter().map(interest));
        }
        let skipped = d.rng.below(3 * page.len());
        let used = page.iter().enumerate().filter(|(i, _)| *i != skipped);
        lines.push(end(used.map(|(_, field)| field)));
        lines.push("focused".to_owned());
    }
    lines
}

/// A page and a box over it, each on a layer with a place; the box's layer is modal in most passes.
pub fn modal(d: &mut Draw) -> Vec<String> {
    let below = (1 + d.rng.below(2) as u64, 7);
    let above = (1 + d.rng.below(2) as u64, 9);
    let (under, boxed) = (1 + d.rng.below(4), 1 + d.rng.below(3));
    let mut fields = page(d, under + boxed, below);
    fields.iter_mut().skip(under).for_each(|f| f.layer = above);
    let mut lines = Vec::new();
    for _ in 0..2 + d.rng.below(8) {
        let events = events(d, &fields);
        lines.push(begin(&events));
        lines.append(&mut show(d, below, above));
        lines.append(&mut show(d, above, above));
        lines.extend(fields.iter().map(interest));
        if d.rng.percent(30) {
            lines.push(aside(d, &fields));
        }
        lines.push(end(fields.iter()));
        lines.push(d.rng.pick(&["state", "focused"]).to_owned());
    }
    lines
}

/// A layer is shown or not, the box's layer is made modal or not, and something is asked.
fn show(d: &mut Draw, layer: (u64, u64), above: (u64, u64)) -> Vec<String> {
    let mut lines = Vec::new();
    if d.rng.percent(80) {
        lines.push(format!("set_state {} {} {}", layer.0, layer.1, d.state()));
    }
    if d.rng.percent(40) {
        lines.push(format!("set_modal_layer {} {}", above.0, above.1));
    }
    lines.push(modal_query(d, layer));
    lines
}

fn modal_query(d: &mut Draw, layer: (u64, u64)) -> String {
    let name = d.rng.pick(&[
        "is_above_modal_layer",
        "allows_interaction",
        "set_modal_layer",
        "move_to_top",
    ]);
    match d.rng.below(4) {
        0 => d.call("set_modal_layer"),
        1 => d.call("layer_id_at"),
        2 => "top_modal_layer".to_owned(),
        _ => format!("{name} {} {}", layer.0, layer.1),
    }
}
