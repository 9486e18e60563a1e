//! Realistic sessions: pages of fields, passed over again and again with keys, arrows, requests and a confirm box.
use super::domain::spot;
use super::draw::{BOUND, Draw, listed};

struct Field {
    id: u64,
    layer: (u64, u64),
    /// In 32nds: left, top, right, bottom.
    rect: [i64; 4],
}

type Page = Vec<Field>;

const TAB: &str = "(key 5 1 0)";
const BACK: &str = "(key 5 1 4)";
const ESCAPE: &str = "(key 4 1 0)";
const ARROWS: [&str; 4] = ["(key 0 1 0)", "(key 1 1 0)", "(key 2 1 0)", "(key 3 1 0)"];

/// A rectangle of a layout, or anywhere, also at the bounds.
fn rect(d: &mut Draw, layout: usize, place: i64) -> [i64; 4] {
    let (x, y) = spot(layout, place).unwrap_or_else(|| {
        if layout == 4 {
            (d.rng.between(-400, 400), d.rng.between(-400, 400))
        } else {
            (d.coordinate(), d.coordinate())
        }
    });
    let (width, height) = d.size(layout);
    [x, y, (x + width).min(BOUND), (y + height).min(BOUND)]
}

fn page(d: &mut Draw, count: usize, layer: (u64, u64)) -> Page {
    let layout = d.rng.below(6);
    let places = d.places(count);
    let ids = d.ids(count);
    let fields = ids.into_iter().zip(places);
    fields
        .map(|(id, place)| Field {
            id,
            layer,
            rect: rect(d, layout, place),
        })
        .collect()
}

fn begin(events: &[String]) -> String {
    listed("begin", events)
}

fn want(field: &Field) -> String {
    format!("(want {} {} {})", field.layer.0, field.layer.1, field.id)
}

fn end<'a>(fields: impl Iterator<Item = &'a Field>) -> String {
    let entry = |f: &Field| {
        let [left, top, right, bottom] = f.rect;
        format!("({} {left} {top} {right} {bottom})", f.id)
    };
    listed("end", &fields.map(entry).collect::<Vec<_>>())
}

/// A whole pass: begin, an interest call a field, end.
fn pass(lines: &mut Vec<String>, page: &Page, events: &[String]) {
    lines.push(begin(events));
    lines.extend(page.iter().map(want));
    lines.push(end(page.iter()));
    lines.push("(focus)".to_owned());
}

/// The keys and requests of a pass over a page.
fn events(d: &mut Draw, page: &Page) -> Vec<String> {
    let count = d.rng.pick(&[0, 0, 1, 1, 1, 1, 1, 2, 3]);
    (0..count)
        .map(|_| match d.rng.below(12) {
            0..4 => TAB.to_owned(),
            4..6 => BACK.to_owned(),
            6..9 => d.rng.pick(&ARROWS).to_owned(),
            9 => ESCAPE.to_owned(),
            10 => format!("(ask {})", page[d.rng.below(page.len())].id),
            _ => d.event(),
        })
        .collect()
}

/// Tab and Shift+Tab, a quiet pass after each, as demand 3 has it.
pub fn ring(d: &mut Draw) -> Vec<String> {
    let count = match d.rng.below(60) {
        0 => 256,
        1..10 => 1 + d.rng.below(40),
        _ => 1 + d.rng.below(6),
    };
    let presses = if count < 64 { d.rng.below(12) } else { 1 };
    let page = page(d, count, (1, 7));
    let mut lines = Vec::new();
    pass(&mut lines, &page, &[TAB.to_owned()]);
    pass(&mut lines, &page, &[]);
    for _ in 0..presses {
        let key = d.rng.pick(&[TAB, TAB, BACK]);
        pass(&mut lines, &page, &[key.to_owned()]);
        pass(&mut lines, &page, &[]);
    }
    with_refused(d, lines)
}

/// Refused forms anywhere among the lines.
fn with_refused(d: &mut Draw, mut lines: Vec<String>) -> Vec<String> {
    let forms = [
        "(begin (key 145 1 0))",
        "(begin (key 5 1 0) (ask 0))",
        "(begin (key 5 2 0))",
        "(want 1 7 0)",
        "(want 5 7 1)",
        "(end (0 0 0 0 0))",
        "(end (1 0 0 0 0) (1 0 0 0 0))",
        "(end (1 1 0 0 0))",
        "",
    ];
    for _ in 0..d.rng.below(4) {
        let place = d.rng.below(lines.len());
        lines.insert(place, d.rng.pick(&forms).to_owned());
    }
    lines
}

/// A page whose fields come and go: passes in which some make no interest call, or two, or are not named at the end, in any order.
pub fn pages(d: &mut Draw) -> Vec<String> {
    let count = 1 + d.rng.below(9);
    let page = page(d, count, (1, 7));
    let whole = d.rng.pick(&[100, 100, 90, 60]);
    let mut lines = Vec::new();
    for _ in 0..4 + d.rng.below(25) {
        lines.push(begin(&events(d, &page)));
        for field in &page {
            if d.rng.percent(whole) {
                lines.push(want(field));
            }
            if !d.rng.percent(whole) {
                lines.push(want(&page[d.rng.below(count)]));
            }
        }
        let used: Vec<&Field> = page.iter().filter(|_| d.rng.percent(whole)).collect();
        lines.push(end(used.into_iter()));
        if d.rng.percent(80) {
            lines.push("(focus)".to_owned());
        }
    }
    lines
}

fn arrows_over(d: &mut Draw, page: &Page, presses: usize) -> Vec<String> {
    let mut lines = Vec::new();
    pass(&mut lines, page, &[]);
    for _ in 0..presses {
        if d.rng.percent(25) {
            let to = &page[d.rng.below(page.len())];
            lines.push(begin(&[format!("(ask {})", to.id)]));
        }
        let key = d.rng.pick(&ARROWS).to_owned();
        lines.push(begin(&[key]));
        lines.push(end(page.iter()));
        lines.push("(focus)".to_owned());
    }
    lines
}

/// Arrows over a page of any layout.
pub fn arrows(d: &mut Draw) -> Vec<String> {
    let count = match d.rng.below(40) {
        0 => 200 + d.rng.below(57),
        1..12 => 2 + d.rng.below(30),
        _ => 2 + d.rng.below(6),
    };
    let presses = if count < 64 { 4 + d.rng.below(16) } else { 3 };
    let page = page(d, count, (1, 7));
    arrows_over(d, &page, presses)
}

/// Arrows over a table whose cells are alike, so that many scores are equal and differences lie on the edge of the cone.
pub fn grid(d: &mut Draw) -> Vec<String> {
    let (columns, rows) = (1 + d.rng.below(5), 1 + d.rng.below(5));
    let (wide, high) = (d.rng.between(0, 90), d.rng.between(0, 90));
    let step = d.rng.pick(&[(96, 96), (96, 64), (64, 96), (40, 40)]);
    let places = (0..rows as i64).flat_map(|r| (0..columns as i64).map(move |c| (c, r)));
    let ids = d.ids(rows * columns);
    let page: Page = places
        .zip(ids)
        .map(|((column, row), id)| {
            let (x, y) = (column * step.0, row * step.1);
            Field {
                id,
                layer: (1, 7),
                rect: [x, y, x + wide, y + high],
            }
        })
        .collect();
    let presses = 4 + d.rng.below(16);
    arrows_over(d, &page, presses)
}

/// A page, and a confirm box that is opened and closed over it, with care or without.
pub fn boxes(d: &mut Draw) -> Vec<String> {
    let [under, above] = [(); 2].map(|()| 1 + d.rng.below(4));
    let layer = d.rng.pick(&[(2, 9), (2, 9), (1, 8)]);
    let lower = page(d, under, (1, 7));
    let mut upper = page(d, above, layer);
    for field in &mut upper {
        field.id = field.id.wrapping_add(100) | 1;
    }
    let mut lines = Vec::new();
    for _ in 0..5 + d.rng.below(20) {
        let open = d.rng.percent(70);
        let asked = if d.rng.percent(70) { &lower } else { &upper };
        lines.push(begin(&events(d, asked)));
        if d.rng.percent(50) {
            lines.push("(area 1 7 -640 -640 2560 2560)".to_owned());
            lines.push(format!("(area {} {} 64 64 640 640)", layer.0, layer.1));
        }
        lines.extend(lower.iter().map(want));
        if open {
            lines.push(format!("(modal {} {})", layer.0, layer.1));
            lines.extend(upper.iter().map(want));
        }
        let [lower_used, upper_used] = [(); 2].map(|()| d.rng.percent(75));
        let used = lower.iter().filter(|_| lower_used);
        let used = used.chain(upper.iter().filter(|_| upper_used));
        let mut seen = std::collections::BTreeSet::new();
        lines.push(end(used.filter(|f| seen.insert(f.id))));
        lines.push("(focus)".to_owned());
        if d.rng.percent(30) {
            lines.push(format!("(hit {} {})", d.coordinate(), d.coordinate()));
        }
    }
    lines
}
