//! Lists about the registry: any calls of it, inserts that are refused, pages of widgets on a few layers, and a registry at its limit, both listed whole at the end.
use crate::draw::Draw;
use crate::limits::{near, turn_hostile};
use crate::tables::mixed_with;

pub fn registry(d: &mut Draw) -> Vec<String> {
    let calls = [
        "insert",
        "insert",
        "insert",
        "insert",
        "insert",
        "insert",
        "order",
        "widget",
        "contains",
        "get_layer",
        "focusable_widgets_in_layer",
        "state",
    ];
    mixed_with(d, &calls, 60, "clear", 30)
}

/// A number that some place of an insert refuses: an id, an Order, a sense, a corner off the grid, past its bound or not finite, any code.
fn unfit(d: &mut Draw) -> String {
    let corner = d.rng.pick(&[0.015625, 16384.03125, f32::NAN]).to_bits();
    let number = d.rng.pick(&[0, 5, 8, corner.into(), u64::MAX]);
    number.to_string()
}

/// Inserts that have one or two words changed, each anywhere.
pub fn refused(d: &mut Draw) -> Vec<String> {
    let count = 20 + d.rng.below(40);
    let spoilt = |_| {
        let line = d.call("insert");
        let mut words: Vec<String> = line.split(' ').map(str::to_owned).collect();
        for _ in 0..d.rng.pick(&[1, 1, 2]) {
            let place = 1 + d.rng.below(words.len() - 1);
            words[place] = unfit(d);
        }
        words.join(" ")
    };
    (0..count).map(spoilt).collect()
}

/// The layers of a page, and the ids of its widgets.
struct Page {
    layers: Vec<String>,
    ids: Vec<u64>,
}

impl Page {
    fn of(d: &mut Draw, most: usize, ids: Vec<u64>) -> Self {
        let layers = 1 + d.rng.below(most);
        let layers = (0..layers).map(|i| format!("{} {}", d.order(), 7 + i));
        Self {
            layers: layers.collect(),
            ids,
        }
    }

    /// Most widgets stay on the layer of their place, some are inserted with another.
    fn insert(&self, d: &mut Draw, place: usize, top: usize) -> String {
        let layer = if d.rng.percent(90) {
            &self.layers[place % self.layers.len()]
        } else {
            &self.layers[d.rng.below(self.layers.len())]
        };
        let top = u64::from(d.rng.percent(top));
        format!("insert {} {top}", d.record_in(layer, self.ids[place]))
    }

    /// A new page in its order or any other.
    fn fill(&self, d: &mut Draw) -> Vec<String> {
        let mut places: Vec<usize> = (0..self.ids.len()).collect();
        if d.rng.percent(50) {
            d.rng.shuffle(&mut places);
        }
        places.iter().map(|i| self.insert(d, *i, 10)).collect()
    }

    fn lists(&self) -> impl Iterator<Item = String> {
        let both = ["get_layer", "focusable_widgets_in_layer"];
        let of = move |layer| both.map(|call| format!("{call} {layer}"));
        self.layers.iter().flat_map(of)
    }

    fn places(&self) -> impl Iterator<Item = String> {
        let both = ["order", "widget"];
        let of = move |id| both.map(|call| format!("{call} {id}"));
        self.ids.iter().flat_map(of)
    }
}

/// Small ids, and some that differ by a multiple of 512.
fn some_ids(d: &mut Draw, count: u64) -> Vec<u64> {
    let far = |d: &mut Draw, i| if d.rng.percent(30) { 512 * i } else { 0 };
    (0..count).map(|i| 1 + i % 40 + far(d, i)).collect()
}

/// A page whose widgets are moved, joined, inserted with another layer, cleared and inserted anew.
pub fn page(d: &mut Draw) -> Vec<String> {
    let count = 3 + d.rng.below(38) as u64;
    let ids = some_ids(d, count);
    let page = Page::of(d, 5, ids);
    let mut lines = page.fill(d);
    for _ in 0..1 + d.rng.below(4) {
        match d.rng.below(6) {
            0 => lines.push("clear".to_owned()),
            1 => lines.append(&mut page.fill(d)),
            _ => {
                let moves = 1 + d.rng.below(30);
                let insert = |_| {
                    let place = d.rng.below(page.ids.len());
                    page.insert(d, place, 60)
                };
                lines.extend((0..moves).map(insert));
            }
        }
        lines.extend(page.lists());
    }
    lines.extend(page.places());
    lines
}

/// A registry filled up to its limit and past it, cleared and filled again, with other refusals beside the limit's.
pub fn full(d: &mut Draw) -> Vec<String> {
    let ids = near(d, 256);
    let page = Page::of(d, 8, ids);
    let mut lines = page.fill(d);
    if d.rng.percent(30) {
        lines.push("clear".to_owned());
        lines.append(&mut page.fill(d));
    }
    turn_hostile(d);
    for _ in 0..14 {
        lines.push(beside_full(d, &page));
    }
    lines.extend(page.lists());
    lines.extend(page.places().filter(|_| d.rng.percent(5)));
    lines
}

fn beside_full(d: &mut Draw, page: &Page) -> String {
    let id = 250 + d.rng.below(12) as u64;
    let layer = &page.layers[0];
    match d.rng.below(10) {
        0 => format!("order {id}"),
        1 => format!("insert 1 7 {id} 9 1 8 {} {} 3 0 1 0", d.rect(), d.rect()),
        2 => format!("insert {} 1", d.record_in(layer, page.ids[0])),
        3 | 4 => format!("insert {} 0", d.record_of(id)),
        5 => d.call("get_layer"),
        _ => {
            let top = d.rng.below(2);
            format!("insert {} {top}", d.record_in(layer, id))
        }
    }
}
