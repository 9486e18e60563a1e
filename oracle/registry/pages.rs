//! The pages of widgets on which `bench/registry` times an insert, for the port and for egui's text.

pub struct Widget {
    pub id: u64,
    pub layer: u64,
    pub corner: f32,
}

/// What is timed: how the page is inserted again and again.
#[derive(Clone, Copy, PartialEq)]
pub enum Kind {
    /// `clear`, and then every widget is new.
    New,
    /// Every widget is known, and comes in the order of the lists.
    Known,
    /// The same, from all over the table in turn.
    Anywhere,
    /// The same in order, after one of them has gone to the top.
    AfterMove,
    /// The first of each list in turn goes to the top.
    ToTop,
}

pub const KINDS: [(&str, Kind); 5] = [
    ("new", Kind::New),
    ("known", Kind::Known),
    ("known, anywhere", Kind::Anywhere),
    ("known, after a move", Kind::AfterMove),
    ("to the top", Kind::ToTop),
];

/// How many widgets, in how many layers.
pub const SIZES: [(usize, u64); 3] = [(16, 1), (256, 1), (256, 8)];

/// A page as egui's panels make it: a layer after the other. Ids are spread over all numbers, as hashes are.
pub fn page(count: usize, layers: u64) -> Vec<Widget> {
    (0..count)
        .map(|i| Widget {
            id: (i as u64 + 1).wrapping_mul(0x9e37_79b9_7f4a_7c15),
            layer: 7 + i as u64 * layers / count as u64,
            corner: i as f32,
        })
        .collect()
}

/// The place of the next widget to insert.
pub fn next(kind: Kind, at: usize, count: usize) -> usize {
    match kind {
        Kind::Anywhere => (at + count * 5 / 8 + 1) % count,
        _ => (at + 1) % count,
    }
}

/// Nanoseconds an insert: the best of seven runs over the page, `start` being called before each turn over it with a widget of the page.
pub fn nanoseconds<S>(
    kind: Kind,
    page: &[Widget],
    state: &mut S,
    start: impl Fn(&mut S, &Widget),
    insert: impl Fn(&mut S, &Widget),
) -> f64 {
    let turns = 400_000 / page.len();
    let mut best = f64::INFINITY;
    for _ in 0..7 {
        let begun = std::time::Instant::now();
        let mut at = 0;
        for turn in 0..turns {
            start(state, &page[turn % page.len()]);
            for _ in 0..page.len() {
                insert(state, std::hint::black_box(&page[at]));
                at = next(kind, at, page.len());
            }
        }
        let inserts = (turns * page.len()) as f64;
        best = best.min(begun.elapsed().as_nanos() as f64 / inserts);
    }
    best
}
