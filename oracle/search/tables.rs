//! Tables of fields for the directional search, from one seed: the same for egui's text and for the port.
use crate::rng::Rng;

/// A field: its id, and its left, top, right and bottom edge.
#[derive(Clone, Copy)]
pub struct Field {
    pub id: u64,
    pub edges: [f32; 4],
}

pub struct Table {
    pub fields: Vec<Field>,
    /// The place of the focused field.
    pub focused: usize,
}

/// A low and a high end, in 32nds of a point.
type Span = (i64, i64);

/// The last corner of the grid.
const LAST: i64 = 524_288;

/// Differences (n, n), in 64ths, whose cosine is rounded to the f32 below the bound: egui has them outside the cone.
const OUTSIDE: [i64; 20] = [
    185_923, 371_277, 371_846, 742_503, 742_554, 743_692, 743_743, 744_881, 1_483_817, 1_483_919,
    1_484_021, 1_485_006, 1_485_108, 1_486_195, 1_486_297, 1_487_384, 1_487_486, 1_488_573,
    1_489_762, 1_490_951,
];

fn points(steps: i64) -> f32 {
    steps as f32 / 32.0
}

fn field(id: u64, x: Span, y: Span) -> Field {
    Field {
        id,
        edges: [x.0, y.0, x.1, y.1].map(points),
    }
}

/// Any two ends within the reach; some at the grid's end, some of no width.
fn span(rng: &mut Rng, reach: i64) -> Span {
    let (a, b) = (rng.between(-reach, reach), rng.between(-reach, reach));
    match rng.below(20) {
        0 => (a, a),
        1 => (-LAST, a),
        2 => (a, LAST),
        3 => rng.pick(&[(LAST, LAST), (-LAST, -LAST), (-LAST, LAST)]),
        _ => (a.min(b), a.max(b)),
    }
}

/// A span that touches another, lies in it, overlaps it by half or so, or is the same.
fn beside(rng: &mut Rng, (low, high): Span) -> Span {
    let width = high - low;
    let near = rng.between(-1, 1);
    let moved = match rng.below(6) {
        0 => (high, high + width),
        1 => (low - width, low),
        2 => (low + width / 4, high - width / 4),
        3 => (low + width / 2 + near, high + width / 2 + near),
        4 => (high, high),
        _ => (low, high),
    };
    (moved.0.clamp(-LAST, LAST), moved.1.clamp(-LAST, LAST))
}

fn anywhere(rng: &mut Rng) -> Vec<Field> {
    let reach = rng.pick(&[4, 64, 4_096, LAST]);
    let count = 2 + rng.below(6) as u64;
    let fields = (1..=count).map(|id| field(id, span(rng, reach), span(rng, reach)));
    fields.collect()
}

fn neighbours(rng: &mut Rng) -> Vec<Field> {
    let reach = rng.pick(&[16, 640, LAST]);
    let (x, y) = (span(rng, reach), span(rng, reach));
    let count = 1 + rng.below(6) as u64;
    let mut fields = vec![field(1, x, y)];
    fields.extend((2..=1 + count).map(|id| field(id, beside(rng, x), beside(rng, y))));
    fields
}

/// A page of rows and columns, where many scores are equal.
fn page(rng: &mut Rng) -> Vec<Field> {
    let (columns, rows) = (rng.between(1, 5), rng.between(1, 5));
    let (wide, high) = (rng.between(1, 90), rng.between(1, 90));
    let places = (0..rows).flat_map(|row| (0..columns).map(move |column| (column, row)));
    let fields = places.zip(1..).map(|((column, row), id)| {
        let (x, y) = (column * 96, row * 96);
        field(id, (x, x + wide), (y, y + high))
    });
    fields.collect()
}

/// A field of no size or of one step, whose middle lies so many 64ths from the origin.
fn spot(id: u64, x: i64, y: i64) -> Field {
    let span = |at: i64| (at.div_euclid(2), at.div_euclid(2) + at.rem_euclid(2));
    field(id, span(x), span(y))
}

/// Where the focused field lies, in 64ths: in the middle, or at a corner of the grid, from which all others lie one way.
struct Seat {
    at: (i64, i64),
    way: Option<(i64, i64)>,
    /// How far another may lie.
    reach: i64,
}

fn seat(rng: &mut Rng) -> Seat {
    let reach = rng.pick(&[80, 1_400, 40_000, 2 * LAST]);
    let way = (rng.pick(&[1, -1]), rng.pick(&[1, -1]));
    if rng.percent(50) {
        return Seat {
            at: (0, 0),
            way: None,
            reach: reach - 1,
        };
    }
    Seat {
        at: (-way.0 * 2 * LAST, -way.1 * 2 * LAST),
        way: Some(way),
        reach: 2 * reach - 1,
    }
}

/// A field so far along one axis and across it from the seat, on either axis and any way that the seat leaves open.
fn seen(rng: &mut Rng, seat: &Seat, id: u64, along: i64, across: i64) -> Field {
    let (x, y) = if rng.percent(50) {
        (along, across)
    } else {
        (across, along)
    };
    let free = (rng.pick(&[1, -1]), rng.pick(&[1, -1]));
    let way = seat.way.unwrap_or(free);
    spot(id, seat.at.0 + way.0 * x, seat.at.1 + way.1 * y)
}

/// Differences at the edge of the cone: the diagonals, a step beside them, and those diagonals that rounding puts outside.
fn edge(rng: &mut Rng) -> Vec<Field> {
    let seat = seat(rng);
    let mut fields = vec![spot(1, seat.at.0, seat.at.1)];
    for id in 2..=4 {
        let outside = rng.pick(&OUTSIDE);
        let along = if rng.percent(25) && outside <= seat.reach {
            outside
        } else {
            rng.between(2, seat.reach)
        };
        let beside = rng.pick(&[0, 0, 1, -1]);
        fields.push(seen(rng, &seat, id, along, along + beside));
    }
    fields
}

/// The square of a score, in f64: length to the sixth by the part along the arrow to the fourth.
fn squared(along: i64, across: i64) -> f64 {
    let (x, y) = (along as f64, across as f64);
    (x * x + y * y).powi(3) / x.powi(4)
}

/// Fields whose scores hardly differ: the part across is found by halving.
fn rivals(rng: &mut Rng) -> Vec<Field> {
    let seat = seat(rng);
    let along = rng.between(seat.reach / 2, seat.reach);
    let score = squared(along, rng.between(0, along / 2));
    let mut fields = vec![spot(1, seat.at.0, seat.at.1)];
    for id in 2..=7 {
        let along = rng.between(along * 3 / 4, along);
        let (mut low, mut high) = (0, along);
        while low + 1 < high {
            let middle = (low + high) / 2;
            if squared(along, middle) < score {
                low = middle;
            } else {
                high = middle;
            }
        }
        let across = rng.pick(&[low, high]);
        fields.push(seen(rng, &seat, id, along, across));
    }
    fields
}

/// A page of 256 fields.
fn full(rng: &mut Rng) -> Vec<Field> {
    let (wide, high) = (rng.between(1, 2_000), rng.between(1, 2_000));
    let slant = rng.between(0, 90);
    let fields = (0..256).map(|i| {
        let (column, row) = (i % 16, i / 16);
        let (x, y) = (column * 2_048 + row * slant, row * 2_048 + column * slant);
        field(i as u64 + 1, (x, x + wide), (y, y + high))
    });
    fields.collect()
}

/// The next table: ids in no order, some past half of all numbers, places in no order, one field focused.
pub fn table(rng: &mut Rng) -> Table {
    let (mut fields, seat) = match rng.below(200) {
        0 => (full(rng), false),
        1..35 => (anywhere(rng), false),
        35..70 => (neighbours(rng), false),
        70..105 => (page(rng), false),
        105..135 => (edge(rng), true),
        _ => (rivals(rng), true),
    };
    // The first field is the seat, where there is one; most often it is focused.
    let first = if seat && rng.percent(80) {
        0
    } else {
        rng.below(fields.len())
    };
    let focused = fields.remove(first);
    rng.shuffle(&mut fields);
    let focused_at = rng.below(fields.len() + 1);
    fields.insert(focused_at, focused);
    renumber(rng, &mut fields);
    Table {
        fields,
        focused: focused_at,
    }
}

/// Other ids, and some zeros with a sign.
fn renumber(rng: &mut Rng, fields: &mut [Field]) {
    let last = fields.len() as u64;
    let mut ids: Vec<u64> = (1..=last).collect();
    rng.shuffle(&mut ids);
    let high = rng.percent(10);
    for (field, id) in fields.iter_mut().zip(ids) {
        field.id = if high && id % 2 == 0 {
            u64::MAX - id
        } else {
            id
        };
        if rng.percent(5) {
            field.edges = field
                .edges
                .map(|edge| if edge == 0.0 { -0.0 } else { edge });
        }
    }
}

/// Layouts to be timed: rows and columns, a staggered page, fields anywhere. The focused field lies in the middle.
pub fn layout(name: &str, count: usize) -> Table {
    let mut rng = Rng::of(1, count as u64);
    let width = count.isqrt().max(2);
    let places = (0..count).map(|i| {
        let (column, row) = ((i % width) as i64, (i / width) as i64);
        let (x, y) = match name {
            "rows" => (column * 2_048, row * 1_024),
            "staggered" => (column * 2_048 + row * 96, row * 1_280 + column * 160),
            _ => (rng.between(0, 400_000), rng.between(0, 400_000)),
        };
        field(i as u64 + 1, (x, x + 1_536), (y, y + 768))
    });
    Table {
        fields: places.collect(),
        focused: (count / 2 + width / 2).min(count - 1),
    }
}

pub const LAYOUTS: [&str; 3] = ["rows", "staggered", "anywhere"];
pub const COUNTS: [usize; 3] = [2, 16, 256];
