//! Sessions of areas, raises, sublayers and modal layers, and of what a point hits.
use super::draw::Draw;

/// A form drawn by the given shares of a hundred, or `(focus)` for the rest.
fn by_share(d: &mut Draw, shares: &[(&str, usize)]) -> String {
    let mut at = d.rng.below(100);
    for &(name, share) in shares {
        if at < share {
            return d.form(name);
        }
        at -= share;
    }
    "(focus)".to_owned()
}

pub fn areas(d: &mut Draw) -> Vec<String> {
    let count = 10 + d.rng.below(60);
    let shares = [
        ("area", 30),
        ("top", 12),
        ("sub", 10),
        ("modal", 7),
        ("end", 14),
        ("begin", 4),
        ("hit", 18),
        ("want", 4),
    ];
    (0..count).map(|_| by_share(d, &shares)).collect()
}

/// Few areas whose edges are known, hit on the edges and a step beside them.
pub fn hits(d: &mut Draw) -> Vec<String> {
    let mut edges = vec![0];
    let mut lines = Vec::new();
    for _ in 0..2 + d.rng.below(4) {
        for _ in 0..1 + d.rng.below(4) {
            let layer = format!("{} {}", d.order(), 1 + d.rng.below(4));
            let [x, y] = [(); 2].map(|()| d.coordinate());
            let [w, h] = [(); 2].map(|()| 8 * d.rng.between(0, 30));
            edges.extend([x, y, x + w, y + h]);
            lines.push(format!("(area {layer} {x} {y} {w} {h})"));
        }
        if d.rng.percent(30) {
            lines.push(d.form("modal"));
        }
        if d.rng.percent(30) {
            lines.push(d.form("top"));
        }
        if d.rng.percent(80) {
            lines.push("(end)".to_owned());
        }
        for _ in 0..4 + d.rng.below(12) {
            let [x, y] = [(); 2].map(|()| d.rng.pick(&edges) + d.rng.pick(&[0, 0, 0, 1, -1]));
            lines.push(format!("(hit {x} {y})"));
        }
    }
    lines
}

/// Pairs of few layers, most of one Order, that lie over one another: which one is on top tells their order.
pub fn families(d: &mut Draw) -> Vec<String> {
    let mut lines = Vec::new();
    let ids = 3 + d.rng.below(6) as u64;
    let id = |d: &mut Draw| 1 + d.rng.below(ids as usize) as u64;
    for _ in 0..2 + d.rng.below(5) {
        for layer in 1..=ids {
            if d.rng.percent(85) {
                lines.push(format!("(area 1 {layer} {} 0 128 64)", 16 * layer));
            }
        }
        for _ in 0..d.rng.below(6) {
            let order = if d.rng.percent(90) { 1 } else { d.order() };
            lines.push(format!("(sub {order} {} {})", id(d), id(d)));
            if d.rng.percent(40) {
                lines.push(format!("(top 1 {})", id(d)));
            }
        }
        lines.push("(end)".to_owned());
        let points = (1..=2 * ids).map(|n| format!("(hit {} {})", 16 * n + 1, d.rng.below(70)));
        lines.extend(points);
    }
    lines
}

/// Many layers, raised and paired, and hit from below.
pub fn stacks(d: &mut Draw) -> Vec<String> {
    let count = 4 + d.rng.below(61) as u64;
    let mut lines: Vec<String> = (1..=count)
        .map(|id| format!("(area {} {id} {} 0 40 40)", d.order(), 16 * id))
        .collect();
    for _ in 0..2 + d.rng.below(3) {
        for _ in 0..d.rng.below(12) {
            let id = 1 + d.rng.below(count as usize);
            lines.push(match d.rng.below(3) {
                0 => format!("(top {} {id})", d.order()),
                1 => format!("(sub {} {id} {})", d.order(), 1 + d.rng.below(70)),
                _ => format!("(area {} {id} {} 8 40 40)", d.order(), 16 * id),
            });
        }
        lines.push("(end)".to_owned());
        for _ in 0..8 {
            let x = 16 * d.rng.between(0, count as i64 + 3) + d.rng.between(0, 24);
            lines.push(format!("(hit {x} {})", d.rng.between(0, 50)));
        }
    }
    lines
}
