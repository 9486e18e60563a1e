//! Document 01 has the length as the f32 nearest the true root of the sum of squares; egui's text calls hypot. Whether the two are
//! the same on the grid is asked here of random differences, in 64ths of a point.
use crate::emath::vec2;
use crate::rng::Rng;

/// A difference of two centres, far or near.
fn difference(rng: &mut Rng) -> f32 {
    let bound = 1 << rng.between(1, 21);
    rng.between(-bound, bound) as f32 / 64.0
}

/// Every product is exact in f64: the sum of squares takes 43 bits, a middle between two f32 takes 25.
fn is_nearest(x: f32, y: f32, length: f32) -> bool {
    let [x, y, r] = [x, y, length].map(f64::from);
    let sum = x * x + y * y;
    let low = (f64::from(length.next_down()) + r) / 2.0;
    let high = (r + f64::from(length.next_up())) / 2.0;
    low * low < sum && sum < high * high
}

/// The first of so many differences whose hypot is not nearest.
pub fn first_other(count: u64) -> Option<(f32, f32)> {
    let mut rng = Rng::of(1, 0);
    (0..count)
        .map(|_| (difference(&mut rng), difference(&mut rng)))
        .filter(|&(x, y)| x != 0.0 || y != 0.0)
        .find(|&(x, y)| !is_nearest(x, y, vec2(x, y).length()))
}
