//! What lists of calls and sessions are both drawn from: ids, codes and layers of the domain or beside it, pages of fields, and words that are spelt otherwise.
use crate::rng::Rng;

pub struct Draw {
    pub rng: Rng,
    /// How many of a hundred words are drawn from outside the domain.
    pub malice: usize,
    /// Most ids are drawn from the first so many: the fewer, the oftener they meet.
    pub pool: usize,
}

impl Draw {
    pub fn bad(&mut self) -> bool {
        self.rng.percent(self.malice)
    }

    pub fn id(&mut self) -> u64 {
        if self.bad() {
            return 0;
        }
        match self.rng.below(20) {
            0 => self.rng.pick(&[u64::MAX, 1 << 63, 1 << 32, 0xFFFF_FFFF]),
            1 | 2 => self.rng.below(60) as u64 + 1,
            _ => self.rng.below(self.pool) as u64 + 1,
        }
    }

    /// A code up to its last, or past it.
    pub fn code(&mut self, last: u64) -> u64 {
        if self.bad() {
            return self.rng.pick(&[last + 1, last + 2, 256, 1 << 32, u64::MAX]);
        }
        if self.rng.percent(10) {
            return last;
        }
        self.rng.below(last as usize + 1) as u64
    }

    pub fn order(&mut self) -> u64 {
        if self.rng.percent(60) {
            1
        } else {
            self.code(4)
        }
    }

    pub fn layer(&mut self) -> String {
        format!("{} {}", self.order(), self.id())
    }

    /// The ids of a page: small, or spread like hashes.
    pub fn ids(&mut self, count: usize) -> Vec<u64> {
        if self.rng.percent(70) {
            let mut all: Vec<u64> = (1..=count as u64).collect();
            self.rng.shuffle(&mut all);
            all
        } else {
            (0..count).map(|_| self.rng.next() | 1).collect()
        }
    }

    /// Now and then one of many ids twice, anywhere: the first and the last place among them.
    pub fn repeat_one(&mut self, ids: &mut [u64]) {
        if self.rng.percent(30) {
            let last = ids.len() - 1;
            let from = self.rng.pick(&[0, 100, last]);
            let to = self.rng.pick(&[last, 200, 1]);
            ids[to] = ids[from];
        }
    }

    /// The places of a page's fields. In a layout with holes they are spread, so that no field stands straight ahead and ties come up.
    pub fn places(&mut self, count: usize) -> Vec<i64> {
        let mut places: Vec<i64> = (0..2 * count as i64).collect();
        if self.rng.percent(60) {
            self.rng.shuffle(&mut places);
        }
        places
    }

    /// The width and height of a field: of the layouts in rows and columns mostly one and the same.
    pub fn size(&mut self, layout: usize) -> (i64, i64) {
        if layout < 4 && self.rng.percent(85) {
            (64, 32)
        } else {
            (self.rng.between(0, 160), self.rng.between(0, 160))
        }
    }
}

/// Where a field of a layout stands: in a cell of a table, a place of a row or a column, or on a diagonal. The other layouts are drawn.
pub fn spot(layout: usize, place: i64) -> Option<(i64, i64)> {
    match layout {
        0 => Some((96 * (place % 5), 64 * (place / 5))),
        1 => Some((96 * place, 0)),
        2 => Some((0, 64 * place)),
        3 => Some((96 * place, 96 * place)),
        _ => None,
    }
}

/// Words with one thing wrong: one more or one less, a capital, a zero in front, two words in one. False where it is none of these.
pub fn respell(words: &mut Vec<String>, place: usize, word: &str, how: usize) -> bool {
    match how {
        0 => words.insert(place, word.to_owned()),
        1 => drop(words.remove(place)),
        2 => words.push(word.to_owned()),
        3 => words[place] = words[place].to_uppercase(),
        4 => words[place] = format!("0{}", words[place]),
        5 => words[place].push_str(word),
        _ => return false,
    }
    true
}
