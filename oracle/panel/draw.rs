//! Words and forms of the pass program, drawn at random.
pub use super::domain::Draw;

/// How far a coordinate or a size may go, in 32nds of a point.
pub const BOUND: i64 = 524_288;

pub const FORMS: [&str; 9] = [
    "begin", "want", "area", "top", "sub", "modal", "end", "hit", "focus",
];

/// Coordinates and sizes that the program refuses, or that hardly fit: past 2^63 an i64 does not hold them.
const FAR: [&str; 12] = [
    "524289",
    "-524289",
    "524288",
    "-524288",
    "-1",
    "1048576",
    "-4294967296",
    "16777217",
    "9223372036854775808",
    "-9223372036854775808",
    "18446744073709551615",
    "-18446744073709551615",
];

impl Draw {
    /// A coordinate: on a coarse raster, so that edges meet, or anywhere.
    pub fn coordinate(&mut self) -> i64 {
        match self.rng.below(16) {
            0 => self.rng.pick(&[BOUND, -BOUND, BOUND - 1]),
            1 => self.rng.between(-BOUND, BOUND),
            2 | 3 => self.rng.between(-64, 64),
            _ => 8 * self.rng.between(-16, 16),
        }
    }

    fn coordinate_word(&mut self) -> String {
        if self.bad() {
            return self.rng.pick(&FAR).to_owned();
        }
        self.coordinate().to_string()
    }

    fn size_word(&mut self) -> String {
        if self.bad() {
            return self.rng.pick(&FAR).to_owned();
        }
        let size = match self.rng.below(16) {
            0 => self.rng.pick(&[0, BOUND]),
            1 => self.rng.between(0, BOUND),
            2 | 3 => self.rng.between(0, 7),
            _ => 8 * self.rng.between(0, 24),
        };
        size.to_string()
    }

    /// Four edges, the low ones first unless malice has it.
    pub fn edges(&mut self) -> String {
        if self.bad() {
            let words = [(); 4].map(|()| self.coordinate_word());
            return words.join(" ");
        }
        let mut x = [self.coordinate(), self.coordinate()];
        let mut y = [self.coordinate(), self.coordinate()];
        x.sort();
        y.sort();
        format!("{} {} {} {}", x[0], y[0], x[1], y[1])
    }

    pub fn event(&mut self) -> String {
        if self.rng.percent(12) {
            return format!("(ask {})", self.id());
        }
        let key = if self.rng.percent(80) {
            self.rng.below(6) as u64
        } else {
            self.code(144)
        };
        let modifiers = match self.rng.below(8) {
            0 | 1 => 4,
            2 => self.code(31),
            _ => 0,
        };
        let down = u64::from(!self.rng.percent(15));
        format!("(key {key} {down} {modifiers})")
    }

    pub fn begin(&mut self, count: usize) -> String {
        let events: Vec<String> = (0..count).map(|_| self.event()).collect();
        listed("begin", &events)
    }

    pub fn end(&mut self, ids: &[u64]) -> String {
        let used: Vec<String> = ids
            .iter()
            .map(|id| format!("({id} {})", self.edges()))
            .collect();
        listed("end", &used)
    }

    /// A few used entries, their ids a run of numbers, or drawn with repeats.
    fn any_end(&mut self) -> String {
        let count = self.rng.below(9) as u64;
        let mut ids: Vec<u64> = (1..=count).collect();
        if self.bad() {
            ids = ids.iter().map(|_| self.id()).collect();
        }
        self.rng.shuffle(&mut ids);
        self.end(&ids)
    }

    pub fn form(&mut self, name: &str) -> String {
        match name {
            "begin" => {
                let count = self.rng.pick(&[0, 0, 1, 1, 1, 2, 7]);
                self.begin(count)
            }
            "want" => format!("(want {} {})", self.layer(), self.id()),
            "area" => {
                let layer = self.layer();
                let at = [(); 2].map(|()| self.coordinate_word()).join(" ");
                let size = [(); 2].map(|()| self.size_word()).join(" ");
                format!("(area {layer} {at} {size})")
            }
            "sub" => format!("(sub {} {} {})", self.order(), self.id(), self.id()),
            "end" => self.any_end(),
            "hit" => {
                let at = [(); 2].map(|()| self.coordinate_word()).join(" ");
                format!("(hit {at})")
            }
            "focus" => "(focus)".to_owned(),
            _ => format!("({name} {})", self.layer()),
        }
    }

    pub fn any_form(&mut self) -> String {
        let name = self.rng.pick(&FORMS);
        self.form(name)
    }
}

/// A form of entries.
pub fn listed(name: &str, entries: &[String]) -> String {
    let mut line = format!("({name}");
    for entry in entries {
        line.push(' ');
        line.push_str(entry);
    }
    line.push(')');
    line
}
