//! The passes of a panel program, before its box is open and while it is.
use super::panel::named;
use super::program::{Careless, Draft};
use crate::pages::{begin, end, interest, key};

/// One part of a pass. They may come in any order.
type Part = fn(&mut Draft);

const REFUSED_BEGINS: [&str; 3] = [
    "begin 1 k 145 1 0 0",
    "begin 2 k 5 1 0 0 a 0",
    "begin 1 k 5 1 0 32",
];

const REFUSED_ENDS: [&str; 3] = [
    "end 1 0 0 0 0 0",
    "end 2 1 0 0 0 0 1 0 0 0 0",
    "end 1 1 1065353216 0 0 0",
];

const REFUSED_LAYERS: [&str; 3] = [
    "set_modal_layer 2 0",
    "set_modal_layer 5 9",
    "set_modal_layer 9 0",
];

/// Fields that come to a page late have ids from this one on.
const LATE: u64 = 6001;

impl Draft {
    pub fn pass(&mut self) {
        self.begins();
        let mut parts: [Part; 5] = [
            Self::show,
            Self::page_calls,
            Self::modal,
            Self::box_calls,
            Self::asides,
        ];
        if self.d.rng.percent(50) {
            self.d.rng.shuffle(&mut parts);
        }
        for part in parts {
            part(self);
        }
        self.ends();
    }

    /// A begin, mostly: none, one that is refused before it, or two of them.
    pub fn begins(&mut self) {
        if self.d.rng.percent(8) {
            return;
        }
        if self.d.rng.percent(8) {
            let refused = self.d.rng.pick(&REFUSED_BEGINS);
            self.say(refused.to_owned());
        }
        if self.d.rng.percent(6) {
            self.begin();
        }
        self.begin();
    }

    pub fn begin(&mut self) {
        let events = self.events();
        self.say(begin(&events));
    }

    /// Keys and requests, most of these of what lies under the box.
    fn events(&mut self) -> Vec<String> {
        let count = self.d.rng.pick(&[0, 1, 1, 1, 1, 2, 3]);
        (0..count).map(|_| self.event()).collect()
    }

    fn event(&mut self) -> String {
        match self.d.rng.below(12) {
            0..2 => format!("a {}", self.panel.under(&mut self.d).id),
            2 => format!("a {}", self.panel.sheet(&mut self.d).id(&mut self.d)),
            3 | 4 => key(5, 0),
            5 | 6 => key(5, 4),
            7..11 => key(self.d.rng.below(5) as u64, 0),
            _ => self.d.event(),
        }
    }

    /// The areas, so that hits find something.
    pub fn show(&mut self) {
        let mut lines = Vec::new();
        for sheet in self.panel.sheets() {
            if self.d.rng.percent(85) {
                lines.push(sheet.set_state(&mut self.d));
            }
        }
        lines.into_iter().for_each(|line| self.say(line));
    }

    /// The interest calls of the pages, some of which are missing or name another lower layer.
    pub fn page_calls(&mut self) {
        if self.silent {
            return;
        }
        let order = self.panel.boxed.layer.0 as usize;
        let mut lines = Vec::new();
        for page in &self.panel.pages {
            if self.d.rng.percent(15) {
                continue;
            }
            // Of a page that fills the cache no more than a few.
            for field in page.fields.iter().take(8) {
                if self.d.rng.percent(4) {
                    let layer = (self.d.rng.below(order) as u64, self.d.rng.pick(&[7, 8, 9]));
                    lines.push(named(&format!("interest {}", field.id), layer));
                } else if self.d.rng.percent(90) {
                    lines.push(interest(field));
                }
            }
        }
        if self.open && self.d.rng.percent(5) {
            let layer = self.panel.pages[0].layer;
            lines.push(named(&format!("interest {}", LATE + self.late), layer));
            self.late += 1;
        }
        lines.into_iter().for_each(|line| self.say(line));
    }

    /// The box's modal layer or a higher one, and others besides. Before the opening there may be
    /// earlier boxes, mostly such as leave the box's layer let through.
    fn modal(&mut self) {
        let needless = self.set && self.d.rng.percent(30);
        if needless || !self.open && self.d.rng.percent(70) {
            return;
        }
        self.set = true;
        let mut layers = Vec::new();
        let lower = self.panel.pages[0].layer;
        if self.d.rng.percent(15) {
            layers.push(lower);
        }
        let (order, id) = self.panel.boxed.layer;
        layers.push(match self.d.rng.below(if self.open { 12 } else { 40 }) {
            0 => self.panel.other.layer,
            1 => (self.d.rng.between(order as i64, 4) as u64, 8),
            _ => (order, id),
        });
        if self.d.rng.percent(10) {
            layers.push(lower);
        }
        if self.d.rng.percent(15) {
            let refused = self.d.rng.pick(&REFUSED_LAYERS);
            self.say(refused.to_owned());
        }
        let lines = layers
            .into_iter()
            .map(|layer| named("set_modal_layer", layer));
        lines.for_each(|line| self.say(line));
    }

    /// The interest calls of the box, and of the other one now and then.
    fn box_calls(&mut self) {
        let share = if self.open { 90 } else { 25 };
        let mut lines = Vec::new();
        for (sheet, share) in [(&self.panel.boxed, share), (&self.panel.other, share / 4)] {
            if self.d.rng.percent(share) {
                lines.extend(sheet.interests());
            }
        }
        lines.into_iter().for_each(|line| self.say(line));
    }

    pub fn asides(&mut self) {
        for _ in 0..self.d.rng.below(3) {
            let call = if self.open {
                self.free_call()
            } else {
                self.under_way()
            };
            self.say(call);
        }
    }

    /// The pass's end: refused ones first, or no other than these, or none.
    pub fn ends(&mut self) {
        let careless = self.silent && self.careless == Some(Careless::RefusedEnd);
        if careless || self.d.rng.percent(15) {
            let refused = self.d.rng.pick(&REFUSED_ENDS);
            self.say(refused.to_owned());
        }
        if careless {
            self.silent = false;
        } else if self.d.rng.percent(85) {
            let used = self.used();
            self.say(used);
            self.silent = false;
            self.set = false;
        }
    }

    /// A taken end, whose used entries are mostly all there are.
    fn used(&mut self) -> String {
        let share = self.d.rng.pick(&[100, 100, 90, 60, 0]);
        let fields = self.panel.sheets().flat_map(|sheet| &sheet.fields);
        let used: Vec<_> = fields.filter(|_| self.d.rng.percent(share)).collect();
        end(used.into_iter().take(200))
    }
}
