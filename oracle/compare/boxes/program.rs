//! Panel programs that open a confirm box by README.md's rule and keep to it, drawn at random with
//! all that the rule leaves free; and careless ones, which break it in one of two places.
use super::judge;
use super::panel::{Panel, named};
use crate::draw::Draw;
use crate::rng::Rng;
use std::collections::BTreeSet;
use std::ops::Range;

#[derive(Clone)]
pub struct Program {
    pub number: u64,
    pub lines: Vec<String>,
    /// The places of the opening's first call, the modal layer, and of its last, the request.
    pub first: usize,
    pub last: usize,
    pub layer: (u64, u64),
    pub fields: Vec<u64>,
    /// The fields of the pages.
    pub pages: Vec<u64>,
    pub careless: Option<Careless>,
}

/// How a program breaks the rule.
#[derive(Clone, Copy, PartialEq)]
pub enum Careless {
    /// It goes on after a refused end of the opening's pass as if it had been taken.
    RefusedEnd,
    /// It begins a pass within the opening, while a field under the box waits for the next begin.
    BeginWithin,
}

impl Program {
    pub fn named(&self, call: &str) -> String {
        named(call, self.layer)
    }

    /// The interest call of a field of the box.
    pub fn wanted(&self, id: u64) -> String {
        self.named(&format!("interest {id}"))
    }

    /// The program without some of its lines.
    pub fn without(&self, dropped: Range<usize>) -> Self {
        let mut fewer = self.clone();
        fewer.lines.drain(dropped.clone());
        for place in [&mut fewer.first, &mut fewer.last] {
            *place -= (*place).clamp(dropped.start, dropped.end) - dropped.start;
        }
        fewer
    }
}

/// A program as far as it is drawn.
pub struct Draft {
    pub d: Draw,
    pub panel: Panel,
    pub lines: Vec<String>,
    /// The opening is over: `focused` is asked after each call, and hits now and then.
    pub open: bool,
    /// The fields under the box make no interest call: no end was taken since the opening.
    pub silent: bool,
    /// The modal layer was set since the last end.
    pub set: bool,
    pub careless: Option<Careless>,
    /// How many fields came to a page while the box was open.
    pub late: u64,
    first: usize,
    last: usize,
}

pub fn program(seed: u64, number: u64, careless: bool) -> Program {
    let mut rng = Rng::of(seed, number);
    let ways = [Careless::RefusedEnd, Careless::BeginWithin];
    let careless = careless.then(|| rng.pick(&ways));
    let malice = rng.pick(&[0, 1, 4]);
    let pool = rng.pick(&[3, 6, 12]);
    let mut d = Draw { rng, malice, pool };
    let panel = Panel::drawn(&mut d);
    let draft = Draft {
        d,
        panel,
        lines: vec!["new".to_owned()],
        open: false,
        silent: false,
        set: false,
        careless,
        late: 0,
        first: 0,
        last: 0,
    };
    draft.whole(number)
}

impl Draft {
    fn whole(mut self, number: u64) -> Program {
        for _ in 0..self.d.rng.below(4) {
            self.pass();
        }
        self.before_opening();
        self.opening();
        if self.d.rng.percent(50) {
            self.asides();
        }
        if self.d.rng.percent(60) {
            self.ends();
        }
        let most = 3 + self.d.rng.below(10);
        for _ in 0..3 + self.d.rng.below(most - 2) {
            self.pass();
        }
        self.lines.push("state".to_owned());
        let pages = self.panel.pages.iter().flat_map(|page| page.ids());
        Program {
            number,
            lines: self.lines,
            first: self.first,
            last: self.last,
            layer: self.panel.boxed.layer,
            fields: self.panel.boxed.ids().collect(),
            pages: pages.collect(),
            careless: self.careless,
        }
    }

    pub fn say(&mut self, line: String) {
        self.lines.push(line);
        if self.open {
            self.lines.push("focused".to_owned());
            if self.d.rng.percent(15) {
                let hit = self.panel.sheet(&mut self.d).hit(&mut self.d);
                self.lines.push(hit);
            }
        }
    }

    /// What goes before the opening, in a pass or after one: the page as ever, or one that fills
    /// the cache, and what may be under way when a box is opened.
    fn before_opening(&mut self) {
        let within = self.d.rng.percent(60);
        let full = self.d.rng.percent(4);
        if full {
            // No modal layer in force turns that page away.
            self.say("end 0".to_owned());
            self.say("end 0".to_owned());
        }
        if within {
            self.begins();
            self.show();
            self.page_calls();
        }
        if full {
            self.fill();
        }
        for _ in 0..self.d.rng.below(4) {
            let call = self.under_way();
            self.say(call);
        }
        if self.careless == Some(Careless::BeginWithin) {
            let id = self.panel.under(&mut self.d).id;
            self.say(format!("request_focus_next_frame {id}"));
        }
        // Where the cache is full and this is left out, a call of the opening is refused.
        if self.d.rng.percent(if full { 90 } else { 10 }) {
            self.free_places();
        }
    }

    fn fill(&mut self) {
        self.panel.fill(&mut self.d);
        let page = self.panel.pages.last().expect("a page");
        let calls: Vec<String> = page.interests().collect();
        self.lines.extend(calls);
    }

    /// Step 1 of the rule: as many fields under the box as it has are ignored, of those that were
    /// asked for last.
    fn free_places(&mut self) {
        let page = self.panel.pages.last().expect("a page");
        let freed = page.ids().take(self.panel.boxed.fields.len());
        let calls: Vec<String> = freed.map(|id| format!("ignore_focus {id}")).collect();
        self.lines.extend(calls);
    }

    /// Step 2 of the rule, with other calls between its own or without.
    fn opening(&mut self) {
        let boxed = &self.panel.boxed;
        let focus = boxed.id(&mut self.d);
        let mut calls = vec![boxed.named("set_modal_layer")];
        calls.extend(boxed.interests());
        let ignored = self.ignored();
        calls.extend(ignored.iter().map(|id| format!("ignore_focus {id}")));
        calls.push(format!("request_focus_next_frame {focus}"));
        let begun = 1 + self.d.rng.below(calls.len() - 1);
        let between = self.d.rng.pick(&[0, 0, 20, 40]);
        let last = calls.len() - 1;
        for (place, call) in calls.into_iter().enumerate() {
            if 0 < place && self.d.rng.percent(between) {
                let free = self.free_call();
                self.ask_first(&free);
                self.say(free);
            }
            if place == begun && self.careless == Some(Careless::BeginWithin) {
                self.begin();
            }
            self.ask_first(&call);
            self.open = place == last;
            self.silent = self.open;
            self.last = self.lines.len();
            if place == 0 {
                self.first = self.last;
                self.set = true;
            }
            self.say(call);
        }
    }

    /// Before an interest call of the opening: whether the box is let through.
    fn ask_first(&mut self, call: &str) {
        if call.starts_with("interest") {
            let asked = self.panel.boxed.named("allows_interaction");
            self.say(asked);
        }
    }

    /// The fields under the box, and perhaps others that were asked for, but for the box's own.
    fn ignored(&mut self) -> Vec<u64> {
        let order = self.panel.boxed.layer.0;
        let lines = self.lines.iter();
        let mut ids: BTreeSet<u64> = if self.d.rng.percent(50) {
            lines.filter_map(|line| judge::asked(line)).collect()
        } else {
            lines
                .filter_map(|line| judge::asked_below(line, order))
                .collect()
        };
        ids.extend(self.panel.pages.iter().flat_map(|page| page.ids()));
        let own: Vec<u64> = self.panel.boxed.ids().collect();
        let mut ids: Vec<u64> = ids.into_iter().filter(|id| !own.contains(id)).collect();
        self.d.rng.shuffle(&mut ids);
        ids
    }
}
