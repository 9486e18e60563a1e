//! Times the port's focus in its three forms, as `oracle focuses` times egui's.
use crate::pass::{self, Happening, Side};
use crate::port::{Events, Focus, Form, Used};

struct Port {
    form: Form,
    /// The interest calls of a pass in a loop of the port itself.
    looped: bool,
    focus: Focus,
    words: Vec<u64>,
    events: Events,
    no_events: Events,
    ids: Vec<u64>,
    corners: Vec<f32>,
    used: Used,
}

impl Port {
    fn new(form: Form, looped: bool, size: usize) -> Self {
        let fields: Vec<_> = (0..size).map(pass::field).collect();
        let ids: Vec<u64> = fields.iter().map(|f| f.0).collect();
        let corners: Vec<f32> = fields.iter().flat_map(|f| f.1).collect();
        let words: Vec<u64> = pass::events(size)
            .iter()
            .flat_map(|e| match *e {
                Happening::Key(key, pressed, modifiers) => [1, key, u64::from(pressed), modifiers],
                Happening::Request(id) => [2, id, 0, 0],
            })
            .collect();
        Self {
            form,
            looped,
            focus: Focus::default(),
            events: Events::of(&words),
            no_events: Events::of(&[]),
            words,
            used: Used::of(&ids, &corners),
            ids,
            corners,
        }
    }
}

impl Side for Port {
    fn begin(&mut self, with_events: bool) -> u64 {
        let words: &[u64] = if with_events { &self.words } else { &[] };
        let events = if with_events { &self.events } else { &self.no_events };
        match self.form {
            Form::Core => self.focus.begin_core(words),
            Form::Record => self.focus.begin_record(*events),
            Form::Thin => self.focus.begin_thin(*events),
        }
    }

    fn interests(&mut self) -> u64 {
        self.focus.slot = 0;
        if self.looped {
            return self.focus.interest_in_all(&self.ids);
        }
        let mut refusals = 0;
        for i in 0..self.ids.len() {
            refusals += self.focus.interest(self.form, self.ids[i]);
        }
        refusals
    }

    fn end(&mut self, turn: u64, arrow: bool) -> u64 {
        let nav = &mut self.focus.nav;
        nav.focused = self.ids[self.ids.len() / 2];
        nav.focus_direction = if arrow { turn % 4 } else { 6 };
        match self.form {
            Form::Core => self.focus.end_core(&self.ids, &self.corners),
            Form::Record => self.focus.end_record(self.used),
            Form::Thin => self.focus.end_thin(self.used),
        }
    }
}

pub fn times() {
    pass::print(&["looped", "core", "record", "thin"], |size, name| {
        let form = match name {
            "record" => Form::Record,
            "thin" => Form::Thin,
            _ => Form::Core,
        };
        pass::times(&mut Port::new(form, name == "looped", size), size)
    });
}
