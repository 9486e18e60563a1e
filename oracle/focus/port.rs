//! The port's focus in each of its forms.
pub use crate::foreign::{CACHED, EVENTS, EventFilter, Events, Focus, LayerId, Nav, USED, Used};
use crate::foreign::*;

/// A function of the core on the fields and tables of a record, and what else it takes.
macro_rules! in_place {
    ($call:ident, $focus:ident, $($more:expr),+) => {{
        let (ids, rects) = (&mut $focus.ids, &mut $focus.rects);
        let (nav, count) = ($focus.nav, $focus.count);
        unsafe {
            $call(
                nav,
                ids.as_mut_ptr(),
                ids.len(),
                rects.as_mut_ptr(),
                rects.len(),
                count,
                $($more),+
            )
        }
    }};
}

#[derive(Clone, Copy, PartialEq)]
pub enum Form {
    Core,
    Record,
    Thin,
}

impl Default for Nav {
    fn default() -> Self {
        Self {
            focused: 0,
            filter: EventFilter::default(),
            id_previous_frame: 0,
            id_two_frames_ago: 0,
            id_next_frame: 0,
            give_to_next: false,
            last_interested: 0,
            focus_direction: 6,
            top_modal_layer: LayerId::default(),
            top_modal_layer_current_frame: LayerId::default(),
        }
    }
}

impl Default for Focus {
    fn default() -> Self {
        Self {
            nav: Nav::default(),
            ids: [0; CACHED],
            rects: [0.0; 4 * CACHED],
            count: 0,
            slot: 0,
        }
    }
}

impl Events {
    pub fn of(words: &[u64]) -> Self {
        let mut all = [0; 4 * EVENTS];
        let kept = words.len().min(all.len());
        all[..kept].copy_from_slice(&words[..kept]);
        Self {
            words: all,
            count: words.len() / 4,
        }
    }
}

impl Used {
    pub fn of(ids: &[u64], corners: &[f32]) -> Self {
        let mut used = Self {
            ids: [0; USED],
            corners: [0.0; 4 * USED],
            count: ids.len(),
        };
        let kept = ids.len().min(USED);
        used.ids[..kept].copy_from_slice(&ids[..kept]);
        used.corners[..4 * kept].copy_from_slice(&corners[..4 * kept]);
        used
    }
}

impl Focus {
    /// What a call that changes only the fields left.
    fn took(&mut self, r: Changed) -> u64 {
        self.nav = r.nav;
        r.refusal
    }

    pub fn begin_core(&mut self, words: &[u64]) -> u64 {
        let r = in_place!(jaturemi_begin_pass, self, words.as_ptr(), words.len());
        if r.refusal == 0 {
            self.slot = 0;
        }
        self.took(r)
    }

    pub fn interest_core(&mut self, id: u64) -> u64 {
        let r = in_place!(jaturemi_interested_in_focus, self, self.slot, id);
        self.nav = r.nav;
        self.count = r.count;
        self.slot = r.slot;
        r.refusal
    }

    /// An interest call for each id, in a loop of the port itself.
    pub fn interest_in_all(&mut self, page: &[u64]) -> u64 {
        let r = in_place!(jaturemi_interested_in_all, self, self.slot, page.as_ptr(), page.len());
        self.nav = r.nav;
        self.count = r.count;
        self.slot = r.slot;
        r.refusal
    }

    pub fn end_core(&mut self, used: &[u64], corners: &[f32]) -> u64 {
        let r = in_place!(
            jaturemi_end_focus_pass,
            self,
            used.as_ptr(),
            used.len(),
            corners.as_ptr(),
            corners.len(),
            USED
        );
        self.nav = r.nav;
        self.count = r.count;
        r.refusal
    }

    pub fn ignore(&mut self, id: u64) -> u64 {
        let r = in_place!(jaturemi_ignore_focus, self, id);
        self.nav = r.nav;
        self.count = r.count;
        r.refusal
    }

    /// The record by value.
    fn replace(&mut self, done: Done) -> u64 {
        *self = done.focus;
        done.refusal
    }

    pub fn begin_record(&mut self, e: Events) -> u64 {
        self.replace(unsafe { jaturemi_begun(*self, e) })
    }

    pub fn interest_record(&mut self, id: u64) -> u64 {
        self.replace(unsafe { jaturemi_interested(*self, id) })
    }

    pub fn end_record(&mut self, u: Used) -> u64 {
        self.replace(unsafe { jaturemi_ended(*self, u) })
    }

    /// The thin forms.
    pub fn begin_thin(&mut self, e: Events) -> u64 {
        unsafe { focus_begin_pass(self, e) }
    }

    pub fn interest_thin(&mut self, id: u64) -> u64 {
        unsafe { focus_interested_in_focus(self, id) }
    }

    pub fn end_thin(&mut self, u: Used) -> u64 {
        unsafe { focus_end_pass(self, u) }
    }

    pub fn begin(&mut self, form: Form, words: &[u64]) -> u64 {
        match form {
            Form::Core => self.begin_core(words),
            Form::Record => self.begin_record(Events::of(words)),
            Form::Thin => self.begin_thin(Events::of(words)),
        }
    }

    pub fn interest(&mut self, form: Form, id: u64) -> u64 {
        match form {
            Form::Core => self.interest_core(id),
            Form::Record => self.interest_record(id),
            Form::Thin => self.interest_thin(id),
        }
    }

    pub fn end(&mut self, form: Form, used: &[u64], corners: &[f32]) -> u64 {
        match form {
            Form::Core => self.end_core(used, corners),
            Form::Record => self.end_record(Used::of(used, corners)),
            Form::Thin => self.end_thin(Used::of(used, corners)),
        }
    }

    pub fn request(&mut self, id: u64) -> u64 {
        self.took(unsafe { jaturemi_request_focus(self.nav, id) })
    }

    pub fn request_next(&mut self, id: u64) -> u64 {
        self.took(unsafe { jaturemi_request_focus_next_frame(self.nav, id) })
    }

    pub fn surrender(&mut self, id: u64) -> u64 {
        self.took(unsafe { jaturemi_surrender_focus(self.nav, id) })
    }

    pub fn set_filter(&mut self, id: u64, filter: EventFilter) -> u64 {
        self.took(unsafe { jaturemi_set_focus_lock_filter(self.nav, id, filter) })
    }

    pub fn move_to(&mut self, direction: u64) -> u64 {
        self.took(unsafe { jaturemi_move_focus(self.nav, direction) })
    }

    pub fn set_modal(&mut self, layer: LayerId) -> u64 {
        self.took(unsafe { jaturemi_set_modal_layer(self.nav, layer) })
    }
}
