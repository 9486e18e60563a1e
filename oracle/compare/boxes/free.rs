//! The calls that README.md's rule for a confirm box leaves free at any time, and those that are
//! free until the box is opened.
use super::panel::named;
use super::program::Draft;
use crate::pages::OF_ID;

const OF_LAYER: &[&str] = &[
    "move_to_top",
    "move_to_top",
    "set_modal_layer",
    "is_above_modal_layer",
    "allows_interaction",
    "is_visible",
    "parent_layer",
];

const OTHERS: &[&str] = &[
    "stop_text_input",
    "stop_text_input",
    "reset_areas",
    "interrupt_ime",
    "set_everything_is_visible",
    "open_popup",
    "open_popup_at",
    "keep_popup_open",
    "toggle_popup",
    "close_popup",
    "close_all_popups",
    "set_sublayer",
    "set_state",
    "layer_id_at",
    "top_modal_layer",
    "focus_direction",
    "layer_ids",
    "state",
];

/// Calls that the rule does not leave free everywhere; `new` would leave no box.
const BOUND: [&str; 6] = [
    "new",
    "begin",
    "end",
    "interest",
    "request_focus",
    "request_focus_next_frame",
];

impl Draft {
    /// A call that is free at any time, within the opening too.
    pub fn free_call(&mut self) -> String {
        let field = self.panel.sheet(&mut self.d).id(&mut self.d);
        match self.d.rng.below(16) {
            0..3 => self.request_above(),
            3 | 4 => self.moved(),
            5..8 => format!("{} {field}", self.d.rng.pick(&OF_ID)),
            8 => self.filter(field),
            9..11 => {
                let call = self.d.rng.pick(OF_LAYER);
                self.panel.sheet(&mut self.d).named(call)
            }
            11 => self.family(),
            12 => self.panel.sheet(&mut self.d).set_state(&mut self.d),
            13 | 14 => {
                let call = self.d.rng.pick(OTHERS);
                self.d.call(call)
            }
            _ => self.any_free_call(),
        }
    }

    fn moved(&mut self) -> String {
        let direction = self.d.rng.pick(&[0, 1, 2, 3, 4, 4, 5, 5, 6]);
        format!("move_focus {direction}")
    }

    fn filter(&mut self, id: u64) -> String {
        let flags = [(); 4].map(|()| self.d.rng.below(2).to_string());
        format!("set_focus_lock_filter {id} {}", flags.join(" "))
    }

    /// A field of a box asks for the focus: the box's own, or one of the other box.
    fn request_above(&mut self) -> String {
        let other = self.d.rng.percent(20);
        let sheet = if other {
            &self.panel.other
        } else {
            &self.panel.boxed
        };
        let id = sheet.id(&mut self.d);
        match self.d.rng.below(5) {
            0 => named(&format!("interest {id}"), sheet.layer),
            1 | 2 => format!("request_focus {id}"),
            _ => format!("request_focus_next_frame {id}"),
        }
    }

    fn family(&mut self) -> String {
        let (order, parent) = self.panel.sheet(&mut self.d).layer;
        let child = self.d.rng.pick(&[7, 8, 9, 10, 11]);
        format!("set_sublayer {order} {parent} {order} {child}")
    }

    fn any_free_call(&mut self) -> String {
        let call = self.d.any_call();
        let name = call.split(' ').next().unwrap_or_default();
        if BOUND.contains(&name) {
            return "focus_direction".to_owned();
        }
        call
    }

    /// A call that may be under way before the box is opened: fields of the pages ask for the
    /// focus, or anything else is called, in and out of the domain.
    pub fn under_way(&mut self) -> String {
        let field = self.panel.under(&mut self.d);
        let (id, layer) = (field.id, field.layer);
        match self.d.rng.below(12) {
            0 | 1 => format!("request_focus {id}"),
            2..4 => format!("request_focus_next_frame {id}"),
            4 => named(&format!("interest {id}"), layer),
            5 => self
                .d
                .rng
                .pick(&["begin 1 k 5 1 0 4", "begin 1 k 5 1 0 0"])
                .to_owned(),
            6 => self.moved(),
            7 => match self.d.any_call() {
                call if call == "new" => "focused".to_owned(),
                call => call,
            },
            _ => self.free_call(),
        }
    }
}
