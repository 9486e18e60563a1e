//! Words and lines of the protocol, drawn at random.
pub use crate::domain::Draw;

/// Each call with the shape of its arguments: i an id, o an Order, l a layer, d a direction, f a flag, x a float, s an area's state,
/// c a corner of two floats, p a pair of layers, e an event, E a list of events, U a list of used entries, w a registry record.
pub const CALLS: &[(&str, &str)] = &[
    ("new", ""),
    ("begin", "E"),
    ("interest", "il"),
    ("end", "U"),
    ("layer_id_at", "xx"),
    ("layer_ids", ""),
    ("focused", ""),
    ("has_focus", "i"),
    ("had_focus_last_frame", "i"),
    ("lost_focus", "i"),
    ("gained_focus", "i"),
    ("owns_ime_events", "i"),
    ("set_focus_lock_filter", "iffff"),
    ("request_focus", "i"),
    ("request_focus_next_frame", "i"),
    ("surrender_focus", "i"),
    ("ignore_focus", "i"),
    ("move_focus", "d"),
    ("focus_direction", ""),
    ("is_above_modal_layer", "l"),
    ("allows_interaction", "l"),
    ("set_modal_layer", "l"),
    ("top_modal_layer", ""),
    ("stop_text_input", ""),
    ("reset_areas", ""),
    ("interrupt_ime", ""),
    ("should_interrupt_ime", ""),
    ("area_rect", "i"),
    ("is_popup_open", "i"),
    ("any_popup_open", ""),
    ("open_popup", "i"),
    ("keep_popup_open", "i"),
    ("close_popup", "i"),
    ("toggle_popup", "i"),
    ("close_all_popups", ""),
    ("open_popup_at", "ifxx"),
    ("popup_position", "i"),
    ("everything_is_visible", ""),
    ("set_everything_is_visible", "f"),
    ("set_state", "ls"),
    ("move_to_top", "l"),
    ("set_sublayer", "p"),
    ("count", ""),
    ("get", "i"),
    ("is_interactable", "l"),
    ("visible_last_frame", "l"),
    ("is_visible", "l"),
    ("is_sublayer", "l"),
    ("compare_order", "ll"),
    ("visible_layer_ids", ""),
    ("visible_windows", ""),
    ("child_layers", "l"),
    ("top_layer_id", "o"),
    ("parent_layer", "l"),
    ("insert", "wf"),
    ("order", "i"),
    ("widget", "i"),
    ("contains", "i"),
    ("get_layer", "l"),
    ("focusable_widgets_in_layer", "l"),
    ("clear", ""),
    ("left_top_pos", "s"),
    ("rect", "s"),
    ("set_left_top_pos", "sc"),
    ("matches", "ffffe"),
    ("state", ""),
];

/// A coordinate of so many 32nds, as its bit pattern.
pub fn steps(n: i64) -> u32 {
    (n as f32 / 32.0).to_bits()
}

impl Draw {
    /// A call with its arguments.
    pub fn call(&mut self, name: &str) -> String {
        let found = CALLS.iter().find(|(known, _)| *known == name);
        let (_, shape) = found.expect("every call is in the table");
        let mut line = name.to_owned();
        for kind in shape.chars() {
            line.push(' ');
            line.push_str(&self.words(kind));
        }
        line
    }

    pub fn any_call(&mut self) -> String {
        let (name, _) = self.rng.pick(CALLS);
        self.call(name)
    }

    fn words(&mut self, kind: char) -> String {
        match kind {
            'i' => self.id().to_string(),
            'o' => self.order().to_string(),
            'l' => self.layer(),
            'p' => self.pair(),
            'd' => self.code(6).to_string(),
            'f' => self.rng.below(2).to_string(),
            'x' => self.float().to_string(),
            'c' => format!("{} {}", self.corner(), self.corner()),
            's' => self.state(),
            'e' => self.event(),
            'E' => self.events(),
            'U' => self.used(),
            _ => self.record(),
        }
    }

    /// Two layers, mostly of one Order.
    fn pair(&mut self) -> String {
        let (parent, child) = (self.order(), self.order());
        let child = if self.rng.percent(85) { parent } else { child };
        format!("{parent} {} {child} {}", self.id(), self.id())
    }

    /// Any float: of the grid, at its edge, or any pattern at all.
    pub fn float(&mut self) -> u32 {
        match self.rng.below(4) {
            0 => self.rng.next() as u32,
            1 => self.odd_float(),
            _ => steps(self.rng.between(-640, 640)),
        }
    }

    /// A float that some rule turns on: not finite, off the grid, at or past a bound, a zero's sign.
    fn odd_float(&mut self) -> u32 {
        let bounds = [
            16384.0_f32,
            16384.03125,
            16383.96875,
            32768.0,
            32768.015625,
            49152.0,
            0.015625,
            0.0078125,
            0.03125,
            0.046875,
            8388608.0,
            16777216.0,
            524288.0,
            f32::MAX,
            f32::MIN_POSITIVE,
            1.0e-45,
            f32::INFINITY,
            f32::NAN,
            0.0,
        ];
        let bits = self.rng.pick(&bounds).to_bits();
        let near = bits.wrapping_add(self.rng.pick(&[0, 0, 0, 0, 1, u32::MAX]));
        near ^ (self.rng.below(2) as u32) << 31
    }

    pub fn corner(&mut self) -> u32 {
        if self.bad() {
            return self.float();
        }
        match self.rng.below(12) {
            0 => self.rng.pick(&[-16384.0_f32, 16384.0, -0.0]).to_bits(),
            1 => steps(self.rng.between(-524_288, 524_288)),
            2 => steps(self.rng.between(-64, 64)),
            _ => steps(8 * self.rng.between(-16, 16)),
        }
    }

    /// A pivot position's coordinate, in 64ths.
    fn pivot_pos(&mut self) -> u32 {
        if self.bad() {
            return self.float();
        }
        match self.rng.below(8) {
            0 => self.rng.pick(&[-32768.0_f32, 32768.0, -0.0]).to_bits(),
            1 => steps(self.rng.between(-1_048_576, 1_048_576)),
            2 | 3 => (self.rng.between(-2_097_152, 2_097_152) as f32 / 64.0).to_bits(),
            4 => (self.rng.between(-99, 99) as f32 / 64.0).to_bits(),
            _ => steps(self.rng.between(-640, 640)),
        }
    }

    fn side(&mut self) -> u32 {
        if self.bad() {
            return self.float();
        }
        match self.rng.below(8) {
            0 => self.rng.pick(&[16384.0_f32, 0.0, -0.0]).to_bits(),
            1 => steps(self.rng.between(0, 524_288)),
            2 => steps(self.rng.between(0, 7)),
            _ => steps(self.rng.between(0, 640)),
        }
    }

    /// A rectangle, its low corner first unless malice has it.
    pub fn rect(&mut self) -> String {
        let ordered = !self.bad();
        let mut x = [self.corner(), self.corner()];
        let mut y = [self.corner(), self.corner()];
        for pair in [&mut x, &mut y] {
            if ordered && f32::from_bits(pair[1]) < f32::from_bits(pair[0]) {
                pair.swap(0, 1);
            }
        }
        format!("{} {} {} {}", x[0], y[0], x[1], y[1])
    }

    pub fn state(&mut self) -> String {
        let held = [!self.rng.percent(12), !self.rng.percent(12)].map(u64::from);
        let pos = [self.pivot_pos(), self.pivot_pos()];
        let pivot = [self.code(2), self.code(2)];
        let size = [self.side(), self.side()];
        let interactable = u64::from(!self.rng.percent(20));
        format!(
            "{} {} {} {} {} {} {} {} {interactable}",
            held[0], pos[0], pos[1], pivot[0], pivot[1], held[1], size[0], size[1]
        )
    }

    pub fn key(&mut self) -> u64 {
        if self.rng.percent(80) {
            self.rng.below(6) as u64
        } else {
            self.code(144)
        }
    }

    pub fn event(&mut self) -> String {
        match self.rng.below(10) {
            0 => format!("a {}", self.id()),
            1 => format!("p {} {}", self.float(), self.float()),
            2 => format!("z {}", self.float()),
            3 => "o".to_owned(),
            _ => {
                let modifiers = match self.rng.below(8) {
                    0 | 1 => 4,
                    2 => self.code(31),
                    _ => 0,
                };
                let pressed = u64::from(!self.rng.percent(15));
                let repeat = self.rng.below(2);
                format!("k {} {pressed} {repeat} {modifiers}", self.key())
            }
        }
    }

    fn counted(&mut self, all: &[String]) -> String {
        let mut words = all.len().to_string();
        for entry in all {
            words.push(' ');
            words.push_str(entry);
        }
        words
    }

    pub fn events(&mut self) -> String {
        let count = match self.rng.below(6) {
            0 => self.rng.below(8),
            1 | 2 => 0,
            _ => 1,
        };
        self.events_of(count)
    }

    pub fn events_of(&mut self, count: usize) -> String {
        let all: Vec<String> = (0..count).map(|_| self.event()).collect();
        self.counted(&all)
    }

    /// A few used entries, their ids a run of numbers, or drawn with repeats.
    pub fn used(&mut self) -> String {
        let count = self.rng.below(9) as u64;
        let mut ids: Vec<u64> = (1..=count).collect();
        if self.bad() {
            ids = ids.iter().map(|_| self.id()).collect();
        }
        self.rng.shuffle(&mut ids);
        self.used_of(&ids)
    }

    pub fn used_of(&mut self, ids: &[u64]) -> String {
        let entries = ids.iter().map(|id| format!("{id} {}", self.rect()));
        let all: Vec<String> = entries.collect();
        self.counted(&all)
    }

    fn record(&mut self) -> String {
        let id = self.id();
        self.record_of(id)
    }

    /// A registry call's layer and the record of an id.
    pub fn record_of(&mut self, id: u64) -> String {
        let layer = self.layer();
        self.record_in(&layer, id)
    }

    pub fn record_in(&mut self, layer: &str, id: u64) -> String {
        let of = if self.bad() {
            self.layer()
        } else {
            layer.to_owned()
        };
        let parent = self.id();
        let (rect, interact) = (self.rect(), self.rect());
        let (enabled, visible) = (self.rng.below(2), self.rng.below(2));
        let sense = self.code(7);
        format!("{layer} {id} {parent} {of} {rect} {interact} {sense} {enabled} {visible}")
    }
}
