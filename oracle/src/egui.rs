//! egui's own text, cut and included unedited, a module for each of its files. Only the imports above each text are ours.

macro_rules! egui {
    ($file:literal) => {
        include!(concat!(env!("EGUI"), "/", $file, ".rs"));
    };
}

pub mod memory {
    use crate::area;
    use crate::emath::{Pos2, Rangef, Rect, TSTransform, Vec2, vec2};
    use crate::stand_ins::ahash::{HashMap, HashSet};
    use crate::stand_ins::{
        IdMap, Options, RawInput, ViewportId, ViewportIdMap, ViewportIdSet, accesskit, ahash,
        epaint, profiling,
    };
    use crate::{EventFilter, Id, LayerId, Order};
    egui!("memory");

    mod view;
    pub use view::{Passes, Search};
}

pub mod widget_rect {
    use crate::emath::{self, Rect};
    use crate::stand_ins::ahash::HashMap;
    use crate::stand_ins::{HashedIdMap as IdMap, WidgetInfo};
    use crate::{Id, LayerId, Sense};
    egui!("widget_rect");

    mod view;
}

pub mod area {
    use crate::Id;
    use crate::emath::{Align2, GuiRounding as _, Pos2, Rect, Vec2, pos2};
    use crate::stand_ins::Context;
    egui!("area");
}

pub mod layers {
    use crate::Id;
    egui!("layers");
}

pub mod sense {
    use crate::stand_ins::bitflags;
    egui!("sense");
}

pub mod key {
    egui!("key");
}

pub mod event_filter {
    use crate::Event;
    egui!("event_filter");
}

pub mod event {
    use crate::emath::{Pos2, Vec2};
    use crate::stand_ins::{
        ColorImage, ImeEvent, MouseWheelSource, MouseWheelUnit, PointerButton, TouchDeviceId,
        TouchId, TouchPhase, accesskit,
    };
    use crate::{Key, Modifiers};
    egui!("event");
}

pub mod modifiers {
    egui!("modifiers");
}
