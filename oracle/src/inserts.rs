//! How long egui's `insert` takes, on the pages on which the port's is timed too (oracle/registry).
use crate::emath::{Rect, pos2};
use crate::pages::{self, KINDS, Kind, SIZES, Widget};
use crate::widget_rect::{InteractOptions, WidgetRect, WidgetRects};
use crate::{LayerId, Order, Sense, convert};

fn insert(widgets: &mut WidgetRects, w: &Widget, move_to_top: bool) {
    let layer_id = LayerId::new(Order::Middle, convert::id(w.layer));
    let rect = Rect {
        min: pos2(w.corner, w.corner),
        max: pos2(w.corner + 8.0, w.corner + 8.0),
    };
    let new = WidgetRect {
        id: convert::id(w.id),
        parent_id: convert::id(9),
        layer_id,
        rect,
        interact_rect: rect,
        sense: Sense::FOCUSABLE,
        enabled: true,
        visible: true,
    };
    widgets.insert(layer_id, new, InteractOptions { move_to_top });
}

pub fn times() {
    for (count, layers) in SIZES {
        for (name, kind) in KINDS {
            let page = pages::page(count, layers);
            let mut widgets = WidgetRects::default();
            page.iter().for_each(|w| insert(&mut widgets, w, false));
            let start = |r: &mut WidgetRects, w: &Widget| match kind {
                Kind::New => r.clear(),
                Kind::AfterMove => insert(r, w, true),
                _ => (),
            };
            let turn = |r: &mut WidgetRects, w: &Widget| insert(r, w, kind == Kind::ToTop);
            let time = pages::nanoseconds(kind, &page, &mut widgets, start, turn);
            println!("{name} | {count} | {layers} {time:.1}");
        }
    }
}
