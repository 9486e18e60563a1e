//! Words of a line, once none of them is refused, as egui's values.
use crate::area::AreaState;
use crate::emath::{Align, Align2, vec2};
use crate::memory::FocusDirection;
use crate::stand_ins::{PointerButton, accesskit};
use crate::widget_rect::WidgetRect;
use crate::words::{EventWords, LayerWords, StateWords, WidgetWords};
use crate::{Event, Id, Key, LayerId, Modifiers, Order, Sense};

/// An id that was not refused.
pub fn id(n: u64) -> Id {
    Id::of(n).expect("an id of 0 is refused before")
}

pub fn order(code: u64) -> Order {
    match code {
        0 => Order::Background,
        1 => Order::Middle,
        2 => Order::Foreground,
        3 => Order::Tooltip,
        _ => Order::Debug,
    }
}

pub fn layer((o, l): LayerWords) -> LayerId {
    LayerId::new(order(o), id(l))
}

pub fn direction(code: u64) -> FocusDirection {
    match code {
        0 => FocusDirection::Up,
        1 => FocusDirection::Right,
        2 => FocusDirection::Down,
        3 => FocusDirection::Left,
        4 => FocusDirection::Previous,
        5 => FocusDirection::Next,
        _ => FocusDirection::None,
    }
}

/// The keys by their numbers: keys are numbered as declared, which is what a cast of the enum gives.
const KEYS: [Key; Key::ALL.len()] = {
    let mut keys = [Key::Tab; Key::ALL.len()];
    let mut i = 0;
    while i < keys.len() {
        keys[Key::ALL[i] as usize] = Key::ALL[i];
        i += 1;
    }
    keys
};

/// The key of a number. A key past the last is refused before.
fn key(code: u64) -> Key {
    KEYS[code as usize]
}

fn modifiers(bits: u64) -> Modifiers {
    Modifiers {
        alt: bits & 1 != 0,
        ctrl: bits & 2 != 0,
        shift: bits & 4 != 0,
        mac_cmd: bits & 8 != 0,
        command: bits & 16 != 0,
    }
}

fn request(
    action: accesskit::Action,
    target: u64,
    tree: accesskit::TreeId,
    data: Option<()>,
) -> Event {
    Event::AccessKitActionRequest(accesskit::ActionRequest {
        action,
        target_node: accesskit::NodeId(target),
        target_tree: tree,
        data,
    })
}

/// An event of no interest to the focus: by its place in the list one of several kinds, none of which may make a difference.
fn other(place: usize) -> Event {
    use accesskit::{Action, TreeId};
    match place % 6 {
        0 => Event::Copy,
        1 => request(Action::Click, 1, TreeId::ROOT, None),
        2 => request(Action::Focus, 1, TreeId(1), None),
        3 => request(Action::Focus, 1, TreeId::ROOT, Some(())),
        4 => Event::Text("\t".to_owned()),
        _ => Event::WindowFocused(false),
    }
}

pub fn event(e: &EventWords, place: usize) -> Event {
    match *e {
        EventWords::Key {
            key: code,
            pressed,
            repeat,
            modifiers: bits,
        } => Event::Key {
            key: key(code),
            physical_key: None,
            pressed,
            repeat,
            modifiers: modifiers(bits),
        },
        EventWords::Focus(target) => request(
            accesskit::Action::Focus,
            target,
            accesskit::TreeId::ROOT,
            None,
        ),
        EventWords::Pointer(pos) if place % 2 == 0 => Event::PointerMoved(pos),
        EventWords::Pointer(pos) => Event::PointerButton {
            pos,
            button: PointerButton,
            pressed: true,
            modifiers: modifiers(0),
        },
        EventWords::Zoom(factor) => Event::Zoom(factor),
        EventWords::Other => other(place),
    }
}

fn align(code: u64) -> Align {
    match code {
        0 => Align::Min,
        1 => Align::Center,
        _ => Align::Max,
    }
}

pub fn state(s: &StateWords) -> AreaState {
    AreaState {
        pivot_pos: s.pivot_pos,
        pivot: Align2(s.pivot.map(align)),
        size: s.size.map(|z| vec2(z.x, z.y)),
        interactable: s.interactable,
        last_became_visible_at: None,
    }
}

pub fn widget(w: &WidgetWords) -> WidgetRect {
    WidgetRect {
        id: id(w.id),
        parent_id: id(w.parent),
        layer_id: layer(w.layer),
        rect: w.rect,
        interact_rect: w.interact_rect,
        sense: Sense::from_bits_retain(w.sense as u8),
        enabled: w.enabled,
        visible: w.visible,
    }
}
