//! The calls whose only argument is an id or a layer, or that have none.
use crate::answers::{State, line, ok};
use crate::line::Line;
use crate::{Id, LayerId};

type OfNothing = fn(&mut State) -> Line;
type OfId = fn(&mut State, Id) -> Line;
type OfLayer = fn(&mut State, LayerId) -> Line;

pub fn of_nothing(name: &[u8]) -> Option<OfNothing> {
    let act: OfNothing = match name {
        b"new" => |s| {
            *s = State::default();
            ok(())
        },
        b"layer_ids" => |s| line().list(s.memory.layer_ids().collect(), Line::layer),
        b"focused" => |s| line().maybe(s.memory.focused(), Line::id),
        b"focus_direction" => |s| line().word(s.memory.focus_direction() as u64),
        b"top_modal_layer" => |s| line().maybe(s.memory.top_modal_layer(), Line::layer),
        b"stop_text_input" => |s| ok(s.memory.stop_text_input()),
        b"reset_areas" => |s| ok(s.memory.reset_areas()),
        b"interrupt_ime" => |s| ok(s.memory.interrupt_ime()),
        b"should_interrupt_ime" => |s| line().flag(s.memory.should_interrupt_ime()),
        b"any_popup_open" => |s| line().flag(s.memory.any_popup_open()),
        b"close_all_popups" => |s| ok(s.memory.close_all_popups()),
        b"everything_is_visible" => |s| line().flag(s.memory.everything_is_visible()),
        b"count" => |s| line().word(s.memory.areas().count()),
        b"visible_layer_ids" => |s| {
            let visible = s.memory.areas().visible_layer_ids();
            listing(s, visible.into_iter().collect())
        },
        b"visible_windows" => |s| {
            let windows = s.memory.areas().visible_windows();
            listing(s, windows.map(|(layer, _)| layer).collect())
        },
        b"clear" => |s| ok(s.registry.clear()),
        b"state" => |s| s.registry.show(s.memory.show(line())),
        _ => return None,
    };
    Some(act)
}

pub fn of_id(name: &[u8]) -> Option<OfId> {
    let act: OfId = match name {
        b"has_focus" => |s, id| line().flag(s.memory.has_focus(id)),
        b"had_focus_last_frame" => |s, id| line().flag(s.memory.had_focus_last_frame(id)),
        b"lost_focus" => |s, id| line().flag(s.memory.lost_focus(id)),
        b"gained_focus" => |s, id| line().flag(s.memory.gained_focus(id)),
        b"owns_ime_events" => |s, id| line().flag(s.memory.owns_ime_events(id)),
        b"request_focus" => |s, id| ok(s.memory.request_focus(id)),
        b"request_focus_next_frame" => |s, id| ok(s.memory.request_focus_next_frame(id)),
        b"surrender_focus" => |s, id| ok(s.memory.surrender_focus(id)),
        b"ignore_focus" => |s, id| ok(s.memory.ignore_focus(id)),
        b"area_rect" => |s, id| line().maybe(s.memory.area_rect(id), Line::rect),
        b"is_popup_open" => |s, id| line().flag(s.memory.is_popup_open(id)),
        b"open_popup" => |s, id| ok(s.memory.open_popup(id)),
        b"keep_popup_open" => |s, id| ok(s.memory.keep_popup_open(id)),
        b"close_popup" => |s, id| ok(s.memory.close_popup(id)),
        b"toggle_popup" => |s, id| ok(s.memory.toggle_popup(id)),
        b"popup_position" => |s, id| line().maybe(s.memory.popup_position(id), Line::pos),
        b"get" => |s, id| line().maybe(s.memory.areas().get(id).copied(), Line::state),
        b"order" => |s, id| {
            line().maybe(s.registry.order(id), |line, (layer, index)| {
                line.layer(layer).word(index)
            })
        },
        b"widget" => |s, id| line().maybe(s.registry.get(id).copied(), Line::widget),
        b"contains" => |s, id| line().flag(s.registry.contains(id)),
        _ => return None,
    };
    Some(act)
}

pub fn of_layer(name: &[u8]) -> Option<OfLayer> {
    let act: OfLayer = match name {
        b"is_above_modal_layer" => |s, layer| line().flag(s.memory.is_above_modal_layer(layer)),
        b"allows_interaction" => |s, layer| line().flag(s.memory.allows_interaction(layer)),
        b"set_modal_layer" => |s, layer| ok(s.memory.set_modal_layer(layer)),
        b"is_interactable" => |s, layer| line().flag(s.memory.areas().is_interactable(layer)),
        b"visible_last_frame" => {
            |s, layer| line().flag(s.memory.areas().visible_last_frame(&layer))
        }
        b"is_visible" => |s, layer| line().flag(s.memory.areas().is_visible(&layer)),
        b"is_sublayer" => |s, layer| line().flag(s.memory.areas().is_sublayer(&layer)),
        b"child_layers" => |s, layer| {
            let children = s.memory.areas().child_layers(layer).collect();
            listing(s, children)
        },
        b"parent_layer" => |s, layer| {
            let parent = s.memory.areas().parent_layer(layer);
            line().maybe(parent, Line::layer)
        },
        b"get_layer" => |s, layer| {
            let widgets = s.registry.get_layer(layer).copied().collect();
            line().list(widgets, Line::widget)
        },
        b"focusable_widgets_in_layer" => |s, layer| {
            let ids = s.registry.focusable_widgets_in_layer(layer).collect();
            line().list(ids, Line::id)
        },
        _ => return None,
    };
    Some(act)
}

/// A set of layers, which egui gives in its map's order, in stack order. Each of them is in the stack.
fn listing(s: &State, set: Vec<LayerId>) -> Line {
    let stack = s.memory.areas().order();
    let listed: Vec<LayerId> = stack
        .iter()
        .copied()
        .filter(|layer| set.contains(layer))
        .collect();
    assert_eq!(
        listed.len(),
        set.len(),
        "a listed layer is not in the stack"
    );
    line().list(listed, Line::layer)
}
