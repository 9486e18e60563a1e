//! The answer to a line of ../shared/REPLAY.md: document 01's refusals in front, and behind them egui's own text.
use crate::convert;
use crate::emath::Rect;
use crate::line::Line;
use crate::memory::Memory;
use crate::refusals::{self, Refusal, lowest};
use crate::simple::{of_id, of_layer, of_nothing};
use crate::stand_ins::{RawInput, ViewportId, ViewportIdSet};
use crate::widget_rect::{InteractOptions, WidgetRects};
use crate::words::Words;
use crate::{EventFilter, LayerId};
use std::cmp::Ordering;

#[derive(Default)]
pub struct State {
    pub memory: Memory,
    pub registry: WidgetRects,
}

/// Nothing where the line does not fit the page; else a refusal or the answer.
type Answer = Option<Result<Line, u64>>;

pub fn answer(s: &mut State, line: &[u8]) -> String {
    let mut words = Words::of(line);
    let name = words.word().unwrap_or_default();
    match call(s, name, &mut words) {
        None => "bad".to_owned(),
        Some(Err(number)) => format!("no {number}"),
        Some(Ok(line)) => line.0,
    }
}

fn call(s: &mut State, name: &[u8], w: &mut Words) -> Answer {
    if let Some(act) = of_nothing(name) {
        w.end()?;
        return unless(None, || act(s));
    }
    if let Some(act) = of_id(name) {
        let id = w.number()?;
        w.end()?;
        return unless(refusals::id(id), || act(s, convert::id(id)));
    }
    if let Some(act) = of_layer(name) {
        let layer = w.layer()?;
        w.end()?;
        return unless(refusals::layer(layer), || act(s, convert::layer(layer)));
    }
    match name {
        b"begin" => begin(s, w),
        b"interest" => interest(s, w),
        b"end" => end(s, w),
        b"layer_id_at" => layer_id_at(s, w),
        b"set_focus_lock_filter" => set_focus_lock_filter(s, w),
        b"move_focus" => move_focus(s, w),
        b"open_popup_at" => open_popup_at(s, w),
        b"set_everything_is_visible" => set_everything_is_visible(s, w),
        b"set_state" => set_state(s, w),
        b"move_to_top" => move_to_top(s, w),
        b"set_sublayer" => set_sublayer(s, w),
        b"compare_order" => compare_order(s, w),
        b"top_layer_id" => top_layer_id(s, w),
        b"insert" => insert(s, w),
        b"left_top_pos" => left_top_pos(w),
        b"rect" => rect(w),
        b"set_left_top_pos" => set_left_top_pos(w),
        b"matches" => matches(w),
        _ => None,
    }
}

fn unless(refusal: Refusal, act: impl FnOnce() -> Line) -> Answer {
    Some(match refusal {
        Some(number) => Err(number),
        None => Ok(act()),
    })
}

pub fn line() -> Line {
    Line::default()
}

pub fn ok(_: ()) -> Line {
    line().word("ok")
}

fn begin(s: &mut State, w: &mut Words) -> Answer {
    let events = w.list(Words::event)?;
    unless(refusals::events(&events), || {
        let events = events.iter().enumerate();
        let input = RawInput {
            viewport_id: ViewportId::default(),
            events: events.map(|(i, e)| convert::event(e, i)).collect(),
        };
        let live = ViewportIdSet::from_iter([ViewportId::default()]);
        ok(s.memory.begin_pass(&input, &live))
    })
}

fn interest(s: &mut State, w: &mut Words) -> Answer {
    let id = w.number()?;
    let layer = w.layer()?;
    w.end()?;
    // Whether the id is let through can be asked only of numbers that are an id and a layer.
    let full = || {
        let id = convert::id(id);
        let allowed = s.memory.allows_interaction(convert::layer(layer));
        allowed && !s.memory.is_cached(id) && refusals::CACHED <= s.memory.cached()
    };
    let refusal = lowest([refusals::id(id), refusals::layer(layer)]);
    let refusal = refusal.or_else(|| refusals::when(refusals::FULL, full()));
    unless(refusal, || {
        let layer = convert::layer(layer);
        ok(s.memory.interested_in_focus(convert::id(id), layer))
    })
}

fn end(s: &mut State, w: &mut Words) -> Answer {
    let used: Vec<(u64, Rect)> = w.list(|w| Some((w.number()?, w.rect()?)))?;
    unless(refusals::used(&used), || {
        let used = used.iter().map(|&(id, rect)| (convert::id(id), rect));
        ok(s.memory.end_pass(&used.collect()))
    })
}

fn layer_id_at(s: &State, w: &mut Words) -> Answer {
    let pos = w.pos()?;
    w.end()?;
    unless(None, || {
        line().maybe(s.memory.layer_id_at(pos), Line::layer)
    })
}

fn filter(w: &mut Words) -> Option<EventFilter> {
    Some(EventFilter {
        tab: w.flag()?,
        horizontal_arrows: w.flag()?,
        vertical_arrows: w.flag()?,
        escape: w.flag()?,
    })
}

fn set_focus_lock_filter(s: &mut State, w: &mut Words) -> Answer {
    let id = w.number()?;
    let filter = filter(w)?;
    w.end()?;
    unless(refusals::id(id), || {
        ok(s.memory.set_focus_lock_filter(convert::id(id), filter))
    })
}

fn move_focus(s: &mut State, w: &mut Words) -> Answer {
    let code = w.number()?;
    w.end()?;
    unless(refusals::direction(code), || {
        ok(s.memory.move_focus(convert::direction(code)))
    })
}

fn open_popup_at(s: &mut State, w: &mut Words) -> Answer {
    let id = w.number()?;
    let pos = w.held_pos()?;
    w.end()?;
    unless(refusals::id(id), || {
        ok(s.memory.open_popup_at(convert::id(id), pos))
    })
}

fn set_everything_is_visible(s: &mut State, w: &mut Words) -> Answer {
    let value = w.flag()?;
    w.end()?;
    unless(None, || ok(s.memory.set_everything_is_visible(value)))
}

/// Refusal 6 where the new ones among these layers do not fit the stack.
fn stack_full(s: &State, layers: &[LayerId]) -> Refusal {
    let held = s.memory.areas().order();
    let mut new: Vec<LayerId> = layers.to_vec();
    new.retain(|layer| !held.contains(layer));
    new.dedup();
    let passes = !new.is_empty() && refusals::LAYERS < held.len() + new.len();
    refusals::when(refusals::FULL, passes)
}

fn set_state(s: &mut State, w: &mut Words) -> Answer {
    let layer = w.layer()?;
    let state = w.state()?;
    w.end()?;
    let refusal = lowest([refusals::layer(layer), refusals::state(&state)]);
    let refusal = refusal.or_else(|| stack_full(s, &[convert::layer(layer)]));
    unless(refusal, || {
        let areas = s.memory.areas_mut();
        ok(areas.set_state(convert::layer(layer), convert::state(&state)))
    })
}

fn move_to_top(s: &mut State, w: &mut Words) -> Answer {
    let layer = w.layer()?;
    w.end()?;
    let refusal = refusals::layer(layer).or_else(|| stack_full(s, &[convert::layer(layer)]));
    unless(refusal, || {
        ok(s.memory.areas_mut().move_to_top(convert::layer(layer)))
    })
}

/// Refusals 8 and 9: a pair that is no pair, or that breaks the one level of families.
fn family(s: &State, parent: LayerId, child: LayerId) -> Refusal {
    let areas = s.memory.areas();
    let second = areas.parent_layer(child).is_some_and(|p| p != parent);
    let nested = areas.is_parent(child) || areas.is_sublayer(&parent);
    lowest([
        refusals::when(
            refusals::PAIR,
            parent.order != child.order || parent == child,
        ),
        refusals::when(refusals::FAMILY, second || nested),
    ])
}

fn set_sublayer(s: &mut State, w: &mut Words) -> Answer {
    let parent = w.layer()?;
    let child = w.layer()?;
    w.end()?;
    let refusal = lowest([refusals::layer(parent), refusals::layer(child)]);
    let refusal = refusal.or_else(|| {
        let (parent, child) = (convert::layer(parent), convert::layer(child));
        lowest([stack_full(s, &[parent, child]), family(s, parent, child)])
    });
    unless(refusal, || {
        let areas = s.memory.areas_mut();
        ok(areas.set_sublayer(convert::layer(parent), convert::layer(child)))
    })
}

fn compare_order(s: &State, w: &mut Words) -> Answer {
    let a = w.layer()?;
    let b = w.layer()?;
    w.end()?;
    unless(lowest([refusals::layer(a), refusals::layer(b)]), || {
        let areas = s.memory.areas();
        line().word(
            match areas.compare_order(convert::layer(a), convert::layer(b)) {
                Ordering::Less => 0,
                Ordering::Equal => 1,
                Ordering::Greater => 2,
            },
        )
    })
}

fn top_layer_id(s: &State, w: &mut Words) -> Answer {
    let order = w.number()?;
    w.end()?;
    unless(refusals::order(order), || {
        let areas = s.memory.areas();
        line().maybe(areas.top_layer_id(convert::order(order)), Line::layer)
    })
}

fn insert(s: &mut State, w: &mut Words) -> Answer {
    let layer = w.layer()?;
    let widget = w.widget()?;
    let move_to_top = w.flag()?;
    w.end()?;
    let held = widget.id != 0 && s.registry.contains(convert::id(widget.id));
    let full = !held && refusals::WIDGETS <= s.registry.len();
    let refusal = lowest([
        refusals::widget(layer, &widget),
        refusals::when(refusals::FULL, full),
    ]);
    unless(refusal, || {
        let options = InteractOptions { move_to_top };
        let layer = convert::layer(layer);
        ok(s.registry.insert(layer, convert::widget(&widget), options))
    })
}

fn left_top_pos(w: &mut Words) -> Answer {
    let state = w.state()?;
    w.end()?;
    unless(refusals::state(&state), || {
        line().pos(convert::state(&state).left_top_pos())
    })
}

fn rect(w: &mut Words) -> Answer {
    let state = w.state()?;
    w.end()?;
    unless(refusals::state(&state), || {
        line().rect(convert::state(&state).rect())
    })
}

fn set_left_top_pos(w: &mut Words) -> Answer {
    let state = w.state()?;
    let pos = w.pos()?;
    w.end()?;
    let refusal = lowest([refusals::state(&state), refusals::corner(pos)]);
    unless(refusal, || {
        let mut state = convert::state(&state);
        state.set_left_top_pos(pos);
        line().state(state)
    })
}

fn matches(w: &mut Words) -> Answer {
    let filter = filter(w)?;
    let event = w.event()?;
    w.end()?;
    unless(refusals::event(&event), || {
        line().flag(filter.matches(&convert::event(&event, 0)))
    })
}
