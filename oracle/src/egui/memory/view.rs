//! The whole state of `Memory`, for the line `state` and for the refusals that ask how full a table is. Private fields are read here.
use super::{Areas, Focus, FocusDirection, FocusWidget, Memory};
use crate::emath::{Rect, pos2};
use crate::line::Line;
use crate::pass::Side;
use crate::stand_ins::{IdMap, RawInput, ViewportId};
use crate::{Event, Id, LayerId};
use std::collections::BTreeMap;

impl Memory {
    /// The focus record, fresh before the first begin.
    fn focus_record(&self) -> Focus {
        self.focus().cloned().unwrap_or_default()
    }

    pub fn is_cached(&self, id: Id) -> bool {
        self.focus()
            .is_some_and(|f| f.focus_widgets_cache.contains_key(&id))
    }

    pub fn cached(&self) -> usize {
        self.focus().map_or(0, |f| f.focus_widgets_cache.len())
    }

    pub fn show(&self, line: Line) -> Line {
        let line = self.focus_record().show(line);
        let line = self.areas().show(line);
        let popup = self.popups.get(&self.viewport_id).copied();
        line.word("popup")
            .maybe(popup, |line, popup| {
                line.id(popup.id)
                    .maybe(popup.pos, Line::pos)
                    .flag(popup.open_this_frame)
            })
            .word("flags")
            .flag(self.requested_interrupt_ime)
            .flag(self.everything_is_visible)
    }
}

impl Focus {
    fn show(self, line: Line) -> Line {
        let cache: BTreeMap<u64, _> = self
            .focus_widgets_cache
            .iter()
            .map(|(id, rect)| (id.value(), *rect))
            .collect();
        line.word("focus")
            .maybe(self.focused_widget, Line::focused)
            .maybe(self.id_previous_frame, Line::id)
            .maybe(self.id_two_frames_ago, Line::id)
            .maybe(self.id_next_frame, Line::id)
            .flag(self.give_to_next)
            .maybe(self.last_interested, Line::id)
            .word(self.focus_direction as u64)
            .maybe(self.top_modal_layer, Line::layer)
            .maybe(self.top_modal_layer_current_frame, Line::layer)
            .word("cache")
            .list(cache.into_iter().collect(), |line, (id, rect)| {
                line.word(id).rect(rect)
            })
    }
}

/// `find_widget_in_direction` by itself: a focus record and the rectangles of the pass.
pub struct Search {
    focus: Focus,
    rects: IdMap<Rect>,
}

const DIRECTIONS: [FocusDirection; 7] = [
    FocusDirection::Up,
    FocusDirection::Right,
    FocusDirection::Down,
    FocusDirection::Left,
    FocusDirection::Previous,
    FocusDirection::Next,
    FocusDirection::None,
];

impl Search {
    /// Fields with their left, top, right and bottom edges, one of them focused.
    pub fn new(fields: impl Iterator<Item = (u64, [f32; 4])>, focused: u64) -> Self {
        let rects: IdMap<Rect> = fields.map(entry).collect();
        let focus = Focus {
            focused_widget: Some(FocusWidget::new(id_of(focused))),
            focus_widgets_cache: rects.clone(),
            ..Focus::default()
        };
        Self { focus, rects }
    }

    /// The id that is found, or 0.
    pub fn find(&mut self, direction: u64) -> u64 {
        self.focus.focus_direction = DIRECTIONS[direction as usize];
        let found = self.focus.find_widget_in_direction(&self.rects);
        found.map_or(0, |id| id.value())
    }
}

fn id_of(n: u64) -> Id {
    Id::of(n).expect("an id is not 0")
}

impl Line {
    fn focused(self, widget: FocusWidget) -> Self {
        self.id(widget.id)
            .flag(widget.filter.tab)
            .flag(widget.filter.horizontal_arrows)
            .flag(widget.filter.vertical_arrows)
            .flag(widget.filter.escape)
    }
}

impl Areas {
    pub fn is_parent(&self, layer: LayerId) -> bool {
        self.child_layers(layer).next().is_some()
    }

    fn show(&self, line: Line) -> Line {
        let states: BTreeMap<u64, _> = self
            .areas
            .iter()
            .map(|(id, state)| (id.value(), *state))
            .collect();
        line.word("stack")
            .list(self.order.clone(), |line, layer| {
                self.show_layer(line, layer)
            })
            .word("areas")
            .list(states.into_iter().collect(), |line, (id, state)| {
                line.word(id).state(state)
            })
    }

    fn show_layer(&self, line: Line, layer: LayerId) -> Line {
        line.layer(layer)
            .maybe(self.order_map.get(&layer), Line::word)
            .flag(self.visible_areas_last_frame.contains(&layer))
            .flag(self.visible_areas_current_frame.contains(&layer))
            .flag(self.wants_to_be_on_top.contains(&layer))
            .maybe(self.parent_layer(layer), Line::layer)
    }
}

/// A focus record by itself, with what its calls are given, for oracle/focus.
pub struct Passes {
    focus: Focus,
    fields: Vec<(Id, Rect)>,
    used: IdMap<Rect>,
    made_anew: bool,
    events: RawInput,
    no_events: RawInput,
}

impl Passes {
    pub fn new(fields: Vec<(u64, [f32; 4])>, events: Vec<Event>, made_anew: bool) -> Self {
        let fields: Vec<(Id, Rect)> = fields.into_iter().map(entry).collect();
        let viewport_id = ViewportId::default();
        Self {
            focus: Focus::default(),
            used: fields.iter().copied().collect(),
            fields,
            made_anew,
            events: RawInput {
                viewport_id,
                events,
            },
            no_events: RawInput {
                viewport_id,
                events: Vec::new(),
            },
        }
    }
}

impl Side for Passes {
    fn begin(&mut self, with_events: bool) -> u64 {
        let input = if with_events { &self.events } else { &self.no_events };
        self.focus.begin_pass(input);
        0
    }

    fn interests(&mut self) -> u64 {
        for &(id, _) in &self.fields {
            self.focus.interested_in_focus(id);
        }
        0
    }

    fn end(&mut self, turn: u64, arrow: bool) -> u64 {
        let (middle, _) = self.fields[self.fields.len() / 2];
        self.focus.focused_widget = Some(FocusWidget::new(middle));
        self.focus.focus_direction = DIRECTIONS[if arrow { turn as usize % 4 } else { 6 }];
        if self.made_anew {
            let used: IdMap<Rect> = self.fields.iter().copied().collect();
            self.focus.end_pass(&used);
        } else {
            self.focus.end_pass(&self.used);
        }
        0
    }
}

fn entry((id, [left, top, right, bottom]): (u64, [f32; 4])) -> (Id, Rect) {
    let min = pos2(left, top);
    let max = pos2(right, bottom);
    (id_of(id), Rect { min, max })
}
