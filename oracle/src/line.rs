//! An answer of the protocol, put together word by word.
use crate::area::AreaState;
use crate::emath::{Align2, Pos2, Rect};
use crate::widget_rect::WidgetRect;
use crate::{Id, LayerId};

#[derive(Default)]
pub struct Line(pub String);

impl Line {
    pub fn word(mut self, word: impl ToString) -> Self {
        if !self.0.is_empty() {
            self.0.push(' ');
        }
        self.0.push_str(&word.to_string());
        self
    }

    pub fn flag(self, b: bool) -> Self {
        self.word(u64::from(b))
    }

    pub fn float(self, x: f32) -> Self {
        if x.is_nan() {
            self.word("nan")
        } else {
            self.word(x.to_bits())
        }
    }

    pub fn pos(self, p: Pos2) -> Self {
        self.float(p.x).float(p.y)
    }

    pub fn rect(self, r: Rect) -> Self {
        self.pos(r.min).pos(r.max)
    }

    pub fn id(self, id: Id) -> Self {
        self.word(id.value())
    }

    pub fn layer(self, layer: LayerId) -> Self {
        self.word(layer.order as u64).id(layer.id)
    }

    pub fn maybe<T>(self, value: Option<T>, put: impl Fn(Self, T) -> Self) -> Self {
        match value {
            Some(value) => put(self, value),
            None => self.word("none"),
        }
    }

    pub fn list<T>(self, all: Vec<T>, put: impl Fn(Self, T) -> Self) -> Self {
        let line = self.word(all.len());
        all.into_iter().fold(line, put)
    }

    fn held_pos(self, p: Option<Pos2>) -> Self {
        self.flag(p.is_some()).pos(p.unwrap_or_default())
    }

    pub fn state(self, s: AreaState) -> Self {
        let Align2([x, y]) = s.pivot;
        self.held_pos(s.pivot_pos)
            .word(x as u64)
            .word(y as u64)
            .held_pos(s.size.map(|z| Pos2 { x: z.x, y: z.y }))
            .flag(s.interactable)
    }

    /// A record without its id.
    pub fn widget_rest(self, w: WidgetRect) -> Self {
        self.id(w.parent_id)
            .layer(w.layer_id)
            .rect(w.rect)
            .rect(w.interact_rect)
            .word(w.sense.bits())
            .flag(w.enabled)
            .flag(w.visible)
    }

    pub fn widget(self, w: WidgetRect) -> Self {
        self.id(w.id).widget_rest(w)
    }
}
