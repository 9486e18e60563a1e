//! The whole state of the registry, for the line `state` and for refusal 6. Private fields are read here.
use super::{WidgetRect, WidgetRects};
use crate::LayerId;
use crate::line::Line;
use std::collections::BTreeMap;

impl WidgetRects {
    pub fn len(&self) -> usize {
        self.by_id.len()
    }

    pub fn show(&self, line: Line) -> Line {
        let entries: BTreeMap<u64, (usize, WidgetRect)> = self
            .by_id
            .iter()
            .map(|(id, entry)| (id.value(), *entry))
            .collect();
        line.word("registry")
            .list(entries.into_iter().collect(), |line, (id, (index, w))| {
                line.word(id).word(index).widget_rest(w)
            })
            .word("lists")
            .list(self.lists(), |line, (layer, widgets)| {
                line.layer(layer).list(widgets, Line::widget)
            })
    }

    /// The layers that have widgets, by Order and then id.
    fn lists(&self) -> Vec<(LayerId, Vec<WidgetRect>)> {
        let mut lists: Vec<_> = self
            .by_layer
            .iter()
            .filter(|(_, widgets)| !widgets.is_empty())
            .map(|(layer, widgets)| (*layer, widgets.clone()))
            .collect();
        lists.sort_by_key(|(layer, _)| (layer.order, layer.id.value()));
        lists
    }
}
