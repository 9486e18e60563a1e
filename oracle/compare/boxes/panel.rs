//! A panel: pages of fields with their areas, and over them a confirm box and perhaps another box.
use crate::draw::{Draw, steps};
use crate::pages::{Field, interest, page};

/// A page or a box: its layer, the area that a touch may hit, in 32nds, and its fields.
pub struct Sheet {
    pub layer: (u64, u64),
    area: [i64; 4],
    pub fields: Vec<Field>,
}

pub struct Panel {
    /// Their layers are of lower Orders than the box's.
    pub pages: Vec<Sheet>,
    pub boxed: Sheet,
    /// A box of the same Order or a higher one.
    pub other: Sheet,
}

/// Ids that no other part of a panel has, and no call that is drawn at random.
const OTHER_BOX: u64 = 5001;
const FILLING: u64 = 301;

impl Sheet {
    fn drawn(d: &mut Draw, layer: (u64, u64), mut fields: Vec<Field>) -> Self {
        fields.iter_mut().for_each(|field| field.layer = layer);
        let [x, y] = [(); 2].map(|()| 8 * d.rng.between(-8, 40));
        let [width, height] = [(); 2].map(|()| 8 * d.rng.between(1, 48));
        let area = [x, y, x + width, y + height];
        Self {
            layer,
            area,
            fields,
        }
    }

    pub fn set_state(&self, d: &mut Draw) -> String {
        let (order, id) = self.layer;
        let [x0, y0, x1, y1] = self.area;
        let [x, y, width, height] = [x0, y0, x1 - x0, y1 - y0].map(steps);
        let interactable = u64::from(!d.rng.percent(8));
        format!("set_state {order} {id} 1 {x} {y} 0 0 1 {width} {height} {interactable}")
    }

    /// A hit within its area, also on an edge.
    pub fn hit(&self, d: &mut Draw) -> String {
        let [x0, y0, x1, y1] = self.area;
        let (x, y) = (d.rng.between(x0, x1), d.rng.between(y0, y1));
        format!("layer_id_at {} {}", steps(x), steps(y))
    }

    pub fn named(&self, call: &str) -> String {
        named(call, self.layer)
    }

    /// The id of one of its fields.
    pub fn id(&self, d: &mut Draw) -> u64 {
        self.fields[d.rng.below(self.fields.len())].id
    }

    pub fn ids(&self) -> impl Iterator<Item = u64> {
        self.fields.iter().map(|field| field.id)
    }

    pub fn interests(&self) -> impl Iterator<Item = String> {
        self.fields.iter().map(interest)
    }
}

/// A call whose only argument is a layer.
pub fn named(call: &str, (order, id): (u64, u64)) -> String {
    format!("{call} {order} {id}")
}

impl Panel {
    pub fn drawn(d: &mut Draw) -> Self {
        let order = d.rng.pick(&[1, 2, 2, 2, 3, 4]);
        let counts: Vec<usize> = (0..d.rng.pick(&[1, 1, 2, 3]))
            .map(|_| 1 + d.rng.below(6))
            .collect();
        let boxed = 1 + d.rng.below(4);
        let other = 1 + d.rng.below(3);
        let total = counts.iter().sum::<usize>() + boxed + other;
        // One layout for all of them, so that arrows lead from a box to what lies under it.
        let mut fields = page(d, total, (0, 0));
        let mut cut = |count: usize| fields.split_off(fields.len() - count);
        let [mut other, boxed] = [other, boxed].map(&mut cut);
        other
            .iter_mut()
            .zip(OTHER_BOX..)
            .for_each(|(f, id)| f.id = id);
        let pages = counts.into_iter().map(&mut cut).collect::<Vec<_>>();
        let pages = pages.into_iter().enumerate().map(|(place, fields)| {
            // Layers of several Orders may share an id, and with it an area.
            let id = d.rng.pick(&[7, 7, 7 + place as u64, 9]);
            let lower = d.rng.below(order as usize) as u64;
            Sheet::drawn(d, (lower, id), fields)
        });
        let pages = pages.collect();
        let above = d.rng.between(order as i64, 4) as u64;
        Self {
            pages,
            boxed: Sheet::drawn(d, (order, 9), boxed),
            other: Sheet::drawn(d, (above, 10), other),
        }
    }

    /// One more page, whose fields fill the cache up to its limit or nearly.
    pub fn fill(&mut self, d: &mut Draw) {
        let count = 250 + d.rng.below(8);
        let mut fields = page(d, count, (0, 0));
        fields
            .iter_mut()
            .zip(FILLING..)
            .for_each(|(f, id)| f.id = id);
        let layer = self.pages[0].layer;
        self.pages.push(Sheet::drawn(d, layer, fields));
    }

    pub fn sheets(&self) -> impl Iterator<Item = &Sheet> {
        self.pages.iter().chain([&self.boxed, &self.other])
    }

    /// Any of its sheets, the pages as often as the boxes.
    pub fn sheet(&self, d: &mut Draw) -> &Sheet {
        match d.rng.below(5) {
            0 => &self.other,
            1 | 2 => &self.boxed,
            _ => &self.pages[d.rng.below(self.pages.len())],
        }
    }

    /// A field of a page.
    pub fn under(&self, d: &mut Draw) -> &Field {
        let page = &self.pages[d.rng.below(self.pages.len())];
        &page.fields[d.rng.below(page.fields.len())]
    }
}
