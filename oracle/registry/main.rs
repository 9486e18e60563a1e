//! Times the port's `insert` (crates/board, a static library) on the pages that `oracle inserts` takes: a line for each kind and size.
mod pages;

use pages::{KINDS, Kind, SIZES, Widget};

#[repr(C)]
#[derive(Clone, Copy)]
struct LayerId {
    order: u64,
    id: u64,
}

#[repr(C)]
#[derive(Clone, Copy)]
struct WidgetRect {
    id: u64,
    parent_id: u64,
    layer_id: LayerId,
    rect: [f32; 4],
    interact_rect: [f32; 4],
    sense: u64,
    enabled: bool,
    visible: bool,
}

#[repr(C)]
struct Inserted {
    refusal: u64,
    count: usize,
}

#[link(name = "board", kind = "static")]
unsafe extern "C" {
    fn jaturemi_insert(
        cells: *mut u64,
        cells_len: usize,
        ids: *mut u64,
        ids_len: usize,
        words: *mut u64,
        words_len: usize,
        rects: *mut f32,
        rects_len: usize,
        count: usize,
        layer: LayerId,
        new: WidgetRect,
        move_to_top: bool,
    ) -> Inserted;

    fn jaturemi_clear(cells: *mut u64, cells_len: usize) -> usize;
}

const WIDGETS: usize = 256;

struct Tables {
    cells: [u64; 2 * WIDGETS],
    ids: [u64; WIDGETS],
    words: [u64; 10 * WIDGETS],
    rects: [f32; 16 * WIDGETS],
    count: usize,
}

impl Tables {
    fn clear(&mut self) {
        // SAFETY: the cells live through the call, which keeps within their length.
        self.count = unsafe { jaturemi_clear(self.cells.as_mut_ptr(), self.cells.len()) };
    }

    fn insert(&mut self, w: &Widget, move_to_top: bool) {
        let layer_id = LayerId {
            order: 1,
            id: w.layer,
        };
        let rect = [w.corner, w.corner, w.corner + 8.0, w.corner + 8.0];
        let new = WidgetRect {
            id: w.id,
            parent_id: 9,
            layer_id,
            rect,
            interact_rect: rect,
            sense: 4,
            enabled: true,
            visible: true,
        };
        // SAFETY: the tables live through the call, which keeps within their lengths.
        let r = unsafe {
            jaturemi_insert(
                self.cells.as_mut_ptr(),
                self.cells.len(),
                self.ids.as_mut_ptr(),
                self.ids.len(),
                self.words.as_mut_ptr(),
                self.words.len(),
                self.rects.as_mut_ptr(),
                self.rects.len(),
                self.count,
                layer_id,
                new,
                move_to_top,
            )
        };
        assert_eq!(r.refusal, 0);
        self.count = r.count;
    }
}

fn main() {
    for (count, layers) in SIZES {
        for (_, kind) in KINDS {
            let page = pages::page(count, layers);
            let mut tables = Tables {
                cells: [0; 2 * WIDGETS],
                ids: [0; WIDGETS],
                words: [0; 10 * WIDGETS],
                rects: [0.0; 16 * WIDGETS],
                count: 0,
            };
            page.iter().for_each(|w| tables.insert(w, false));
            let start = |t: &mut Tables, w: &Widget| match kind {
                Kind::New => t.clear(),
                Kind::AfterMove => t.insert(w, true),
                _ => (),
            };
            let insert = |t: &mut Tables, w: &Widget| t.insert(w, kind == Kind::ToTop);
            let time = pages::nanoseconds(kind, &page, &mut tables, start, insert);
            println!("{time:.1}");
        }
    }
}
