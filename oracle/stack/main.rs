//! Times the port's stack (crates/board, a static library) as `oracle passes` times egui's: a line for each kind of call and size.
mod passes;

use passes::{Area, SIZE, SIZES, Stack};

#[repr(C)]
#[derive(Clone, Copy)]
struct LayerId {
    order: u64,
    id: u64,
}

#[repr(C)]
struct Changed {
    refusal: u64,
    count: usize,
    states: usize,
}

#[repr(C)]
struct Stacked {
    refusal: u64,
    count: usize,
}

#[link(name = "board", kind = "static")]
unsafe extern "C" {
    fn jaturemi_set_state(
        rows: *mut u64,
        rows_len: usize,
        ids: *mut u64,
        ids_len: usize,
        codes: *mut u64,
        codes_len: usize,
        floats: *mut f32,
        floats_len: usize,
        count: usize,
        states: usize,
        layer: LayerId,
        x: f32,
        y: f32,
        width: f32,
        height: f32,
        interactable: bool,
    ) -> Changed;

    fn jaturemi_move_to_top(
        rows: *mut u64,
        rows_len: usize,
        count: usize,
        layer: LayerId,
    ) -> Stacked;

    fn jaturemi_set_sublayer(
        rows: *mut u64,
        rows_len: usize,
        count: usize,
        parent: LayerId,
        child: LayerId,
    ) -> Stacked;

    fn jaturemi_end_pass(rows: *mut u64, rows_len: usize, count: usize) -> usize;

    fn jaturemi_layer_id_at(
        rows: *const u64,
        rows_len: usize,
        ids: *const u64,
        ids_len: usize,
        codes: *const u64,
        codes_len: usize,
        floats: *const f32,
        floats_len: usize,
        count: usize,
        states: usize,
        x: f32,
        y: f32,
    ) -> LayerId;
}

const LAYERS: usize = 64;

struct Tables {
    count: usize,
    states: usize,
    rows: [u64; 8 * LAYERS],
    ids: [u64; LAYERS],
    codes: [u64; 5 * LAYERS],
    floats: [f32; 4 * LAYERS],
}

fn layer(area: &Area) -> LayerId {
    LayerId {
        order: 1,
        id: area.id,
    }
}

// SAFETY of all calls: the tables live through the call, which keeps within their lengths.
impl Stack for Tables {
    fn set_state(&mut self, area: &Area) {
        let r = unsafe {
            jaturemi_set_state(
                self.rows.as_mut_ptr(),
                self.rows.len(),
                self.ids.as_mut_ptr(),
                self.ids.len(),
                self.codes.as_mut_ptr(),
                self.codes.len(),
                self.floats.as_mut_ptr(),
                self.floats.len(),
                self.count,
                self.states,
                layer(area),
                area.x,
                0.0,
                SIZE,
                SIZE,
                true,
            )
        };
        assert_eq!(r.refusal, 0);
        self.count = r.count;
        self.states = r.states;
    }

    fn move_to_top(&mut self, area: &Area) {
        let r = unsafe {
            jaturemi_move_to_top(
                self.rows.as_mut_ptr(),
                self.rows.len(),
                self.count,
                layer(area),
            )
        };
        assert_eq!(r.refusal, 0);
        self.count = r.count;
    }

    fn set_sublayer(&mut self, parent: &Area, child: &Area) {
        let r = unsafe {
            jaturemi_set_sublayer(
                self.rows.as_mut_ptr(),
                self.rows.len(),
                self.count,
                layer(parent),
                layer(child),
            )
        };
        assert_eq!(r.refusal, 0);
        self.count = r.count;
    }

    fn end_pass(&mut self) {
        self.count =
            unsafe { jaturemi_end_pass(self.rows.as_mut_ptr(), self.rows.len(), self.count) };
    }

    fn layer_id_at(&mut self, x: f32, y: f32) -> u64 {
        let l = unsafe {
            jaturemi_layer_id_at(
                self.rows.as_ptr(),
                self.rows.len(),
                self.ids.as_ptr(),
                self.ids.len(),
                self.codes.as_ptr(),
                self.codes.len(),
                self.floats.as_ptr(),
                self.floats.len(),
                self.count,
                self.states,
                x,
                y,
            )
        };
        l.id
    }
}

fn main() {
    for count in SIZES {
        let new = || Tables {
            count: 0,
            states: 0,
            rows: [0; 8 * LAYERS],
            ids: [0; LAYERS],
            codes: [0; 5 * LAYERS],
            floats: [0.0; 4 * LAYERS],
        };
        for (_, time) in passes::times(count, new) {
            println!("{time:.1}");
        }
    }
}
