//! How long egui's `Areas` takes, on the stacks on which the port's is timed too (oracle/stack).
use crate::emath::{Vec2, pos2};
use crate::memory::Areas;
use crate::passes::{self, Area, SIZE, SIZES, Stack};
use crate::{AreaState, LayerId, Order, convert};

fn layer(area: &Area) -> LayerId {
    LayerId::new(Order::Middle, convert::id(area.id))
}

impl Stack for Areas {
    fn set_state(&mut self, area: &Area) {
        let state = AreaState {
            pivot_pos: Some(pos2(area.x, 0.0)),
            size: Some(Vec2 { x: SIZE, y: SIZE }),
            ..AreaState::default()
        };
        Areas::set_state(self, layer(area), state);
    }

    fn move_to_top(&mut self, area: &Area) {
        Areas::move_to_top(self, layer(area));
    }

    fn set_sublayer(&mut self, parent: &Area, child: &Area) {
        Areas::set_sublayer(self, layer(parent), layer(child));
    }

    fn end_pass(&mut self) {
        Areas::end_pass(self);
    }

    fn layer_id_at(&mut self, x: f32, y: f32) -> u64 {
        let found = Areas::layer_id_at(self, pos2(x, y), &Default::default());
        found.map_or(0, |l| l.id.value())
    }
}

pub fn times() {
    for count in SIZES {
        for (name, time) in passes::times(count, Areas::default) {
            println!("{name} | {count} {time:.1}");
        }
    }
}
