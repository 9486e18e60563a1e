//! The records and functions of the port's focus, in four static libraries: its core over lent tables (crate board_focus) and a loop over it (board_page), the record by value
//! (board_record), and the thin forms that borrow it (focus).

pub const CACHED: usize = 256;
pub const EVENTS: usize = 64;
pub const USED: usize = 256;

#[repr(C)]
#[derive(Clone, Copy, Default, PartialEq)]
pub struct LayerId {
    pub order: u64,
    pub id: u64,
}

#[repr(C)]
#[derive(Clone, Copy, Default)]
pub struct EventFilter {
    pub tab: bool,
    pub horizontal_arrows: bool,
    pub vertical_arrows: bool,
    pub escape: bool,
}

#[repr(C)]
#[derive(Clone, Copy)]
pub struct Nav {
    pub focused: u64,
    pub filter: EventFilter,
    pub give_to_next: bool,
    pub id_previous_frame: u64,
    pub id_two_frames_ago: u64,
    pub id_next_frame: u64,
    pub last_interested: u64,
    pub focus_direction: u64,
    pub top_modal_layer: LayerId,
    pub top_modal_layer_current_frame: LayerId,
}

#[repr(C)]
pub struct Changed {
    pub refusal: u64,
    pub nav: Nav,
}

#[repr(C)]
pub struct Interested {
    pub refusal: u64,
    pub nav: Nav,
    pub count: usize,
    pub slot: usize,
}

/// Of `ignore_focus` and `end_pass`.
#[repr(C)]
pub struct Counted {
    pub refusal: u64,
    pub nav: Nav,
    pub count: usize,
}

#[repr(C)]
#[derive(Clone, Copy)]
pub struct Focus {
    pub nav: Nav,
    pub ids: [u64; CACHED],
    pub rects: [f32; 4 * CACHED],
    pub count: usize,
    pub slot: usize,
}

#[repr(C)]
#[derive(Clone, Copy)]
pub struct Events {
    pub words: [u64; 4 * EVENTS],
    pub count: usize,
}

#[repr(C)]
#[derive(Clone, Copy)]
pub struct Used {
    pub ids: [u64; USED],
    pub corners: [f32; 4 * USED],
    pub count: usize,
}

#[repr(C)]
pub struct Done {
    pub focus: Focus,
    pub refusal: u64,
}

#[link(name = "board_focus", kind = "static")]
unsafe extern "C" {
    pub fn jaturemi_begin_pass(
        nav: Nav,
        ids: *const u64,
        ids_len: usize,
        rects: *const f32,
        rects_len: usize,
        count: usize,
        events: *const u64,
        events_len: usize,
    ) -> Changed;

    pub fn jaturemi_interested_in_focus(
        nav: Nav,
        ids: *mut u64,
        ids_len: usize,
        rects: *mut f32,
        rects_len: usize,
        count: usize,
        slot: usize,
        id: u64,
    ) -> Interested;

    pub fn jaturemi_ignore_focus(
        nav: Nav,
        ids: *mut u64,
        ids_len: usize,
        rects: *mut f32,
        rects_len: usize,
        count: usize,
        id: u64,
    ) -> Counted;

    pub fn jaturemi_end_focus_pass(
        nav: Nav,
        ids: *mut u64,
        ids_len: usize,
        rects: *mut f32,
        rects_len: usize,
        count: usize,
        used: *const u64,
        used_len: usize,
        corners: *const f32,
        corners_len: usize,
        limit: usize,
    ) -> Counted;

    pub fn jaturemi_request_focus(nav: Nav, id: u64) -> Changed;
    pub fn jaturemi_request_focus_next_frame(nav: Nav, id: u64) -> Changed;
    pub fn jaturemi_surrender_focus(nav: Nav, id: u64) -> Changed;
    pub fn jaturemi_set_focus_lock_filter(nav: Nav, id: u64, filter: EventFilter) -> Changed;
    pub fn jaturemi_move_focus(nav: Nav, direction: u64) -> Changed;
    pub fn jaturemi_set_modal_layer(nav: Nav, layer: LayerId) -> Changed;
}

#[link(name = "board_page", kind = "static")]
unsafe extern "C" {
    pub fn jaturemi_interested_in_all(
        nav: Nav,
        ids: *mut u64,
        ids_len: usize,
        rects: *mut f32,
        rects_len: usize,
        count: usize,
        slot: usize,
        page: *const u64,
        page_len: usize,
    ) -> Interested;
}

#[link(name = "board_record", kind = "static")]
unsafe extern "C" {
    pub fn jaturemi_begun(f: Focus, e: Events) -> Done;
    pub fn jaturemi_interested(f: Focus, id: u64) -> Done;
    pub fn jaturemi_ended(f: Focus, u: Used) -> Done;
}

#[link(name = "focus", kind = "static")]
unsafe extern "C" {
    pub fn focus_begin_pass(f: *mut Focus, e: Events) -> u64;
    pub fn focus_interested_in_focus(f: *mut Focus, id: u64) -> u64;
    pub fn focus_end_pass(f: *mut Focus, u: Used) -> u64;
}
