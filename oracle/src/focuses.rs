//! Times egui's focus, as oracle/focus times the port's: with the map of used entries at hand, as egui's `end_pass` takes it, and made anew from a list for each end.
use crate::convert;
use crate::egui::memory::Passes;
use crate::pass::{self, Happening};
use crate::words::EventWords;

pub fn times() {
    pass::print(&["map", "list"], |size, name| {
        let fields = (0..size).map(pass::field).collect();
        let words: Vec<EventWords> = pass::events(size)
            .iter()
            .map(|e| match *e {
                Happening::Key(key, pressed, modifiers) => EventWords::Key {
                    key,
                    pressed,
                    repeat: false,
                    modifiers,
                },
                Happening::Request(id) => EventWords::Focus(id),
            })
            .collect();
        let events = words.iter().enumerate();
        let events = events.map(|(i, e)| convert::event(e, i)).collect();
        pass::times(&mut Passes::new(fields, events, name == "list"), size)
    });
}
