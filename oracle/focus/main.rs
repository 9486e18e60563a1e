//! Answers the calls of ../shared/REPLAY.md that ask only the focus, from the port, in any of its three forms; every other call is `bad` (calls.md).
//!
//!     focus core | record | thin     answers standard input
//!     focus times                    how long begin, interest and end take
//!
//! What `Memory` does around its focus where there are no areas, popups or widgets is written here: a layer has no place, so two of one Order are equal.
#![allow(dead_code)]
#[path = "../src/emath.rs"]
mod emath;
mod foreign;
mod pass;
mod port;
mod times;
#[path = "../src/words.rs"]
mod words;

use port::{EventFilter, Focus, Form, LayerId};
use std::io::{BufRead, BufWriter, Write};
use words::{EventWords, Words};

#[derive(Default)]
struct Memory {
    focus: Focus,
    interrupt_ime: bool,
}

/// A refusal, 0 for none, or an answer in words; nothing where the line does not fit.
enum Answer {
    Done(u64),
    Words(String),
}

fn main() -> std::io::Result<()> {
    let args: Vec<String> = std::env::args().skip(1).collect();
    let form = match args.first().map(String::as_str) {
        Some("core") => Form::Core,
        Some("record") => Form::Record,
        Some("thin") => Form::Thin,
        Some("times") => {
            times::times();
            return Ok(());
        }
        _ => panic!("usage: focus core | record | thin | times"),
    };
    let mut memory = Memory::default();
    let mut out = BufWriter::new(std::io::stdout().lock());
    for line in std::io::stdin().lock().split(b'\n') {
        let answer = match memory.call(form, &line?) {
            None => "bad".to_owned(),
            Some(Answer::Done(0)) => "ok".to_owned(),
            Some(Answer::Done(refusal)) => format!("no {refusal}"),
            Some(Answer::Words(words)) => words,
        };
        writeln!(out, "{answer}")?;
    }
    out.flush()
}

/// The numbers of an event, as crate focus_pass has them.
fn event(e: &EventWords) -> [u64; 4] {
    match *e {
        EventWords::Key {
            key,
            pressed,
            repeat,
            modifiers,
        } => [1, key, u64::from(pressed) + 2 * u64::from(repeat), modifiers],
        EventWords::Focus(id) => [2, id, 0, 0],
        EventWords::Pointer(_) => [3, 0, 0, 0],
        EventWords::Zoom(_) => [4, 0, 0, 0],
        EventWords::Other => [0, 0, 0, 0],
    }
}

fn some_id(id: u64) -> String {
    if id == 0 { "none".to_owned() } else { id.to_string() }
}

fn some_layer(layer: LayerId) -> String {
    if layer.id == 0 {
        "none".to_owned()
    } else {
        format!("{} {}", layer.order, layer.id)
    }
}

impl Memory {
    fn call(&mut self, form: Form, line: &[u8]) -> Option<Answer> {
        let mut w = Words::of(line);
        let name = w.word().unwrap_or_default();
        match name {
            b"begin" => self.begin(form, &mut w),
            b"interest" => self.interest(form, &mut w),
            b"end" => self.end(form, &mut w),
            b"set_focus_lock_filter" => self.set_filter(&mut w),
            b"set_modal_layer" => self.set_modal_layer(&mut w),
            b"new" | b"focused" | b"focus_direction" | b"top_modal_layer" | b"state" => {
                w.end()?;
                Some(self.of_nothing(name))
            }
            _ => self.of_number(name, &mut w),
        }
    }

    fn of_nothing(&mut self, name: &[u8]) -> Answer {
        let nav = &self.focus.nav;
        Answer::Words(match name {
            b"focused" => some_id(nav.focused),
            b"focus_direction" => nav.focus_direction.to_string(),
            b"top_modal_layer" => some_layer(nav.top_modal_layer),
            b"state" => self.state(),
            _ => {
                *self = Self::default();
                "ok".to_owned()
            }
        })
    }

    fn of_number(&mut self, name: &[u8], w: &mut Words) -> Option<Answer> {
        let act: fn(&mut Memory, u64) -> Answer = match name {
            b"request_focus" => |m, id| m.interrupting(|f| f.request(id)),
            b"request_focus_next_frame" => |m, id| m.interrupting(|f| f.request_next(id)),
            b"surrender_focus" => |m, id| Answer::Done(m.focus.surrender(id)),
            b"ignore_focus" => |m, id| Answer::Done(m.focus.ignore(id)),
            b"move_focus" => |m, d| Answer::Done(m.focus.move_to(d)),
            b"had_focus_last_frame" => |m, id| match id {
                0 => Answer::Done(1),
                _ => Answer::Words(u64::from(m.focus.nav.id_previous_frame == id).to_string()),
            },
            _ => return None,
        };
        let number = w.number()?;
        w.end()?;
        Some(act(self, number))
    }

    fn interrupting(&mut self, call: impl FnOnce(&mut Focus) -> u64) -> Answer {
        let refusal = call(&mut self.focus);
        self.interrupt_ime |= refusal == 0;
        Answer::Done(refusal)
    }

    fn begin(&mut self, form: Form, w: &mut Words) -> Option<Answer> {
        let events: Vec<EventWords> = w.list(Words::event)?;
        let words: Vec<u64> = events.iter().flat_map(event).collect();
        let refusal = self.focus.begin(form, &words);
        if refusal == 0 {
            self.interrupt_ime = false;
        }
        Some(Answer::Done(refusal))
    }

    fn interest(&mut self, form: Form, w: &mut Words) -> Option<Answer> {
        let id = w.number()?;
        let (order, layer) = w.layer()?;
        w.end()?;
        if id == 0 || layer == 0 {
            return Some(Answer::Done(1));
        }
        if 4 < order {
            return Some(Answer::Done(2));
        }
        let modal = self.focus.nav.top_modal_layer;
        if modal.id != 0 && order < modal.order {
            return Some(Answer::Done(0));
        }
        Some(Answer::Done(self.focus.interest(form, id)))
    }

    fn end(&mut self, form: Form, w: &mut Words) -> Option<Answer> {
        let used = w.list(|w| Some((w.number()?, w.rect()?)))?;
        let ids: Vec<u64> = used.iter().map(|&(id, _)| id).collect();
        let corners: Vec<f32> = used
            .iter()
            .flat_map(|(_, r)| [r.min.x, r.min.y, r.max.x, r.max.y])
            .collect();
        Some(Answer::Done(self.focus.end(form, &ids, &corners)))
    }

    fn set_filter(&mut self, w: &mut Words) -> Option<Answer> {
        let id = w.number()?;
        let filter = EventFilter {
            tab: w.flag()?,
            horizontal_arrows: w.flag()?,
            vertical_arrows: w.flag()?,
            escape: w.flag()?,
        };
        w.end()?;
        Some(Answer::Done(self.focus.set_filter(id, filter)))
    }

    fn set_modal_layer(&mut self, w: &mut Words) -> Option<Answer> {
        let (order, id) = w.layer()?;
        w.end()?;
        let current = self.focus.nav.top_modal_layer_current_frame;
        if id != 0 && order <= 4 && current.id != 0 && order < current.order {
            return Some(Answer::Done(0));
        }
        Some(Answer::Done(self.focus.set_modal(LayerId { order, id })))
    }

    fn state(&self) -> String {
        let nav = &self.focus.nav;
        let filter = nav.filter;
        let flags = [
            filter.tab,
            filter.horizontal_arrows,
            filter.vertical_arrows,
            filter.escape,
        ];
        let mut focused = some_id(nav.focused);
        if nav.focused != 0 {
            for flag in flags {
                focused += &format!(" {}", u64::from(flag));
            }
        }
        let mut cache: Vec<(u64, &[f32])> = self.focus.ids[..self.focus.count]
            .iter()
            .copied()
            .zip(self.focus.rects.chunks(4))
            .collect();
        cache.sort_by_key(|&(id, _)| id);
        let mut entries = String::new();
        for (id, rect) in &cache {
            entries += &format!(" {id}");
            for x in rect.iter() {
                entries += &format!(" {}", x.to_bits());
            }
        }
        format!(
            "focus {focused} {} {} {} {} {} {} {} {} cache {}{entries} stack 0 areas 0 popup none flags {} 0 registry 0 lists 0",
            some_id(nav.id_previous_frame),
            some_id(nav.id_two_frames_ago),
            some_id(nav.id_next_frame),
            u64::from(nav.give_to_next),
            some_id(nav.last_interested),
            nav.focus_direction,
            some_layer(nav.top_modal_layer),
            some_layer(nav.top_modal_layer_current_frame),
            cache.len(),
            u64::from(self.interrupt_ime),
        )
    }
}
