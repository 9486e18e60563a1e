//! Answers the replay protocol (../shared/REPLAY.md) from egui's own text.
//!
//!     oracle             answers standard input
//!     oracle falling     the same, with egui's maps walked from the largest id down: where that changes an answer, egui leaves it open
//!     oracle panel       answers standard input as the pass program does
//!     oracle hypot N     asks of N differences whether hypot gives the f32 nearest the root
//!     oracle searches N SEED    what egui's directional search finds in N tables (oracle/search has the port's side)
//!     oracle times       how long it takes
//!     oracle inserts     how long an insert into egui's registry takes (oracle/registry has the port's side)
//!     oracle passes      how long the calls of egui's stack take (oracle/stack has the port's side)
//!     oracle focuses     how long the calls of egui's focus take (oracle/focus has the port's side)
#![allow(dead_code, unexpected_cfgs, unused_imports)]
extern crate alloc;

mod answers;
/// The pass program of both sides, in the builds of tools/panel.
#[cfg(beside)]
#[path = "../panel/main.rs"]
mod beside;
#[path = "../search/clock.rs"]
mod clock;
mod convert;
mod egui;
mod emath;
mod focuses;
mod hypot;
mod inserts;
mod line;
#[path = "../registry/pages.rs"]
mod pages;
mod panel;
mod panel_forms;
#[path = "../focus/pass.rs"]
mod pass;
#[path = "../stack/passes.rs"]
mod passes;
mod refusals;
#[path = "../compare/rng.rs"]
mod rng;
mod searches;
mod simple;
mod stacks;
mod stand_ins;
#[path = "../search/tables.rs"]
mod tables;
mod words;

// The names by which egui's text reaches its own items.
use egui::{area, memory, widget_rect};
use egui::{
    area::AreaState, event::Event, event_filter::EventFilter, key::Key, layers::LayerId,
    layers::Order, memory::Memory, modifiers::Modifiers, sense::Sense,
};
use stand_ins::{Id, MINUS_CHAR_STR, cache, util};

mod data {
    pub mod input {
        pub use crate::stand_ins::RawInput;
    }
}

use std::io::{BufRead, BufWriter, Write};
use std::sync::atomic::Ordering;

fn main() -> std::io::Result<()> {
    let args: Vec<String> = std::env::args().skip(1).collect();
    let words: Vec<&str> = args.iter().map(String::as_str).collect();
    #[cfg(beside)]
    return beside::run(&words);
    #[cfg(not(beside))]
    run(&words)
}

fn run(words: &[&str]) -> std::io::Result<()> {
    match *words {
        [] => answer_all(),
        ["falling"] => {
            stand_ins::FALLING.store(true, Ordering::Relaxed);
            answer_all()
        }
        ["panel"] => panel::answer_all(),
        ["hypot", count] => ask_hypot(number(count)),
        ["searches", count, seed] => searches::answers(number(count), number(seed)),
        ["times"] => {
            searches::times();
            Ok(())
        }
        ["inserts"] => {
            inserts::times();
            Ok(())
        }
        ["passes"] => {
            stacks::times();
            Ok(())
        }
        ["focuses"] => {
            focuses::times();
            Ok(())
        }
        _ => panic!("usage: oracle [falling | panel | hypot N | searches N SEED | times | inserts | passes | focuses]"),
    }
}

fn number(word: &str) -> u64 {
    word.parse().expect("a number")
}

fn answer_all() -> std::io::Result<()> {
    let mut state = answers::State::default();
    let mut out = BufWriter::new(std::io::stdout().lock());
    for line in std::io::stdin().lock().split(b'\n') {
        writeln!(out, "{}", answers::answer(&mut state, &line?))?;
    }
    out.flush()
}

fn ask_hypot(count: u64) -> std::io::Result<()> {
    if let Some((x, y)) = hypot::first_other(count) {
        println!("hypot({x}, {y}) is not the f32 nearest the root");
        std::process::exit(1);
    }
    println!("{count} differences on the grid: hypot is the f32 nearest the root");
    Ok(())
}
