//! How long both sides take for the timed sessions, one after the other in one run.
use super::timed::{self, FORMS, LENGTHS, WHOLE};
use super::{port, report};
use crate::panel;
use std::hint::black_box;
use std::time::Instant;

/// Each side is timed so often, in turn; its best time counts.
const RUNS: usize = 9;

/// A run goes on for about so long.
const NANOSECONDS: f64 = 4e6;

pub enum Side {
    Port(Vec<u8>),
    Egui(Vec<u8>),
}

impl Side {
    pub fn new(name: &str) -> Self {
        match name {
            "port" => Self::Port(vec![0; 6 * 65_536]),
            "egui" => Self::Egui(Vec::with_capacity(6 * 65_536)),
            _ => panic!("a side is port or egui"),
        }
    }

    fn answer(&mut self, session: &[u8]) -> usize {
        match self {
            Self::Port(out) => port::run(session, out),
            Self::Egui(out) => {
                out.clear();
                panel::answers(session, out);
                out.len()
            }
        }
    }

    fn nanoseconds(&mut self, session: &[u8], turns: u64) -> f64 {
        let start = Instant::now();
        for _ in 0..turns {
            black_box(self.answer(black_box(session)));
        }
        start.elapsed().as_nanos() as f64 / turns as f64
    }
}

/// Nanoseconds a session, the port's and egui's.
fn both(session: &[u8]) -> [f64; 2] {
    let mut sides = [Side::new("port"), Side::new("egui")];
    let turns = sides
        .each_mut()
        .map(|side| (NANOSECONDS / side.nanoseconds(session, 2)).max(1.0) as u64);
    let mut best = [f64::INFINITY; 2];
    for _ in 0..RUNS {
        for (i, side) in sides.iter_mut().enumerate() {
            best[i] = best[i].min(side.nanoseconds(session, turns[i]));
        }
    }
    best
}

/// A line a session: what it belongs to, its name, its bytes and lines, and the nanoseconds of the port and of egui for all of it.
pub fn print() {
    let groups = [
        ("form", &FORMS[..]),
        ("whole", &WHOLE),
        ("length", &LENGTHS),
    ];
    for (group, name) in groups
        .iter()
        .flat_map(|(g, all)| all.iter().map(move |n| (g, n)))
    {
        let session = timed::session(name);
        if report::difference(&session, &[]).is_some() {
            eprintln!("{name}: the sides differ");
        }
        let [port, egui] = both(&session);
        let lines = report::lines(&session).len();
        println!(
            "{group}|{name}|{}|{lines}|{port:.0}|{egui:.0}",
            session.len()
        );
    }
}

pub fn once(side: &str, name: &str, times: u64) {
    let session = timed::session(name);
    let mut side = Side::new(side);
    for _ in 0..times {
        black_box(side.answer(black_box(&session)));
    }
}
