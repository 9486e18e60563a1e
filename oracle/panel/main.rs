//! The pass program beside egui's: both sides in one process, egui's text behind `crate::panel`, the port as a static library (crates/board_session).
//!
//!     panel compare N SEED SECONDS    N generated sessions, or as many as go into the seconds, but 2,000 of them in any case
//!     panel fuzz N SEED               N mutated sessions, stored ones (sessions/) and generated ones, with output buffers of several sizes
//!     panel file FILE                 one session
//!     panel cases N SEED FOLDER       writes N generated and N mutated sessions, each with egui's answers beside it as NAME.stdout
//!     panel time                      how long both take (bench/session)
//!     panel once SIDE NAME TIMES      one side alone on one of the timed sessions, so often, for an instruction count
//!     panel names                     the names of the timed sessions
//!     panel stack                     how deep the port's stack gets
#[path = "../compare/domain.rs"]
mod domain;
mod draw;
mod fuzz;
mod kinds;
mod limits;
mod pages;
mod port;
mod report;
mod shrink;
mod spelling;
mod stack;
mod tables;
mod tally;
mod timed;
mod times;

use crate::number;
use std::path::Path;
use std::time::{Duration, Instant};
use std::{fs, io};
use tally::Tally;

/// So many sessions are compared however long they take.
const LEAST: u64 = 2_000;

pub fn run(words: &[&str]) -> io::Result<()> {
    match *words {
        ["compare", n, seed, seconds] => {
            let until = Instant::now() + Duration::from_secs(number(seconds));
            compare(number(n), number(seed), until);
        }
        ["fuzz", n, seed] => fuzz::run(number(n), number(seed))?,
        ["file", file] => compare_file(file)?,
        ["cases", n, seed, folder] => cases(number(n), number(seed), Path::new(folder))?,
        ["time"] => times::print(),
        ["once", side, name, times] => times::once(side, name, number(times)),
        ["names"] => timed::names().iter().for_each(|name| println!("{name}")),
        ["stack"] => stack::print(),
        _ => panic!("usage: see oracle/README.md"),
    }
    Ok(())
}

fn compare(count: u64, seed: u64, until: Instant) {
    let begun = Instant::now();
    let mut tally = Tally::default();
    let mut next = 0;
    while next < count && (next < LEAST || Instant::now() < until) {
        let session = kinds::session(seed, next);
        if let Some(difference) = report::difference(&session.bytes, &[]) {
            println!("session {next} of seed {seed} ({})", session.kind);
            report::stop(&session.bytes, &difference, &[]);
        }
        tally.count(session.kind, &report::of_egui(&session.bytes));
        next += 1;
    }
    print!("{}", tally.report());
    let seconds = begun.elapsed().as_secs_f64();
    let lines = tally.lines();
    println!("{next} sessions, {lines} lines, from seed {seed} in {seconds:.1} s: no difference");
}

fn compare_file(file: &str) -> io::Result<()> {
    let session = fs::read(file)?;
    let sizes = report::sizes(&session);
    if let Some(difference) = report::difference(&session, &sizes) {
        report::stop(&session, &difference, &sizes);
    }
    let lines = report::lines(&session).len();
    println!("{file}: {lines} lines, no difference");
    Ok(())
}

/// Sessions as files, each with the answers that egui's side gives.
fn cases(count: u64, seed: u64, folder: &Path) -> io::Result<()> {
    fs::create_dir_all(folder)?;
    let stored = fuzz::stored()?;
    for i in 0..count {
        case(
            &folder.join(format!("{i:06}")),
            &kinds::session(seed, i).bytes,
        )?;
        case(
            &folder.join(format!("m{i:06}")),
            &fuzz::mutant(&stored, seed, i),
        )?;
    }
    Ok(())
}

fn case(file: &Path, session: &[u8]) -> io::Result<()> {
    fs::write(file, session)?;
    fs::write(file.with_extension("stdout"), report::of_egui(session))
}
