//! Panel programs with a confirm box, drawn at random: README.md's rule for such a box is held to
//! the answers of both programs.
mod free;
mod judge;
mod panel;
mod passes;
mod program;

use crate::programs::Pair;
use crate::{batch, report, show, stop};
use judge::Why;
use program::{Careless, Program, program};
use std::process;
use std::time::{Duration, Instant};

/// However slow the programs are, what is left after so long is shown.
const LIMIT: Duration = Duration::from_secs(60);

/// What became of the programs drawn.
#[derive(Default)]
struct Tally {
    calls: u64,
    hits: u64,
    kept: u64,
    refused: u64,
    turned_away: u64,
    refused_ends: Slips,
    begins_within: Slips,
}

/// Careless programs, and how many of them slipped.
#[derive(Default)]
struct Slips {
    drawn: u64,
    slipped: u64,
}

/// Programs by the rule, of which none may slip.
pub fn by_the_rule(count: u64, seed: u64, pair: &Pair) {
    let tally = run(count, seed, false, pair);
    println!(
        "{} panel programs by the rule from seed {seed}, {} calls, {} hits: no slip",
        tally.kept, tally.calls, tally.hits
    );
    println!(
        "{} more are none: of {} a call of the opening was refused, of {} the box was turned away",
        tally.refused + tally.turned_away,
        tally.refused,
        tally.turned_away
    );
    if tally.kept < count * 9 / 10 {
        stop("too few of the programs drawn are by the rule");
    }
}

/// Careless programs, of which some must slip: a run that found none by the rule then says
/// something.
pub fn careless(count: u64, seed: u64, pair: &Pair) {
    let tally = run(count, seed, true, pair);
    let (ends, begins) = (tally.refused_ends, tally.begins_within);
    println!(
        "{count} careless panel programs from seed {seed}, {} calls: {} slipped",
        tally.calls,
        ends.slipped + begins.slipped
    );
    println!(
        "{} of {} that take a refused end for a taken one, {} of {} that begin within the opening",
        ends.slipped, ends.drawn, begins.slipped, begins.drawn
    );
    if ends.slipped == 0 || begins.slipped == 0 {
        stop("of one of the two kinds none slipped: the judge sleeps");
    }
}

fn run(count: u64, seed: u64, careless: bool, pair: &Pair) -> Tally {
    if count == 0 {
        stop("no program to judge");
    }
    let mut tally = Tally::default();
    let mut next = 0;
    while next < count {
        let programs = (next..count).map(|number| program(seed, number, careless));
        let batch = batch(programs, |program| &program.lines);
        next += batch.len() as u64;
        judge_batch(seed, &batch, pair, &mut tally);
    }
    tally
}

fn judge_batch(seed: u64, batch: &[Program], pair: &Pair, tally: &mut Tally) {
    let lines: Vec<String> = batch.iter().flat_map(|p| p.lines.clone()).collect();
    let (oracle, port) = pair.answers(&lines);
    let different = pair.difference(&lines, &oracle, &port);
    let mut from = 0;
    for program in batch {
        let to = from + program.lines.len();
        let [a, b] = [&oracle, &port].map(|all| all.get(from..to).unwrap_or_default());
        if slips(program, a) || slips(program, b) {
            println!(
                "program {} of seed {seed} keeps to the rule and slips",
                program.number
            );
            show_slip(program, pair);
        }
        if different.as_ref().is_some_and(|d| d.place < to) {
            println!("program {} of seed {seed}", program.number);
            report(&program.lines, pair);
        }
        count(program, a, tally);
        from = to;
    }
    if different.is_some() {
        report(&lines, pair);
    }
}

/// Whether something comes under the box of a program that has kept to the rule up to there.
fn slips(program: &Program, answers: &[String]) -> bool {
    let breach = judge::breach(program, answers);
    let kept = breach.map_or(program.lines.len(), |breach| breach.place);
    let slip = judge::seen(program, answers).slip;
    slip.is_some_and(|place| place < kept)
}

fn count(program: &Program, answers: &[String], tally: &mut Tally) {
    let seen = judge::seen(program, answers);
    tally.calls += program.lines.len() as u64;
    if let Some(careless) = program.careless {
        let slips = match careless {
            Careless::RefusedEnd => &mut tally.refused_ends,
            Careless::BeginWithin => &mut tally.begins_within,
        };
        slips.drawn += 1;
        slips.slipped += u64::from(seen.slip.is_some());
        return;
    }
    match judge::breach(program, answers) {
        None => {
            tally.kept += 1;
            tally.hits += seen.hits;
        }
        Some(breach) => match breach.why {
            Why::Refused => tally.refused += 1,
            Why::TurnedAway => tally.turned_away += 1,
            Why::Broken(why) => {
                program.lines[..=breach.place]
                    .iter()
                    .for_each(|line| println!("{line}"));
                stop(&format!(
                    "a program drawn by the rule breaks it in this line: {why}"
                ));
            }
        },
    }
}

/// Prints the program with as few lines as it goes, with both programs' answers, and stops.
fn show_slip(program: &Program, pair: &Pair) -> ! {
    let until = Instant::now() + LIMIT;
    let wrong = |fewer: &Program| {
        let (oracle, port) = pair.answers(&fewer.lines);
        Instant::now() < until && (slips(fewer, &oracle) || slips(fewer, &port))
    };
    let mut least = program.clone();
    let mut length = least.lines.len().div_ceil(2);
    while 0 < length {
        let mut end = least.lines.len();
        while 0 < end {
            let start = end.saturating_sub(length);
            let fewer = least.without(start..end);
            if wrong(&fewer) {
                least = fewer;
            }
            end = start;
        }
        length /= 2;
    }
    let (oracle, port) = pair.answers(&least.lines);
    let layer = least.layer;
    println!(
        "the box: layer {} {}, fields {:?}",
        layer.0, layer.1, least.fields
    );
    println!("shrunk to {} lines:", least.lines.len());
    show(&least.lines, &oracle, &port);
    process::exit(1)
}
