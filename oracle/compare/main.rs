//! Compares two programs that answer the replay protocol on generated lists of calls, reports the first difference and shrinks it.
//!
//!     compare lists  N SEED SECONDS ORACLE PORT DIFFERENCES
//!                                                     N lists, or as many as go into the seconds, but 20,000 of them in any case
//!     compare file   FILE ORACLE PORT DIFFERENCES     one stored list
//!     compare sample N SEED DIFFERENCES               prints the lines of N lists whose calls are ported
//!     compare boxes  N SEED ORACLE PORT DIFFERENCES   N panel programs by README.md's rule for a
//!                                                     confirm box; none may slip
//!     compare boxes  careless N SEED ORACLE PORT DIFFERENCES
//!                                                     N that break the rule; some must slip
//!
//! ORACLE and PORT may have arguments, after spaces. DIFFERENCES is docs/DIFFERENCES.md, which names the calls not ported yet.
mod boxes;
mod close_calls;
mod domain;
mod draw;
mod keys;
mod kinds;
mod limits;
mod pages;
mod programs;
mod registry;
mod rng;
mod shrink;
mod tables;
mod tally;

use kinds::List;
use programs::Pair;
use std::collections::BTreeSet;
use std::time::{Duration, Instant};
use std::{env, fs, process};
use tally::Tally;

/// Lists are sent in batches of about so many bytes: one run of a program answers many lists, each from `new` on.
const BATCH: usize = 1 << 20;

/// So many lists are compared however long they take.
const LEAST: u64 = 20_000;

fn main() {
    let args: Vec<String> = env::args().skip(1).collect();
    let words: Vec<&str> = args.iter().map(String::as_str).collect();
    match words[..] {
        ["lists", n, seed, seconds, oracle, port, known] => {
            let until = Instant::now() + Duration::from_secs(number(seconds));
            compare_lists(number(n), number(seed), until, &pair(oracle, port, known))
        }
        ["file", file, oracle, port, known] => compare_file(file, &pair(oracle, port, known)),
        ["boxes", "careless", n, seed, oracle, port, known] => {
            boxes::careless(number(n), number(seed), &pair(oracle, port, known))
        }
        ["boxes", n, seed, oracle, port, known] => {
            boxes::by_the_rule(number(n), number(seed), &pair(oracle, port, known))
        }
        ["sample", n, seed, known] => sample(number(n), number(seed), &pair("", "", known)),
        _ => stop("usage: see oracle/README.md"),
    }
}

pub fn stop(why: &str) -> ! {
    eprintln!("compare: {why}");
    process::exit(2)
}

fn number(word: &str) -> u64 {
    word.parse()
        .unwrap_or_else(|_| stop(&format!("'{word}' is no number")))
}

fn pair(oracle: &str, port: &str, known: &str) -> Pair {
    let words = |program: &str| program.split(' ').map(str::to_owned).collect();
    Pair {
        oracle: words(oracle),
        port: words(port),
        unported: unported(&read(known)),
    }
}

fn read(file: &str) -> String {
    fs::read_to_string(file).unwrap_or_else(|e| stop(&format!("{file}: {e}")))
}

/// The words of the block after the heading 'Not ported yet', or none without such a heading.
fn unported(text: &str) -> BTreeSet<String> {
    let after = text.split("## Not ported yet").nth(1).unwrap_or_default();
    let block = after.split("```").nth(1).unwrap_or_default();
    block.split_whitespace().map(str::to_owned).collect()
}

fn compare_lists(count: u64, seed: u64, until: Instant, pair: &Pair) {
    if count == 0 {
        stop("no list to compare");
    }
    let mut tally = Tally::default();
    let mut next = 0;
    while next < count && (next < LEAST || Instant::now() < until) {
        let lists = (next..count).map(|number| kinds::list(seed, number));
        let batch = batch(lists, |list| &list.lines);
        compare_batch(seed, &batch, pair, &mut tally);
        next += batch.len() as u64;
    }
    print!("{}", tally.report());
    println!("{next} lists from seed {seed}: no difference");
}

/// What is drawn, from the first on, as far as its lines make up a batch.
fn batch<T>(drawn: impl Iterator<Item = T>, lines: fn(&T) -> &[String]) -> Vec<T> {
    let mut size = 0;
    drawn
        .take_while(|one| {
            let room = size < BATCH;
            size += lines(one).iter().map(String::len).sum::<usize>();
            room
        })
        .collect()
}

fn compare_batch(seed: u64, batch: &[List], pair: &Pair, tally: &mut Tally) {
    let lines: Vec<String> = batch.iter().flat_map(|list| list.lines.clone()).collect();
    let (oracle, port) = pair.answers(&lines);
    if let Some(difference) = pair.difference(&lines, &oracle, &port) {
        let list = list_at(batch, difference.place);
        println!("list {} of seed {seed} ({})", list.number, list.kind);
        report(&list.lines, pair);
    }
    let kinds = batch
        .iter()
        .flat_map(|list| list.lines.iter().map(|_| list.kind));
    for ((kind, line), answer) in kinds.zip(&lines).zip(&oracle) {
        tally.count(kind, answer, pair.is_unported(line));
    }
}

/// The list that the line at this place belongs to, the last one for a place after all lines.
fn list_at(batch: &[List], place: usize) -> &List {
    let mut before = 0;
    let found = batch.iter().find(|list| {
        before += list.lines.len();
        place < before
    });
    found.or(batch.last()).expect("a batch has a list")
}

fn compare_file(file: &str, pair: &Pair) {
    let text = read(file);
    let Some(text) = text.strip_suffix('\n') else {
        stop(&format!("{file}: no line, or a last one without its end"));
    };
    let lines: Vec<String> = text.split('\n').map(str::to_owned).collect();
    match pair.first_difference(&lines) {
        Some(_) => report(&lines, pair),
        None => println!("{file}: {} lines, no difference", lines.len()),
    }
}

/// Prints the first difference and the shrunk list with both programs' answers, and stops.
fn report(lines: &[String], pair: &Pair) -> ! {
    let Some(first) = pair.first_difference(lines) else {
        println!(
            "differs only together with the lists before it: something outlives 'new', or a program does not end well"
        );
        process::exit(1);
    };
    let line = lines.get(first.place);
    let line = line.map_or("(after the last line)", |line| line);
    println!("first difference, line {}: {line}", first.place + 1);
    println!("  oracle {}\n  port   {}", first.oracle, first.port);
    let least = shrink::shrink(pair, lines.to_vec());
    let (oracle, port) = pair.answers(&least);
    println!("shrunk to {} lines:", least.len());
    show(&least, &oracle, &port);
    process::exit(1)
}

/// Prints lines with both programs' answers.
fn show(lines: &[String], oracle: &[String], port: &[String]) {
    let after = "(after the last line)".to_owned();
    let most = lines.len().max(oracle.len()).max(port.len());
    for place in 0..most {
        let [line, a, b] = [lines, oracle, port].map(|all| all.get(place).unwrap_or(&after));
        println!("  {line}\n    oracle {a}\n    port   {b}");
    }
}

fn sample(count: u64, seed: u64, pair: &Pair) {
    let lines = (0..count).flat_map(|number| kinds::list(seed, number).lines);
    for line in lines.filter(|line| !pair.is_unported(line)) {
        println!("{line}");
    }
}
