//! Breaks the oracle and the port in many places, and sees whether each break is found.
//!
//!     selftest oracle BREAKS OUT LISTS    each break of breaks.txt, told from the oracle by the comparer on that many lists
//!     selftest search BREAKS OUT TABLES   each break of BREAKS, told from the oracle by the search in that many tables
//!     selftest panel BREAKS OUT SESSIONS  each break of BREAKS, told from the oracle by the pass program in the sessions of that folder
//!     selftest port OUT SAMPLE STORED DRAWN UNREACHED [CRATE..]
//!                                         each must-fail edit of running code, or of these crates alone, told from the oracle by its answers to SAMPLE, or
//!                                         to the sessions of the folders STORED and DRAWN where only the pass program stands on the crate
//!
//! It prints a table and fails if a break is not found. OUT is the folder that tools/oracle has filled.
mod oracle;
mod port;
mod tried;

use std::path::Path;
use std::process::{Command, exit};
use std::{env, fs};
use tried::Port;

/// A break, and what became of it.
pub struct Row {
    pub text: String,
    pub end: End,
}

#[derive(PartialEq)]
pub enum End {
    Found,
    /// No call shows it yet, and none did.
    OutOfReach,
    Wrong,
}

fn main() {
    let args: Vec<String> = env::args().skip(1).collect();
    let words: Vec<&str> = args.iter().map(String::as_str).collect();
    let rows = match words[..] {
        ["oracle", breaks, out, lists] => {
            println!("| break | found in list | shrunk to | the last line asks |");
            println!("|---|---|---|---|");
            of_oracle(breaks, out, lists, oracle::compare)
        }
        ["search", breaks, out, tables] => {
            println!("| break | found in tables |\n|---|---|");
            of_oracle(breaks, out, tables, oracle::search)
        }
        ["panel", breaks, out, sessions] => {
            println!("| break | found in sessions | the shortest line that shows it |");
            println!("|---|---|---|");
            of_oracle(breaks, out, sessions, oracle::panel)
        }
        ["port", out, sample, ref rest @ ..] => {
            println!("| crate | edit | found in |\n|---|---|---|");
            of_port(out, sample, rest)
        }
        _ => stop("usage: see the head of oracle/selftest/main.rs"),
    };
    end(&rows)
}

fn of_oracle(breaks: &str, out: &str, count: &str, test: oracle::Test) -> Vec<Row> {
    let text = read(Path::new(breaks));
    oracle::rows(&oracle::breaks(&text), Path::new(out), count, test)
}

fn of_port(out: &str, sample: &str, rest: &[&str]) -> Vec<Row> {
    let [stored, drawn, unreached, crates @ ..] = rest else {
        stop("no sessions, or no list of what is out of reach")
    };
    let port = Port::copy(Path::new(out), Path::new(sample), &[stored, drawn]);
    let port = port.unwrap_or_else(|why| stop(&why));
    let rows = port::rows(&port, Path::new(unreached), crates);
    fs::remove_dir_all(&port.folder).ok();
    rows
}

/// Prints the rows and how many breaks are found.
fn end(rows: &[Row]) -> ! {
    rows.iter().for_each(|row| println!("{}", row.text));
    let count = |end: End| rows.iter().filter(|row| row.end == end).count();
    let (found, beyond) = (count(End::Found), count(End::OutOfReach));
    println!(
        "\n{} breaks: {found} found, {beyond} out of reach",
        rows.len()
    );
    exit(i32::from(found == 0 || found + beyond != rows.len()));
}

pub fn stop(why: &str) -> ! {
    eprintln!("selftest: {why}");
    exit(2)
}

pub fn read(path: &Path) -> String {
    fs::read_to_string(path).unwrap_or_else(|e| stop(&format!("{}: {e}", path.display())))
}

pub fn run(command: &mut Command) -> Result<(), String> {
    let done = command.output().map_err(|e| e.to_string())?;
    if done.status.success() {
        Ok(())
    } else {
        let why = String::from_utf8_lossy(&done.stderr);
        Err(why.lines().take(3).collect::<Vec<_>>().join(" "))
    }
}
