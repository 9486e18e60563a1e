//! The two programs under comparison, each run on a text, and how their answers are held against each other.
use crate::stop;
use std::collections::BTreeSet;
use std::io::{Read, Write};
use std::process::{Command, Stdio};
use std::sync::mpsc;
use std::thread;
use std::time::Duration;

pub struct Pair {
    pub oracle: Vec<String>,
    pub port: Vec<String>,
    /// The calls that the port answers `bad`, because they are not ported yet.
    pub unported: BTreeSet<String>,
}

pub struct Difference {
    pub place: usize,
    pub oracle: String,
    pub port: String,
}

impl Pair {
    /// Both programs' answers to these lines, asked at the same time. The oracle is not asked what is not ported: it gets a blank line
    /// instead, answers `bad` as the port must, and stays in step with the port's state.
    pub fn answers(&self, lines: &[String]) -> (Vec<String>, Vec<String>) {
        let ported: String = lines
            .iter()
            .map(|line| if self.is_unported(line) { "" } else { line })
            .map(|line| format!("{line}\n"))
            .collect();
        let all: String = lines.iter().map(|line| format!("{line}\n")).collect();
        thread::scope(|scope| {
            let oracle = scope.spawn(|| run(&self.oracle, &ported));
            let port = run(&self.port, &all);
            (oracle.join().expect("the oracle's thread"), port)
        })
    }

    /// The first line whose answers differ, asked of both programs.
    pub fn first_difference(&self, lines: &[String]) -> Option<Difference> {
        let (oracle, port) = self.answers(lines);
        self.difference(lines, &oracle, &port)
    }

    /// The first place at which these answers differ. An answer that is missing or one too many is a difference.
    pub fn difference(
        &self,
        lines: &[String],
        oracle: &[String],
        port: &[String],
    ) -> Option<Difference> {
        let most = lines.len().max(oracle.len()).max(port.len());
        let shown = |answers: &[String], place: usize| {
            let missing = "(no answer)".to_owned();
            answers.get(place).cloned().unwrap_or(missing)
        };
        (0..most)
            .find(|&place| {
                let (a, b) = (oracle.get(place), port.get(place));
                lines.len() <= place || a.is_none() || a != b
            })
            .map(|place| Difference {
                place,
                oracle: shown(oracle, place),
                port: shown(port, place),
            })
    }

    pub fn is_unported(&self, line: &str) -> bool {
        let name = line.split(' ').next().unwrap_or_default();
        self.unported.contains(name)
    }
}

/// A program that takes longer is stopped, which shows as a missing answer.
const LIMIT: Duration = Duration::from_secs(30);

/// What a program answers to a text, a line each. If it does not end well, one line more says so.
fn run(program: &[String], text: &str) -> Vec<String> {
    let child = Command::new(&program[0])
        .args(&program[1..])
        .stdin(Stdio::piped())
        .stdout(Stdio::piped())
        .stderr(Stdio::null())
        .spawn();
    let mut child = child.unwrap_or_else(|e| stop(&format!("{}: {e}", program[0])));
    let mut input = child.stdin.take().expect("a pipe");
    let mut output = child.stdout.take().expect("a pipe");
    let (done, finished) = mpsc::channel();
    thread::scope(|scope| {
        // A program that stops early closes its input: what it did not answer then shows as a difference.
        scope.spawn(move || drop(input.write_all(text.as_bytes())));
        scope.spawn(move || {
            let mut answers = Vec::new();
            drop(output.read_to_end(&mut answers));
            drop(done.send(answers));
        });
        let answers = finished.recv_timeout(LIMIT).unwrap_or_else(|_| {
            drop(child.kill());
            finished.recv().unwrap_or_default()
        });
        let ended = child.wait().is_ok_and(|status| status.success());
        lines_of(&answers, ended)
    })
}

/// Only byte 10 ends an answer, and it ends every answer.
fn lines_of(answers: &[u8], ended_well: bool) -> Vec<String> {
    let pieces = answers.split(|&b| b == b'\n');
    let mut lines: Vec<String> = pieces
        .map(|piece| String::from_utf8_lossy(piece).into_owned())
        .collect();
    let rest = lines.pop().unwrap_or_default();
    if !rest.is_empty() {
        lines.push(format!("(no end of line) {rest}"));
    }
    if !ended_well {
        lines.push("(the program did not end well)".to_owned());
    }
    lines
}
