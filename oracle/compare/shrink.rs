//! Makes a list on which two programs differ as short as it goes: whole lines first, then entries of lists, then numbers.
use crate::programs::Pair;
use std::time::{Duration, Instant};

/// However slow the programs are, what is left after so long is shown.
const LIMIT: Duration = Duration::from_secs(60);

/// The pair, and until when it may be asked.
struct Judge<'a> {
    pair: &'a Pair,
    until: Instant,
}

impl Judge<'_> {
    /// Whether the programs still differ. Past the limit no shorter list is taken.
    fn differs(&self, lines: &[String]) -> bool {
        Instant::now() < self.until && self.pair.first_difference(lines).is_some()
    }
}

pub fn shrink(pair: &Pair, mut lines: Vec<String>) -> Vec<String> {
    let judge = Judge {
        pair,
        until: Instant::now() + LIMIT,
    };
    loop {
        let before = lines.clone();
        cut_after_difference(&judge, &mut lines);
        drop_lines(&judge, &mut lines);
        drop_entries(&judge, &mut lines);
        plain_numbers(&judge, &mut lines);
        if lines == before {
            return lines;
        }
    }
}

fn cut_after_difference(judge: &Judge, lines: &mut Vec<String>) {
    if let Some(difference) = judge.pair.first_difference(lines) {
        lines.truncate(difference.place + 1);
    }
}

/// Drops runs of lines, long runs first.
fn drop_lines(judge: &Judge, lines: &mut Vec<String>) {
    let mut length = lines.len().div_ceil(2);
    while 0 < length {
        drop_runs(judge, lines, length);
        length /= 2;
    }
}

fn drop_runs(judge: &Judge, lines: &mut Vec<String>, length: usize) {
    let mut end = lines.len();
    while 0 < end {
        let start = end.saturating_sub(length);
        let mut fewer = lines.clone();
        fewer.drain(start..end);
        if judge.differs(&fewer) {
            *lines = fewer;
        }
        end = start;
    }
}

/// The entries of this line's list, each as its words.
fn entry_words(line: &str) -> Option<Vec<Vec<String>>> {
    let words: Vec<String> = line.split(' ').map(str::to_owned).collect();
    let mut rest = words.get(2..)?;
    let mut entries = Vec::new();
    while let Some(first) = rest.first() {
        let length = match (words[0].as_str(), first.as_str()) {
            ("end", _) => 5,
            ("begin", "k") => 5,
            ("begin", "p") => 3,
            ("begin", "a" | "z") => 2,
            ("begin", "o") => 1,
            _ => return None,
        };
        entries.push(rest.get(..length)?.to_vec());
        rest = &rest[length..];
    }
    Some(entries)
}

fn drop_entries(judge: &Judge, lines: &mut Vec<String>) {
    for place in 0..lines.len() {
        let name = lines[place]
            .split(' ')
            .next()
            .unwrap_or_default()
            .to_owned();
        if let Some(entries) = entry_words(&lines[place]) {
            drop_entries_of(judge, lines, place, &name, entries);
        }
    }
}

fn drop_entries_of(
    judge: &Judge,
    lines: &mut Vec<String>,
    place: usize,
    name: &str,
    mut entries: Vec<Vec<String>>,
) {
    let mut i = entries.len();
    while 0 < i {
        i -= 1;
        let mut fewer = entries.clone();
        fewer.remove(i);
        let mut with = lines.clone();
        let mut words = vec![name.to_owned(), fewer.len().to_string()];
        words.extend(fewer.concat());
        with[place] = words.join(" ");
        if judge.differs(&with) {
            *lines = with;
            entries = fewer;
        }
    }
}

/// Makes numbers 0 or 1 where the difference stays.
fn plain_numbers(judge: &Judge, lines: &mut Vec<String>) {
    for place in 0..lines.len() {
        plain_line(judge, lines, place);
    }
}

/// The first words of a line: the others are entries of a long list.
fn plain_line(judge: &Judge, lines: &mut Vec<String>, place: usize) {
    let count = lines[place].split(' ').count();
    for word in 1..count.min(40) {
        plain_number(judge, lines, place, word);
    }
}

fn plain_number(judge: &Judge, lines: &mut Vec<String>, place: usize, word: usize) {
    for plain in ["0", "1"] {
        let mut words: Vec<&str> = lines[place].split(' ').collect();
        if words[word] == "0" || words[word] == plain {
            return;
        }
        words[word] = plain;
        let mut with = lines.clone();
        with[place] = words.join(" ");
        if judge.differs(&with) {
            *lines = with;
            return;
        }
    }
}
