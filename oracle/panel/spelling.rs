//! Lines with one thing wrong: a word, a space, a bracket, a letter.
use super::domain::respell;
use super::draw::Draw;

pub fn misspelt(d: &mut Draw) -> Vec<String> {
    let count = 5 + d.rng.below(50);
    (0..count)
        .map(|_| {
            // Coordinates have spellings of their own.
            let form = if d.rng.percent(50) {
                let name = d.rng.pick(&["area", "hit", "end"]);
                d.form(name)
            } else {
                d.any_form()
            };
            if d.rng.percent(75) {
                spoilt(d, &form)
            } else {
                form
            }
        })
        .collect()
}

/// Words that are none, or that only some places take.
const ODD: [&str; 27] = [
    "",
    "0",
    "00",
    "01",
    "+1",
    "-0",
    "-1",
    "--1",
    "-",
    "-01",
    "1.0",
    "2",
    "1e3",
    "x",
    "0x1",
    ":",
    "/",
    "(",
    ")",
    "()",
    "(1)",
    "18446744073709551615",
    "18446744073709551616",
    "-18446744073709551616",
    "99999999999999999999",
    "100000000000000000000000000000000000000000",
    "\u{e9}",
];

/// Characters put in or in place of another.
const CHARACTERS: [char; 16] = [
    ' ', '(', ')', '-', '0', '1', '9', 'a', 'B', '\t', '\r', '\0', '+', '.', '\u{7f}', '\u{e9}',
];

const LINES: [&str; 12] = [
    "",
    " ",
    "()",
    "(",
    ")",
    "(begin",
    "begin)",
    "begin",
    "(end ())",
    "(ask 1)",
    "(key 5 1 0)",
    "(new)",
];

/// A line with one thing wrong, or rarely still right.
fn spoilt(d: &mut Draw, form: &str) -> String {
    match d.rng.below(10) {
        0 => d.rng.pick(&LINES).to_owned(),
        1..6 => other_words(d, form),
        _ => other_characters(d, form),
    }
}

fn other_words(d: &mut Draw, form: &str) -> String {
    let mut words: Vec<String> = form.split(' ').map(str::to_owned).collect();
    let place = d.rng.below(words.len());
    let word = d.rng.pick(&ODD).to_owned();
    let how = d.rng.below(9);
    if how == 6 {
        return format!("{form}{}{form}", d.rng.pick(&["", " ", "\r"]));
    }
    if !respell(&mut words, place, &word, how) {
        words[place] = brackets_kept(&words[place], &word);
    }
    words.join(" ")
}

/// Another word with the brackets that stood around the first.
fn brackets_kept(word: &str, other: &str) -> String {
    let inner = word.trim_matches(['(', ')']);
    if inner.is_empty() {
        return other.to_owned();
    }
    word.replacen(inner, other, 1)
}

fn other_characters(d: &mut Draw, form: &str) -> String {
    let mut all: Vec<char> = form.chars().collect();
    let place = d.rng.below(all.len());
    let character = d.rng.pick(&CHARACTERS);
    match d.rng.below(6) {
        0 => all.insert(place, character),
        1 => drop(all.remove(place)),
        2 => all.truncate(place),
        3 => drop(all.drain(..place)),
        4 => all.insert(place, all[place]),
        _ => all[place] = character,
    }
    all.into_iter().collect()
}
