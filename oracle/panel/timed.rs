//! The sessions that are timed: some nearly all of one form, some as a panel would send them, each some 60 KB but where its name says otherwise.

/// About so many bytes.
const LENGTH: usize = 60_000;

const TAB: &str = "(begin (key 5 1 0))\n";
const ARROWS: [&str; 4] = [
    "(begin (key 2 1 0))\n",
    "(begin (key 0 1 0))\n",
    "(begin (key 1 1 0))\n",
    "(begin (key 3 1 0))\n",
];

const P1: &str = include_str!("../../sessions/p1.txt");

/// Sessions nearly all of one form: their time a line is that form's.
pub const FORMS: [&str; 19] = [
    "begin, no event",
    "begin, 64 events",
    "want, 16 fields",
    "want, 256 fields",
    "want, turned away",
    "area, 8 layers",
    "area, 64 layers",
    "top, 64 layers",
    "sub, 64 layers",
    "modal, 64 layers",
    "end, none used",
    "end, 16 used",
    "end, 256 used",
    "end, 64 layers",
    "hit, the top layer of 64",
    "hit, the lowest of 64",
    "focus",
    "no form, misspelt",
    "no form, blank",
];

/// Sessions as a panel would send them.
pub const WHOLE: [&str; 9] = [
    "P1, over and over",
    "a page of 16 fields, Tab",
    "a page of 256 used entries, Tab",
    "arrows over 16 fields",
    "arrows over 256 fields",
    "hits over 64 layers",
    "misspelt lines",
    "blank lines",
    "one blank line",
];

/// The page of 16 fields in sessions of one, two, four and eight times a length.
pub const LENGTHS: [&str; 4] = ["1", "2", "4", "8"];

pub fn names() -> Vec<&'static str> {
    let all = FORMS.iter().chain(&WHOLE).chain(&LENGTHS);
    all.copied().collect()
}

/// Ids spread like hashes.
fn id(place: usize) -> u64 {
    (place as u64 + 1).wrapping_mul(0x9e37_79b9_7f4a_7c15) | 1
}

fn wants(count: usize) -> String {
    (0..count)
        .map(|i| format!("(want 1 7 {})\n", id(i)))
        .collect()
}

/// Rows of sixteen fields.
fn end(count: usize) -> String {
    let entries = (0..count).map(|i| {
        let (x, y) = (i % 16 * 3_072, i / 16 * 1_280);
        format!(" ({} {x} {y} {} {})", id(i), x + 2_560, y + 768)
    });
    format!("(end{})\n", entries.collect::<String>())
}

fn area(place: usize) -> String {
    format!("(area 1 {} {} 0 512 512)\n", id(place), 1_024 * place)
}

fn areas(count: usize) -> String {
    (0..count).map(area).collect()
}

fn filled(front: String, parts: &[String]) -> String {
    let mut session = front;
    let mut next = parts.iter().cycle();
    while let Some(part) = next.next()
        && session.len() + part.len() <= LENGTH
    {
        session.push_str(part);
    }
    session
}

fn events(count: usize) -> String {
    let key = |i: usize| format!(" (key {} {} {})", i * 7 % 145, 1 - i % 2, i % 3);
    let keys: String = (0..count).map(key).collect();
    format!("(begin{keys})\n")
}

/// A pass over a page with a key, and what has the focus then.
fn pass(begin: &str, count: usize) -> String {
    format!("{begin}{}{}(focus)\n", wants(count), end(count))
}

fn text(part: &str) -> Vec<String> {
    vec![part.to_owned()]
}

fn each(parts: impl Iterator<Item = String>) -> Vec<String> {
    parts.collect()
}

/// The front of a session and what is repeated after it.
fn of_form(name: &str) -> (String, Vec<String>) {
    let stack = areas(64) + "(end)\n";
    let layer = |name: &'static str| each((0..64).map(move |i| format!("({name} 1 {})\n", id(i))));
    match name {
        "begin, no event" => (String::new(), text("(begin)\n")),
        "begin, 64 events" => (String::new(), text(&events(64))),
        "want, 16 fields" => ("(begin)\n".to_owned(), text(&wants(16))),
        "want, 256 fields" => ("(begin)\n".to_owned(), text(&wants(256))),
        "want, turned away" => ("(modal 2 9)\n(end)\n".to_owned(), text(&wants(16))),
        "area, 8 layers" => (String::new(), each((0..8).map(area))),
        "area, 64 layers" => (String::new(), each((0..64).map(area))),
        "top, 64 layers" => (stack, layer("top")),
        "sub, 64 layers" => (
            stack,
            each((0..32).map(|i| format!("(sub 1 {} {})\n", id(i), id(i + 32)))),
        ),
        "modal, 64 layers" => (stack, layer("modal")),
        "end, none used" => (String::new(), text("(end)\n")),
        "end, 16 used" => (String::new(), text(&end(16))),
        "end, 256 used" => (String::new(), text(&end(256))),
        "end, 64 layers" => (stack, text("(end)\n")),
        "hit, the top layer of 64" => (stack, text("(hit 64768 256)\n")),
        "hit, the lowest of 64" => (stack, text("(hit 256 256)\n")),
        "focus" => (String::new(), text("(focus)\n")),
        "no form, misspelt" => (String::new(), text("(want 1  7 11)\n")),
        _ => (String::new(), text("\n")),
    }
}

fn whole(name: &str) -> (String, Vec<String>) {
    let arrows = |count: usize| {
        let front = format!("(begin)\n{}(begin (ask {}))\n", wants(count), id(count / 2));
        let passes = ARROWS.map(|key| pass(key, count));
        (front, passes.to_vec())
    };
    match name {
        "P1, over and over" => (String::new(), text(P1)),
        "a page of 16 fields, Tab" => (String::new(), text(&pass(TAB, 16))),
        "a page of 256 used entries, Tab" => (String::new(), text(&pass(TAB, 256))),
        "arrows over 16 fields" => arrows(16),
        "arrows over 256 fields" => arrows(256),
        "hits over 64 layers" => {
            let hit = |i: usize| format!("(hit {} {})\n", 1_024 * (i * 37 % 66) + 256, i % 2 * 300);
            (areas(64) + "(end)\n", each((0..264).map(hit)))
        }
        "misspelt lines" => {
            let lines = [
                "(want 1 7 011)\n",
                "(begin (key 5 2 0))\n",
                "(hit -0 0)\n",
                "focus\n",
            ];
            (String::new(), each(lines.iter().map(|l| (*l).to_owned())))
        }
        _ => (String::new(), text("\n")),
    }
}

pub fn session(name: &str) -> Vec<u8> {
    if name == "one blank line" {
        return b"\n".to_vec();
    }
    if let Ok(times) = name.parse::<usize>() {
        // Of whole passes, so that each length is so many times the first.
        let pass = pass(TAB, 16);
        return pass.repeat(times * (LENGTH / 8 / pass.len())).into_bytes();
    }
    let (front, parts) = if FORMS.contains(&name) {
        of_form(name)
    } else {
        whole(name)
    };
    filled(front, &parts).into_bytes()
}
