//! What both sides answer to a session, where they differ, and how that is shown.
use super::{port, shrink};
use crate::panel;

/// Stands in the port's output buffer before a call: no byte of an answer.
const UNTOUCHED: u8 = 0xa5;

/// So much lies past the output buffer, and must stay as it is.
const GUARD: usize = 64;

pub enum Difference {
    /// The port's whole output.
    Answers(Vec<u8>),
    /// With a buffer of this size the port counts, writes or leaves something else than it should.
    Buffer(usize, String),
}

pub fn of_egui(session: &[u8]) -> Vec<u8> {
    let mut out = Vec::with_capacity(6 * session.len());
    panel::answers(session, &mut out);
    out
}

/// What the port counts with a buffer of this size, and what then stands in the buffer and past it.
fn of_port(session: &[u8], size: usize) -> (usize, Vec<u8>) {
    let mut out = vec![UNTOUCHED; size + GUARD];
    let count = port::run(session, &mut out[..size]);
    (count, out)
}

/// The lines that fit a buffer whole, up to the first that does not.
fn fitting(answers: &[u8], size: usize) -> &[u8] {
    let whole = &answers[..size.min(answers.len())];
    let end = whole.iter().rposition(|&b| b == b'\n');
    &whole[..end.map_or(0, |place| place + 1)]
}

/// What the port does wrong with a buffer of this size.
fn wrong(answers: &[u8], size: usize, count: usize, out: &[u8]) -> Option<String> {
    let written = fitting(answers, size);
    let (front, rest) = out.split_at(written.len());
    if count != answers.len() {
        Some(format!("it counts {count} bytes of {}", answers.len()))
    } else if front != written {
        Some("the lines that fit are not what it wrote".to_owned())
    } else {
        let place = rest.iter().position(|&b| b != UNTOUCHED)?;
        Some(format!(
            "it wrote byte {} of the output",
            written.len() + place
        ))
    }
}

/// Where the port differs from egui's side: with room for all answers and more, and then with buffers of these sizes.
pub fn difference(session: &[u8], sizes: &[usize]) -> Option<Difference> {
    let answers = of_egui(session);
    let room = answers.len() + GUARD;
    let (count, mut out) = of_port(session, room);
    if count != answers.len() || !out.starts_with(&answers) {
        out.truncate(count.min(room));
        return Some(Difference::Answers(out));
    }
    if let Some(wrong) = wrong(&answers, room, count, &out) {
        return Some(Difference::Buffer(room, wrong));
    }
    sizes.iter().find_map(|&size| {
        let (count, out) = of_port(session, size);
        let wrong = wrong(&answers, size, count, &out)?;
        Some(Difference::Buffer(size, wrong))
    })
}

/// Sizes of buffers that are too small for all answers, or just large enough.
pub fn sizes(session: &[u8]) -> [usize; 8] {
    let all = of_egui(session).len();
    let less = all.saturating_sub(1);
    [0, 1, 2, 3, all / 2, less, all, all + 1]
}

/// The lines of a session or of answers, without their ends.
pub fn lines(bytes: &[u8]) -> Vec<&[u8]> {
    let lines = bytes.split_inclusive(|&b| b == b'\n');
    lines
        .map(|line| line.strip_suffix(b"\n").unwrap_or(line))
        .collect()
}

fn shown(line: Option<&&[u8]>) -> String {
    match line {
        None => "(nothing)".to_owned(),
        Some(line) if line.len() <= 400 => line.escape_ascii().to_string(),
        Some(line) => format!("{}.. ({} bytes)", line[..360].escape_ascii(), line.len()),
    }
}

/// The session with both sides' answers, the lines around the first difference only where it is long.
fn show(session: &[u8], port: &[u8]) {
    let egui = of_egui(session);
    let [asked, a, b] = [session, &egui, port].map(lines);
    let most = asked.len().max(a.len()).max(b.len());
    let first = (0..most).find(|&i| a.get(i) != b.get(i)).unwrap_or(0);
    for i in first.saturating_sub(60)..most.min(first + 3) {
        println!("  {}", shown(asked.get(i)));
        println!("    egui {}\n    port {}", shown(a.get(i)), shown(b.get(i)));
    }
}

/// Shows the shortest session that still differs, with both answers, and ends the run.
pub fn stop(session: &[u8], found: &Difference, sizes: &[usize]) -> ! {
    if let Difference::Buffer(size, wrong) = found {
        println!("with a buffer of {size} bytes: {wrong}");
    }
    let small: Vec<usize> = sizes.iter().copied().filter(|&n| n <= 3).collect();
    let differs = |s: &[u8]| {
        let of_session = if small.is_empty() {
            Vec::new()
        } else {
            self::sizes(s).to_vec()
        };
        difference(s, &of_session)
    };
    let least = shrink::shrink(session.to_vec(), |s| differs(s).is_some());
    println!(
        "shrunk to {} lines, {} bytes:",
        lines(&least).len(),
        least.len()
    );
    match differs(&least) {
        Some(Difference::Answers(port)) => show(&least, &port),
        Some(Difference::Buffer(size, wrong)) => {
            println!("  {}", shown(Some(&&least[..])));
            println!("    with a buffer of {size} bytes: {wrong}");
        }
        None => println!("  it does not differ when it is asked again"),
    }
    std::process::exit(1)
}
