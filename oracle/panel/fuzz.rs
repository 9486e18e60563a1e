//! Sessions with bytes changed, of the stored ones and of generated ones, and output buffers of several sizes.
use super::{kinds, report};
use crate::rng::Rng;
use std::{fs, io};

/// The stored sessions.
pub fn stored() -> io::Result<Vec<Vec<u8>>> {
    let mut all = Vec::new();
    for entry in fs::read_dir("sessions")? {
        let path = entry?.path();
        if path.extension().is_some_and(|it| it == "txt") {
            all.push((path.clone(), fs::read(path)?));
        }
    }
    // In the order of their names, so that a seed always gives the same sessions.
    all.sort();
    Ok(all.into_iter().map(|(_, session)| session).collect())
}

pub fn run(count: u64, seed: u64) -> io::Result<()> {
    let stored = stored()?;
    let mut bytes = 0;
    for number in 0..count {
        let session = mutant(&stored, seed, number);
        let sizes = report::sizes(&session);
        if let Some(difference) = report::difference(&session, &sizes) {
            println!("mutant {number} of seed {seed}");
            report::stop(&session, &difference, &sizes);
        }
        bytes += session.len();
    }
    println!(
        "{count} mutants, {bytes} bytes, from seed {seed}, each with nine buffers: no difference"
    );
    Ok(())
}

/// Past the numbers of `compare`, so that its sessions are others.
const FIRST: u64 = 1 << 40;

fn base(stored: &[Vec<u8>], rng: &mut Rng, seed: u64) -> Vec<u8> {
    if rng.percent(25) {
        stored[rng.below(stored.len())].clone()
    } else {
        kinds::session(seed, FIRST + rng.next() % FIRST).bytes
    }
}

pub fn mutant(stored: &[Vec<u8>], seed: u64, number: u64) -> Vec<u8> {
    let mut rng = Rng::of(seed, FIRST + number);
    let mut session = base(stored, &mut rng, seed);
    // A long session takes as long as many short ones.
    if 4_000 < session.len() && rng.percent(80) {
        let from = rng.below(session.len() - 2_000);
        session = session[from..from + 2_000].to_vec();
    }
    for _ in 0..rng.pick(&[1, 1, 2, 4, 16]) {
        change(&mut session, stored, &mut rng, seed);
    }
    if rng.percent(1) {
        lengthen(&mut session, &mut rng);
    }
    session
}

/// Bytes that some rule turns on, and some that none does.
const BYTES: &[u8] = b"\n\n\n () --0019a\0\r\t\xff\x80\x7f+./:;B";

fn change(session: &mut Vec<u8>, stored: &[Vec<u8>], rng: &mut Rng, seed: u64) {
    let place = rng.below(session.len() + 1);
    let end = (place + 1 + rng.below(24)).min(session.len());
    match rng.below(12) {
        0 if place < session.len() => session[place] ^= 1 << rng.below(8),
        1 | 2 if place < session.len() => session[place] = rng.pick(BYTES),
        3 | 4 => session.insert(place, rng.pick(BYTES)),
        5 if place < session.len() => drop(session.remove(place)),
        6 if place < end => drop(session.drain(place..end)),
        7 if place < end => {
            let twice = session[place..end].to_vec();
            session.splice(place..place, twice);
        }
        8 => splice(session, &base(stored, rng, seed), rng),
        9 => session.truncate(place),
        10 => swap_lines(session, rng),
        _ => {
            let many = vec![rng.pick(BYTES); rng.pick(&[2, 8, 30])];
            session.splice(place..place, many);
        }
    }
}

/// The front of one session and the rest of another.
fn splice(session: &mut Vec<u8>, other: &[u8], rng: &mut Rng) {
    session.truncate(rng.below(session.len() + 1));
    let from = rng.below(other.len() + 1);
    let rest = &other[from..];
    session.extend_from_slice(&rest[..rest.len().min(4_000)]);
}

fn swap_lines(session: &mut Vec<u8>, rng: &mut Rng) {
    let mut lines: Vec<Vec<u8>> = session.split(|&b| b == b'\n').map(<[u8]>::to_vec).collect();
    let (a, b) = (rng.below(lines.len()), rng.below(lines.len()));
    lines.swap(a, b);
    *session = lines.join(&b'\n');
}

/// A line near the longest, or a session near the longest.
fn lengthen(session: &mut Vec<u8>, rng: &mut Rng) {
    if rng.percent(50) {
        let length = rng.pick(&[16_383, 16_384, 16_385]);
        let mut line = b"(focus)".to_vec();
        line.resize(length, rng.pick(b" (0x"));
        line.push(b'\n');
        let place = session
            .iter()
            .position(|&b| b == b'\n')
            .map_or(0, |n| n + 1);
        session.splice(place..place, line);
    } else {
        let length = rng.pick(&[65_535, 65_536, 65_537]);
        let whole = session.clone();
        while session.len() < length {
            session.extend_from_slice(if whole.is_empty() { b"\n" } else { &whole });
        }
        session.truncate(length);
    }
}
