//! Makes a session on which the sides differ as short as it goes: whole lines first, then entries of lists, then bytes.
use std::time::{Duration, Instant};

/// However long a session is, what is left after so long is shown.
const LIMIT: Duration = Duration::from_secs(60);

pub fn shrink(session: Vec<u8>, differs: impl Fn(&[u8]) -> bool) -> Vec<u8> {
    let until = Instant::now() + LIMIT;
    let still = |s: &[u8]| Instant::now() < until && differs(s);
    let mut least = session;
    loop {
        let before = least.len();
        least = fewer(least, lines, &still);
        least = fewer(least, entries, &still);
        least = fewer(least, |s| s.chunks(1).collect(), &still);
        if least.len() == before {
            return least;
        }
    }
}

fn lines(session: &[u8]) -> Vec<&[u8]> {
    session.split_inclusive(|&b| b == b'\n').collect()
}

/// Cut before each entry and behind it.
fn entries(session: &[u8]) -> Vec<&[u8]> {
    session
        .chunk_by(|&a, &b| (a, b) != (b')', b' ') && (a, b) != (b')', b')'))
        .collect()
}

/// Drops runs of parts while the difference stays, long runs first.
fn fewer(
    session: Vec<u8>,
    parts: impl Fn(&[u8]) -> Vec<&[u8]>,
    still: impl Fn(&[u8]) -> bool,
) -> Vec<u8> {
    let all = parts(&session);
    let mut kept = all.clone();
    let mut length = kept.len().div_ceil(2);
    while 0 < length {
        let mut end = kept.len();
        while 0 < end {
            let start = end.saturating_sub(length);
            let without = [&kept[..start], &kept[end..]].concat();
            if still(&without.concat()) {
                kept = without;
            }
            end = start;
        }
        length /= 2;
    }
    kept.concat()
}
