//! How deep the port's stack gets: the stack below a call is painted, and then looked at.
use super::{fuzz, port, timed};
use std::thread;

const PAINT: u64 = 0x5a5a_a5a5_3c3c_c3c3;

/// So much of the stack is painted, of a thread that has twice as much.
const DEPTH: usize = 8 << 20;

/// Left between this function's frame and the paint.
const FRAME: usize = 256;

fn words(top: usize) -> impl Iterator<Item = *mut u64> {
    let (high, low) = ((top - FRAME) & !7, (top - DEPTH) & !7);
    (low..high).step_by(8).map(|at| at as *mut u64)
}

/// How many bytes below this frame the port wrote.
#[inline(never)]
fn painted(session: &[u8], out: &mut [u8]) -> usize {
    let here = 0_u8;
    let top = &raw const here as usize;
    // SAFETY: nothing else runs on this thread's stack, and these words are below its frames and within it.
    words(top).for_each(|word| unsafe { word.write_volatile(PAINT) });
    port::run(session, out);
    let deepest = words(top).find(|word| unsafe { word.read_volatile() } != PAINT);
    deepest.map_or(0, |word| top - word as usize)
}

fn depth(session: Vec<u8>) -> usize {
    let work = move || painted(&session, &mut vec![0; 6 * 65_536]);
    let thread = thread::Builder::new().stack_size(2 * DEPTH).spawn(work);
    thread.expect("a thread").join().expect("a depth")
}

/// The deepest of the timed sessions and the stored ones.
pub fn print() {
    let timed = timed::names().into_iter().map(timed::session);
    let all = timed.chain(fuzz::stored().unwrap_or_default());
    let deepest = all.map(depth).max().unwrap_or(0);
    println!("{deepest}");
}
