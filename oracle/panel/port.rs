//! The port's program as a static library.

// The library is named where the program is linked: tools/panel.
#[cfg(port)]
unsafe extern "C" {
    fn panel_run(input: *const u8, input_len: usize, out: *mut u8, out_len: usize) -> usize;
}

/// The length of all answers; those that fit whole stand in `out`, up to the first that does not.
#[cfg(port)]
pub fn run(session: &[u8], out: &mut [u8]) -> usize {
    // SAFETY: both slices live through the call, which reads the one and writes within the other.
    unsafe { panel_run(session.as_ptr(), session.len(), out.as_mut_ptr(), out.len()) }
}

/// For a draft, which needs only egui's answers.
#[cfg(not(port))]
pub fn run(_: &[u8], _: &mut [u8]) -> usize {
    panic!("this build is without the port")
}
