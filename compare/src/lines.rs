//! A line of a trace, read and written again by the proved functions.

/// The room that writing a line asks for.
pub const MOST_RENDERED: usize = 156;

unsafe extern "C" {
    fn oudrameng_rewrite_line(text: *const u8, bytes: usize, out: *mut u8, room: usize) -> usize;
}

/// Writes a line over the front of `out` as it was read, and gives how many bytes that are.
pub fn rewrite_line(text: &[u8], out: &mut [u8]) -> usize {
    // SAFETY: both are slices, the second borrowed alone, and the function takes any bytes and any room.
    unsafe { oudrameng_rewrite_line(text.as_ptr(), text.len(), out.as_mut_ptr(), out.len()) }
}
