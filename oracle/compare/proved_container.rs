//! The proved call on containers behind its C name.

extern "C" {
    fn oamd_emdf(
        container: *const u8,
        container_len: usize,
        buffer: *mut u8,
        buffer_len: usize,
        length: *mut u32,
    ) -> u32;
}

/// What the length holds before a call: no payload is so long.
const NO_LENGTH: u32 = 0xa5a5_a5a5;

/// The number given back, and the length.
pub fn emdf(container: &[u8], buffer: &mut [u8]) -> (u32, u32) {
    let mut length = NO_LENGTH;
    let (bytes, count) = (container.as_ptr(), container.len());
    let (lent, room) = (buffer.as_mut_ptr(), buffer.len());
    // Each pointer goes with the length of its own slice, and nothing else holds the buffer.
    let number = unsafe { oamd_emdf(bytes, count, lent, room, &mut length) };
    (number, length)
}
