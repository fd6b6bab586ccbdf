//! Fields of a stretch of bytes: "All fields are little-endian".
//!
//! Every caller has asked the length of the stretch before it reads or writes.

/// The u16 at an offset.
pub fn u16_at(bytes: &[u8], at: usize) -> u16 {
    u16::from_le_bytes([bytes[at], bytes[at + 1]])
}

/// The u32 at an offset.
pub fn u32_at(bytes: &[u8], at: usize) -> u32 {
    u32::from_le_bytes([bytes[at], bytes[at + 1], bytes[at + 2], bytes[at + 3]])
}

/// The i32 at an offset.
pub fn i32_at(bytes: &[u8], at: usize) -> i32 {
    i32::from_le_bytes([bytes[at], bytes[at + 1], bytes[at + 2], bytes[at + 3]])
}

/// Writes a u16 at an offset.
pub fn put_u16(bytes: &mut [u8], at: usize, value: u16) {
    bytes[at..at + 2].copy_from_slice(&value.to_le_bytes());
}

/// Writes a u32 at an offset.
pub fn put_u32(bytes: &mut [u8], at: usize, value: u32) {
    bytes[at..at + 4].copy_from_slice(&value.to_le_bytes());
}

/// Writes an i32 at an offset.
pub fn put_i32(bytes: &mut [u8], at: usize, value: i32) {
    bytes[at..at + 4].copy_from_slice(&value.to_le_bytes());
}

/// "'zero' fields hold 0".
pub fn all_zero(bytes: &[u8]) -> bool {
    // Words, and no early exit, so that the compiler can take many bytes at once.
    let (words, rest) = bytes.as_chunks::<8>();
    let any = words
        .iter()
        .fold(0, |any, &word| any | u64::from_ne_bytes(word));
    any == 0 && rest.iter().all(|&byte| byte == 0)
}
