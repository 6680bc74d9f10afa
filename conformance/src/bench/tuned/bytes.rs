//! Little-endian numbers at fixed places.

#[inline]
pub fn u16_at(bytes: &[u8], at: usize) -> u16 {
    u16::from_le_bytes([bytes[at], bytes[at + 1]])
}

#[inline]
pub fn u32_at(bytes: &[u8], at: usize) -> u32 {
    u32::from_le_bytes(bytes[at..at + 4].try_into().unwrap())
}

#[inline]
pub fn u64_at(bytes: &[u8], at: usize) -> u64 {
    u64::from_le_bytes(bytes[at..at + 8].try_into().unwrap())
}

/// Without an early exit, so that it runs on whole vectors.
#[inline]
pub fn all_zero(bytes: &[u8]) -> bool {
    bytes.iter().fold(0, |seen, byte| seen | byte) == 0
}

/// Whether the bytes are one record of this length and kind.
#[inline]
pub fn is_record(bytes: &[u8], size: usize, kind: u16) -> bool {
    bytes.len() == size && usize::from(u16_at(bytes, 0)) == size - 2 && u16_at(bytes, 2) == kind
}
