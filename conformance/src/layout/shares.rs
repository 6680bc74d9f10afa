//! The slices of requests A9 and A10: a key, the coefficients that are lent for it, its shares, sums of
//! shares.

/// "the 32-byte key"; "Shares are 32 bytes each".
pub const KEY_SIZE: usize = 32;
/// "both 2 to 16"
pub const LEAST_SHARES: u32 = 2;
pub const MOST_SHARES: u32 = 16;

/// The bytes of n shares; where n is out of range, of the nearest number within it.
pub fn shares_size(n: u32) -> usize {
    KEY_SIZE * n.clamp(LEAST_SHARES, MOST_SHARES) as usize
}

/// The bytes of the coefficients that k asks for, in the same way.
pub fn coefficients_size(k: u32) -> usize {
    shares_size(k) - KEY_SIZE
}

/// "byte for byte exclusive or" (request A10), of as many bytes as both have. No implementation uses it:
/// what they write is held to it.
pub fn added(one: &[u8], other: &[u8]) -> Vec<u8> {
    one.iter().zip(other).map(|(a, b)| a ^ b).collect()
}

/// Every k and n within their range, "k at most n".
pub fn pairs() -> impl Iterator<Item = (u32, u32)> {
    let all = LEAST_SHARES..=MOST_SHARES;
    all.flat_map(|n| (LEAST_SHARES..=n).map(move |k| (k, n)))
}
