//! Shares (requests A9 and A10): a product is one read of the powers of 3, at the sum of two logarithms.
//! The logarithms of what a share number alone decides are known before a byte is looked at.

const SIZE: usize = 32;
const MOST: usize = 16;
/// The coefficients of a key byte.
const TERMS: usize = MOST - 1;
/// The factors 3 that give 1.
const ORDER: u16 = 255;

/// In place of the logarithm of 0: its sum with any logarithm lies among the zeros of `POWERS`.
const OF_ZERO: u16 = 512;
/// What keeps a sum within `POWERS`, without a check.
const MASK: usize = POWERS.len() - 1;

/// The powers of 3 twice, so that a sum of two logarithms needs no reduction; then zeros.
const POWERS: [u8; 1024] = powers();
const LOGARITHMS: [u16; 256] = logarithms();
/// By share number less 1 and degree less 1: the logarithm of that power of the number.
const STEPS: [[u16; TERMS]; MOST] = steps();

const fn powers() -> [u8; 1024] {
    let mut powers = [0; 1024];
    let (mut at, mut power) = (0, 1u16);
    while at < 2 * ORDER as usize {
        powers[at] = power as u8;
        power ^= power << 1;
        if power > 0xFF {
            power ^= 0x11B;
        }
        at += 1;
    }
    powers
}

const fn logarithms() -> [u16; 256] {
    let mut logarithms = [OF_ZERO; 256];
    let mut at = 0;
    while at < ORDER {
        logarithms[POWERS[at as usize] as usize] = at;
        at += 1;
    }
    logarithms
}

const fn steps() -> [[u16; TERMS]; MOST] {
    let mut steps = [[0; TERMS]; MOST];
    let mut at = 0;
    while at < MOST * TERMS {
        let (number, degree) = (at / TERMS + 1, at % TERMS + 1);
        steps[number - 1][degree - 1] = LOGARITHMS[number] * degree as u16 % ORDER;
        at += 1;
    }
    steps
}

/// The product of what has these logarithms, of which one may be that of 0.
#[inline]
fn product(a: u16, b: u16) -> u8 {
    POWERS[usize::from(a + b) & MASK]
}

#[inline]
fn is_out_of_range(k: u32, n: u32) -> bool {
    k < 2 || n > MOST as u32 || k > n
}

#[inline(never)]
pub fn node_shares_split(key: &[u8], k: u32, n: u32, coefficients: &[u8], out: &mut [u8]) -> u32 {
    if is_out_of_range(k, n) {
        return 26;
    }
    let (terms, size) = (k as usize - 1, SIZE * n as usize);
    let (Some(key), Some(out)) = (key.first_chunk::<SIZE>(), out.get_mut(..size)) else {
        return 28;
    };
    if coefficients.len() < SIZE * terms {
        return 28;
    }
    let lent = coefficients.chunks_exact(terms);
    for ((place, constant), lent) in key.iter().enumerate().zip(lent) {
        split_byte(place, *constant, lent, out);
    }
    n << 8
}

/// Writes the byte at a place of every share.
#[inline]
fn split_byte(place: usize, constant: u8, coefficients: &[u8], out: &mut [u8]) {
    let mut logarithms = [OF_ZERO; TERMS];
    for (logarithm, coefficient) in logarithms.iter_mut().zip(coefficients) {
        *logarithm = LOGARITHMS[usize::from(*coefficient)];
    }
    for (share, steps) in out.chunks_exact_mut(SIZE).zip(&STEPS) {
        let terms = logarithms.iter().zip(steps).take(coefficients.len());
        share[place] = terms.fold(constant, |value, (a, b)| value ^ product(*a, *b));
    }
}

#[inline(never)]
pub fn node_shares_merge(k: u32, n: u32, numbers: &[u8], shares: &[u8], out: &mut [u8]) -> u32 {
    if is_out_of_range(k, n) {
        return 26;
    }
    let k = k as usize;
    let first = &numbers[..k.min(numbers.len())];
    if !are_numbers(first, n) {
        return 27;
    }
    let (Some(out), Some(shares)) = (out.first_chunk_mut::<SIZE>(), shares.get(..SIZE * k)) else {
        return 28;
    };
    if first.len() < k {
        return 28;
    }
    let weights = weights(first);
    for (place, byte) in out.iter_mut().enumerate() {
        let shares = shares.chunks_exact(SIZE).zip(&weights);
        *byte = shares.fold(0, |value, (share, weight)| {
            value ^ product(LOGARITHMS[usize::from(share[place])], *weight)
        });
    }
    0
}

/// Slices of one length, so that the compiler adds many bytes at once.
#[inline(never)]
pub fn node_shares_add(shares: &[u8], more: &[u8], out: &mut [u8]) -> u32 {
    let length = shares.len();
    let (Some(more), Some(out)) = (more.get(..length), out.get_mut(..length)) else {
        return 28;
    };
    for ((byte, one), other) in out.iter_mut().zip(shares).zip(more) {
        *byte = one ^ other;
    }
    (length as u32) << 8
}

/// Each is from 1 to n, and none is among those before it.
#[inline]
fn are_numbers(numbers: &[u8], n: u32) -> bool {
    let mut seen = 0u32;
    for number in numbers {
        let number = u32::from(*number);
        if number.wrapping_sub(1) >= n || seen >> number & 1 == 1 {
            return false;
        }
        seen |= 1 << number;
    }
    true
}

/// The logarithms of Lagrange's weights at 0. That of a number less itself would be the one of 0, so
/// the number is passed over.
#[inline]
fn weights(numbers: &[u8]) -> [u16; MOST] {
    let mut weights = [0; MOST];
    for (weight, own) in weights.iter_mut().zip(numbers) {
        let others = numbers.iter().filter(|other| *other != own);
        let sum = others.fold(0, |sum, other| {
            let below = LOGARITHMS[usize::from(other ^ own)];
            sum + LOGARITHMS[usize::from(*other)] + ORDER - below
        });
        *weight = sum % ORDER;
    }
    weights
}
