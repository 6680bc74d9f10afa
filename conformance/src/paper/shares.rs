//! Request A9: "Partial keys for the sealing key." A passage in quotation marks is the request's own. The
//! sum of shares is of request A10, "Renewing shares", and so are the passages beside it.

use super::field::{inverse, product, sum};
use super::image::{code, put};
use super::Answer::Given;

/// "the 32-byte key"; "Shares are 32 bytes each".
const SIZE: usize = 32;

/// "both 2 to 16, k at most n"
fn in_range(k: u32, n: u32) -> bool {
    (2..=16).contains(&k) && (2..=16).contains(&n) && k <= n
}

/// The shares of a key, "written from share 1 to n", each "taken at i" and "byte by byte". "the k-1
/// coefficients of each byte are lent in rising degree, key byte by key byte".
pub fn split(key: &[u8], k: usize, n: usize, coefficients: &[u8]) -> Vec<u8> {
    let mut shares = Vec::new();
    for number in 1..=n {
        let powers = powers(number as u8, k - 1);
        for (place, constant) in key[..SIZE].iter().enumerate() {
            let lent = &coefficients[place * (k - 1)..][..k - 1];
            shares.push(value_at(&powers, *constant, lent));
        }
    }
    shares
}

/// The powers of a number from degree 1.
fn powers(number: u8, most: usize) -> Vec<u8> {
    let mut powers = vec![number];
    while powers.len() < most {
        let last = powers[powers.len() - 1];
        powers.push(product(last, number));
    }
    powers
}

/// The value of a polynomial, "constant term the key byte", where the number has these powers.
fn value_at(powers: &[u8], constant: u8, coefficients: &[u8]) -> u8 {
    let mut value = constant;
    for (coefficient, power) in coefficients.iter().zip(powers) {
        value = sum(value, product(*coefficient, *power));
    }
    value
}

/// The key of these shares, as many as there are numbers and in their order: the value at 0 of the
/// one polynomial of lower degree through them, byte by byte.
pub fn merge(numbers: &[u8], shares: &[u8]) -> Vec<u8> {
    let weights = weights(numbers);
    let key_byte = |place: usize| {
        let mut byte = 0;
        for (weight, share) in weights.iter().zip(shares.chunks(SIZE)) {
            byte = sum(byte, product(*weight, share[place]));
        }
        byte
    };
    (0..SIZE).map(key_byte).collect()
}

/// What each share counts for in the value at 0, by Lagrange's formula: the product over the other
/// numbers x of x / (x - own).
pub fn weights(numbers: &[u8]) -> Vec<u8> {
    numbers.iter().map(|own| weight(*own, numbers)).collect()
}

fn weight(own: u8, numbers: &[u8]) -> u8 {
    let (mut above, mut below) = (1, 1);
    for other in numbers.iter().filter(|other| **other != own) {
        above = product(above, *other);
        below = product(below, sum(*other, own));
    }
    product(above, inverse(below))
}

/// Two runs of shares "added byte for byte in the field".
pub fn add(shares: &[u8], more: &[u8]) -> Vec<u8> {
    let pairs = shares.iter().zip(more);
    pairs.map(|(one, other)| sum(*one, *other)).collect()
}

/// Whether none of the numbers is "zero, above n or repeated among them".
fn are_numbers(numbers: &[u8], n: u32) -> bool {
    for (place, number) in numbers.iter().enumerate() {
        if *number == 0 || u32::from(*number) > n {
            return false;
        }
        if numbers[..place].contains(number) {
            return false;
        }
    }
    true
}

/// The split as C gets it.
pub fn node_shares_split(key: &[u8], k: u32, n: u32, coefficients: &[u8], out: &mut [u8]) -> u32 {
    // "26, k or n out of range"
    if !in_range(k, n) {
        return 26;
    }
    let (k, n) = (k as usize, n as usize);
    // "28, a slice too short"
    if key.len() < SIZE || coefficients.len() < SIZE * (k - 1) || out.len() < SIZE * n {
        return 28;
    }
    // "longer ones keep their tail"
    put(&split(key, k, n, coefficients), out);
    code(Given) | (n as u32) << 8
}

/// The merge as C gets it.
pub fn node_shares_merge(k: u32, n: u32, numbers: &[u8], shares: &[u8], out: &mut [u8]) -> u32 {
    if !in_range(k, n) {
        return 26;
    }
    let k = k as usize;
    // "27, one of the first k share numbers zero, above n or repeated among them": of those that are
    // there, since a slice that is too short is tried behind it.
    let first = &numbers[..k.min(numbers.len())];
    if !are_numbers(first, n) {
        return 27;
    }
    if numbers.len() < k || shares.len() < SIZE * k || out.len() < SIZE {
        return 28;
    }
    put(&merge(first, shares), out);
    code(Given)
}

/// The sum as C gets it.
pub fn node_shares_add(shares: &[u8], more: &[u8], out: &mut [u8]) -> u32 {
    let length = shares.len();
    // "28 where a slice is shorter than the first one's length"
    if more.len() < length || out.len() < length {
        return 28;
    }
    put(&add(shares, more), out);
    // "the first one's length is the count", of which it holds the low 24 bits.
    code(Given) | (length as u32) << 8
}
