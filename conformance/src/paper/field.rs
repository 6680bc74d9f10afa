//! "the field of 256 elements with polynomial 0x11B" (request A9).
//!
//! A byte is a polynomial over the bits 0 and 1, bit i the coefficient of degree i. Products are
//! reduced bit by bit: no table is used here, unlike in what the request describes, so that an error
//! in a table is an error of one side alone.

/// The sum, and the difference too: every element is its own negative.
pub fn sum(a: u8, b: u8) -> u8 {
    a ^ b
}

/// The product of the polynomials, reduced by 0x11B.
pub fn product(a: u8, b: u8) -> u8 {
    let mut shifted = u16::from(a);
    let mut product = 0;
    for bit in 0..8 {
        if b >> bit & 1 == 1 {
            product ^= shifted;
        }
        shifted <<= 1;
        if shifted > 0xFF {
            shifted ^= 0x11B;
        }
    }
    product as u8
}

/// What gives 1 with `a`, which is not 0. The 255 elements other than 0 form a group, so 255 factors
/// `a` give 1, and the inverse has 254: 2 and 4 and so on to 128.
pub fn inverse(a: u8) -> u8 {
    let (mut square, mut inverse) = (a, 1);
    for _ in 0..7 {
        square = product(square, square);
        inverse = product(inverse, square);
    }
    inverse
}
