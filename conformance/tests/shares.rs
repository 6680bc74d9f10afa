//! The second implementation's field and shares (requests A9 and A10), against published values and the
//! requests' own sentences.

use conformance::compare::Random;
use conformance::paper::field::{inverse, product};
use conformance::paper::shares::{add, merge, split};

const SIZE: usize = 32;

/// The examples of FIPS 197 (2001), sections 4.2 and 4.2.1.
#[test]
fn the_published_products() {
    for (a, b, ab) in [
        (0x57, 0x83, 0xc1),
        (0x57, 0x13, 0xfe),
        (0x57, 0x01, 0x57),
        (0x57, 0x02, 0xae),
        (0x57, 0x04, 0x47),
        (0x57, 0x08, 0x8e),
        (0x57, 0x10, 0x07),
    ] {
        assert_eq!(product(a, b), ab);
        assert_eq!(product(b, a), ab);
    }
}

/// The S-box of FIPS 197 (2001), figure 7, in hexadecimal: each byte's inverse, then an affine step over its
/// bits.
const S_BOX: &str = "\
    637c777bf26b6fc53001672bfed7ab76\
    ca82c97dfa5947f0add4a2af9ca472c0\
    b7fd9326363ff7cc34a5e5f171d83115\
    04c723c31896059a071280e2eb27b275\
    09832c1a1b6e5aa0523bd6b329e32f84\
    53d100ed20fcb15b6acbbe394a4c58cf\
    d0efaafb434d338545f9027f503c9fa8\
    51a3408f929d38f5bcb6da2110fff3d2\
    cd0c13ec5f974417c4a77e3d645d1973\
    60814fdc222a908846eeb814de5e0bdb\
    e0323a0a4906245cc2d3ac629195e479\
    e7c8376d8dd54ea96c56f4ea657aae08\
    ba78252e1ca6b4c6e8dd741f4bbd8b8a\
    703eb5664803f60e613557b986c11d9e\
    e1f8981169d98e949b1e87e9ce5528df\
    8ca1890dbfe6426841992d0fb054bb16";

/// Undoes the affine step: each bit is the sum of those 2, 5 and 7 places above it, the eighth followed by
/// the first; then 0x05 is added.
fn before_the_affine_step(byte: u8) -> u8 {
    byte.rotate_left(1) ^ byte.rotate_left(3) ^ byte.rotate_left(6) ^ 0x05
}

#[test]
fn the_published_inverses() {
    assert_eq!((inverse(0x53), inverse(0xca)), (0xca, 0x53));
    let entry = |a: usize| u8::from_str_radix(&S_BOX[2 * a..2 * a + 2], 16).unwrap();
    let inverses = (0..256).map(|a| before_the_affine_step(entry(a)));
    // The first entry is that of 0, which has no inverse.
    for (a, published) in (0..=255).zip(inverses).skip(1) {
        assert_eq!(inverse(a), published);
        assert_eq!(product(a, inverse(a)), 1);
    }
}

#[test]
fn any_k_shares_give_the_key_back() {
    let mut rng = Random::new(9);
    for n in 2..=16 {
        for k in 2..=n {
            let (key, coefficients) = (rng.bytes(SIZE), rng.bytes(SIZE * (k - 1)));
            let shares = split(&key, k, n, &coefficients);
            for _ in 0..20 {
                let numbers = rng.share_numbers(k, n as u32);
                let share = |number: &u8| &shares[SIZE * (usize::from(*number) - 1)..][..SIZE];
                let chosen: Vec<&[u8]> = numbers.iter().map(share).collect();
                assert_eq!(
                    merge(&numbers, &chosen.concat()),
                    key,
                    "{k} of {n}: {numbers:?}"
                );
            }
        }
    }
}

/// "shares of two keys, made with the same k and n and added byte for byte in the field, are shares of the
/// two keys' sum": those that the sums of the coefficients give.
#[test]
fn sums_of_shares_are_shares_of_the_sum() {
    let mut rng = Random::new(10);
    for n in 2..=16 {
        for k in 2..=n {
            let [one, other, sum] = two_and_their_sum(&mut rng, SIZE);
            let [a, b, both] = two_and_their_sum(&mut rng, SIZE * (k - 1));
            let shares = add(&split(&one, k, n, &a), &split(&other, k, n, &b));
            assert_eq!(shares, split(&sum, k, n, &both), "{k} of {n}");
        }
    }
}

fn two_and_their_sum(rng: &mut Random, count: usize) -> [Vec<u8>; 3] {
    let (one, other) = (rng.bytes(count), rng.bytes(count));
    let sum = one.iter().zip(&other).map(|(a, b)| a ^ b).collect();
    [one, other, sum]
}

/// The bytes that 32 choices of coefficients, of k - 1 bytes each, give to each of n shares of a key of
/// one byte, 32 times over.
fn shares_of(key: u8, k: usize, n: usize, coefficients: &[u8]) -> Vec<Vec<u8>> {
    let shares = split(&[key; SIZE], k, n, coefficients);
    shares.chunks(SIZE).map(<[u8]>::to_vec).collect()
}

/// "For k-1 shares and each candidate key byte, exactly one choice of coefficients gives those shares."
/// With k = 2: each of the 256 coefficients gives another byte to a share.
#[test]
fn one_share_of_two_leaves_every_key_byte() {
    let all: Vec<u8> = (0..=255).collect();
    for key in 0..=255 {
        let mut given = vec![[0; 256]; 16];
        for coefficients in all.chunks(SIZE) {
            for (share, given) in shares_of(key, 2, 16, coefficients).iter().zip(&mut given) {
                share.iter().for_each(|byte| given[usize::from(*byte)] += 1);
            }
        }
        assert!(
            given.as_flattened().iter().all(|count| *count == 1),
            "{key}"
        );
    }
}

/// With k = 3: each of the 65,536 choices of two coefficients gives other bytes to any two shares.
#[test]
fn two_shares_of_three_leave_every_key_byte() {
    let all: Vec<u8> = (0..=u16::MAX).flat_map(u16::to_le_bytes).collect();
    for key in 0..=255 {
        let mut given = vec![[0u8; 65_536]; 3];
        for coefficients in all.chunks(2 * SIZE) {
            let shares = shares_of(key, 3, 3, coefficients);
            for (given, [a, b]) in given.iter_mut().zip([[0, 1], [0, 2], [1, 2]]) {
                let both = shares[a].iter().zip(&shares[b]);
                both.for_each(|(a, b)| given[usize::from(*a) << 8 | usize::from(*b)] += 1);
            }
        }
        assert!(
            given.as_flattened().iter().all(|count| *count == 1),
            "{key}"
        );
    }
}
