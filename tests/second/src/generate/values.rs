//! Vectors of "0", "1", "x".

use crate::random::Random;

/// Values with "x" in so many of four places.
pub fn vector(random: &mut Random, unknown: usize, length: usize) -> Vec<u8> {
    let mut value = || {
        if random.below(4) < unknown {
            b'x'
        } else {
            *random.pick(b"01")
        }
    };
    (0..length).map(|_| value()).collect()
}

/// The same values with "0" or "1" for each "x".
pub fn ground(random: &mut Random, vector: &[u8]) -> Vec<u8> {
    vector
        .iter()
        .map(|&value| if value == b'x' { *random.pick(b"01") } else { value })
        .collect()
}

/// Any byte that is no value.
pub fn no_value(random: &mut Random) -> u8 {
    match random.byte() {
        b'0' | b'1' | b'x' => *random.pick(b"2X\0 \n\x01/wy\xb0"),
        byte => byte,
    }
}
