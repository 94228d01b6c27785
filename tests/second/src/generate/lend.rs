//! The lengths of the lent tables, on both sides of what a file needs.

use crate::aiger::{Lengths, TABLES};
use crate::random::Random;

/// Lengths that are enough: exactly, or with spare words.
pub fn enough(random: &mut Random, needed: &Lengths) -> Lengths {
    match random.below(4) {
        0 => *needed,
        1 => needed.map(|words| words + random.below(6) as u64),
        2 => needed.map(|words| words + random.between(1, 6) as u64),
        _ => {
            let mut lengths = *needed;
            lengths[random.below(8)] += random.between(1, 40) as u64;
            lengths
        }
    }
}

/// A table too short, mostly by one word, and perhaps another; none if the table needs no words.
pub fn short(random: &mut Random, needed: &Lengths, table: u64) -> Option<Lengths> {
    let mut lengths = enough(random, needed);
    let first = TABLES.iter().position(|&number| number == table)?;
    let other = random.below(8);
    for k in [other, first].into_iter().skip(random.below(2)) {
        lengths[k] = match random.below(6) {
            0 => 0,
            1 => random.below(needed[k].max(1) as usize) as u64,
            _ => needed[k].saturating_sub(1),
        };
    }
    (needed[first] > 0).then_some(lengths)
}

/// Lengths that have nothing to do with the file.
pub fn unrelated(random: &mut Random) -> Lengths {
    let most = *random.pick(&[0, 3, 30]);
    [0; 8].map(|_| random.below(most + 1) as u64)
}
