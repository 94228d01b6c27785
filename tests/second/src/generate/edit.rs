//! Damage to bytes without regard to what they mean; what the answer is then, only a reader can tell.

use crate::random::Random;

/// Bytes that mean something somewhere.
const MARKS: &[u8] = b"0123456789 \n\r\tailobcg-\0\x7f\x80\x81\xff";

pub fn edit(random: &mut Random, file: &mut Vec<u8>) {
    for _ in 0..random.between(1, 3) {
        let at = some_place(random, file.len());
        match random.below(8) {
            0 if at < file.len() => file[at] ^= 1 << random.below(8),
            1 if at < file.len() => file[at] = random.byte(),
            2 | 3 if at < file.len() => file[at] = *random.pick(MARKS),
            4 if at < file.len() => drop(file.remove(at)),
            5 if at + 1 < file.len() => file.swap(at, at + 1),
            6 => repeat(random, file, at),
            _ => file.insert(at, *random.pick(MARKS)),
        }
    }
}

/// The header is short and would seldom be met in a long file.
fn some_place(random: &mut Random, length: usize) -> usize {
    if random.once_in(3) {
        random.below(length.min(20) + 1)
    } else {
        random.below(length + 1)
    }
}

fn repeat(random: &mut Random, file: &mut Vec<u8>, at: usize) {
    let end = file.len().min(at + random.below(9));
    let piece = file[at..end].to_vec();
    file.splice(at..at, piece);
}
