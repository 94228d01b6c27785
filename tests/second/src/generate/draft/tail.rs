//! The symbols and the comment of a draft.

use super::digits;
use crate::aiger::Circuit;
use crate::random::Random;

/// The lists whose entries may have a symbol.
pub fn lists(circuit: &Circuit) -> [(u8, usize); 5] {
    [
        (b'i', circuit.inputs.len()),
        (b'l', circuit.latches.len()),
        (b'o', circuit.outputs.len()),
        (b'b', circuit.bads.len()),
        (b'c', circuit.constraints.len()),
    ]
}

/// Symbols of some entries in any order.
pub fn symbols(random: &mut Random, circuit: &Circuit) -> Vec<Vec<u8>> {
    let mut symbols = Vec::new();
    if random.once_in(2) {
        return symbols;
    }
    for (kind, count) in lists(circuit) {
        let mut positions: Vec<usize> = (0..count.min(4)).collect();
        if count > 4 {
            positions.push(random.between(4, count - 1));
        }
        positions.retain(|_| random.once_in(2));
        symbols.extend(
            positions
                .into_iter()
                .map(|position| symbol(kind, position, &name(random))),
        );
    }
    random.shuffle(&mut symbols);
    symbols
}

pub fn symbol(kind: u8, position: impl ToString, name: &[u8]) -> Vec<u8> {
    let mut symbol = vec![kind];
    symbol.extend(digits(position));
    symbol.push(b' ');
    symbol.extend(name);
    symbol
}

/// A name of bytes 32 to 126, sometimes empty.
fn name(random: &mut Random) -> Vec<u8> {
    (0..random.below(9)).map(|_| random.between(32, 126) as u8).collect()
}

/// Every other file has a comment; its bytes may be any, but the last is a new line.
pub fn comment(random: &mut Random) -> Vec<u8> {
    let mut comment = Vec::new();
    if random.once_in(2) {
        comment.extend(b"c\n");
        comment.extend((0..random.below(12)).map(|_| random.byte()));
        if comment.last() != Some(&b'\n') {
            comment.push(b'\n');
        }
    }
    comment
}
