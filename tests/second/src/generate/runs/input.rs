//! What a program is given as standard input.

use super::turns::Turn;
use super::Input;
use crate::aiger::programs::LONGEST;
use crate::aiger::Circuit;
use crate::generate::values::{no_value, vector};
use crate::random::Random;

/// So many values are written and gates stepped at most.
const WORK: usize = 2_000_000;

/// Lines for a circuit, whole or damaged; some lines if there is none, since nothing reads them then.
pub fn input(random: &mut Random, turn: Turn, circuit: Option<&Circuit>) -> Input {
    let can_be_read = match turn {
        Turn::Input(number) => number != 14,
        Turn::Accepted => true,
        _ => !random.once_in(10),
    };
    // Where nothing is read it need not be there.
    if !can_be_read || circuit.is_none() && random.once_in(10) {
        return match random.below(3) {
            0 => Input::Folder,
            1 => Input::ForWriting,
            _ => Input::Closed,
        };
    }
    let mut bytes = circuit.map_or_else(|| b"01x\n".repeat(3), |circuit| lines(random, circuit));
    match turn {
        Turn::Input(13) => bytes = overlong(random, &bytes),
        Turn::Input(_) => damage(random, &mut bytes),
        Turn::Any if random.once_in(2) => damage(random, &mut bytes),
        _ => {}
    }
    if random.once_in(3) {
        Input::Pipe(bytes)
    } else {
        Input::File(bytes)
    }
}

/// A few vectors, or as many as the longest input has.
fn lines(random: &mut Random, circuit: &Circuit) -> Vec<u8> {
    let (i, o) = (circuit.inputs.len(), circuit.outputs.len());
    let (l, a) = (circuit.latches.len(), circuit.gates.len());
    let most = (LONGEST / (i + 1)).min(WORK / (2 * l + i + o + a + 4));
    let number = if random.once_in(10) {
        most
    } else {
        random.below(most.min(12) + 1)
    };
    let unknown = random.below(4);
    let line = |_| [vector(random, unknown, i), b"\n".to_vec()].concat();
    (0..number).flat_map(line).collect()
}

fn damage(random: &mut Random, bytes: &mut Vec<u8>) {
    let end = bytes.len();
    let at = random.below(end + 1);
    match random.below(7) {
        0 => drop(bytes.pop()),
        1 if at < end => bytes[at] = no_value(random),
        2 if at < end => drop(bytes.remove(at)),
        3 => bytes.insert(at, *random.pick(b"01x")),
        4 => bytes.insert(at, *random.pick(b"\n\r \0X2")),
        5 => bytes.push(b'\n'),
        _ => {
            bytes.pop();
            bytes.insert(at.min(bytes.len()), no_value(random));
        }
    }
}

/// The same lines again and again, until there are too many.
fn overlong(random: &mut Random, bytes: &[u8]) -> Vec<u8> {
    let length = LONGEST + *random.pick(&[1, 1, 2, LONGEST]);
    let lines = if bytes.is_empty() { b"\n" } else { bytes };
    lines.iter().copied().cycle().take(length).collect()
}
