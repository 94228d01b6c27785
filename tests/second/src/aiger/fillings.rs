//! The witness question: yes exactly if every filling of the x of the first state and of the list shows a 1.

use super::{step, Circuit};

/// The most x.
pub const MOST_X: usize = 20;

pub const NO: u64 = 0;
pub const YES: u64 = 1;
pub const UNDECIDED: u64 = 2;

/// What is said, and how many fillings were tried.
#[derive(Clone, Copy, Debug, PartialEq, Eq)]
pub struct Verdict {
    pub says: u64,
    pub tried: u64,
}

/// The first state, then the list: in this order x are numbered.
pub fn values(circuit: &Circuit, list: &[&[u8]]) -> Vec<u8> {
    [step::start(circuit), list.concat()].concat()
}

/// How many x there are to be filled.
pub fn unknown(values: &[u8]) -> usize {
    values.iter().filter(|&&value| value == b'x').count()
}

/// Tries one filling after another, from number 0 up.
pub fn witness(circuit: &Circuit, list: &[&[u8]], allowance: u64) -> Verdict {
    let values = values(circuit, list);
    let fillings = 1 << unknown(&values);
    for tried in 0..fillings {
        if tried == allowance {
            return Verdict { says: UNDECIDED, tried };
        }
        if !shows(circuit, list.len(), &filled(&values, tried)) {
            return Verdict {
                says: NO,
                tried: tried + 1,
            };
        }
    }
    Verdict {
        says: YES,
        tried: fillings,
    }
}

/// Filling number k: bit i of k at x number i.
pub fn filled(values: &[u8], k: u64) -> Vec<u8> {
    let mut i = 0;
    let mut fill = |&value: &u8| match value {
        b'x' => {
            i += 1;
            b"01"[(k >> (i - 1)) as usize % 2]
        }
        known => known,
    };
    values.iter().map(&mut fill).collect()
}

/// Whether two-valued stepping shows a 1 while every constraint is 1, then and before.
pub fn shows(circuit: &Circuit, number: usize, values: &[u8]) -> bool {
    let (start, list) = values.split_at(circuit.latches.len());
    let i = circuit.inputs.len();
    let vectors = (0..number).map(|k| &list[k * i..(k + 1) * i]);
    let mut kept = step::run_from(circuit, start.to_vec(), vectors).take_while(|(_, step)| step.keeps_constraints());
    kept.any(|(_, step)| step.shows())
}
