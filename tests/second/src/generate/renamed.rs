//! One plan in other numbers: text files whose lists agree entry by entry under a one-to-one renaming of variables,
//! constants fixed, signs preserved, right sides exchanged or not, with the same symbols and comment.

use super::circuit::{circuit, exchange_sides, rename, size};
use super::draft::Draft;
use crate::aiger::{negation, Circuit, Form, MOST};
use crate::random::Random;

/// Keeps the numbers of these apart from those of other cases.
const APART: u64 = 7 << 60;

/// A file, one with other numbers, and if there is a place for it one that misses that by a sign or a reset.
pub struct Renamed {
    pub files: [Vec<u8>; 2],
    pub miss: Option<Vec<u8>>,
}

pub fn renamed(seed: u64, number: u64) -> Renamed {
    let random = &mut Random::new(seed, APART | number);
    let size = size(random, Form::Text);
    let plan = circuit(random, Form::Text, &size);
    let draft = Draft::new(random, Form::Text, &plan);
    // M may be another too, as long as there are numbers enough.
    let m = plan.defining().count() + random.below(size.unused + 9);
    let mut other = rename(random, &plan, m.min(MOST as usize));
    exchange_sides(random, &mut other.gates);
    let mut file = |circuit: &Circuit| {
        let other = Draft::new(random, Form::Text, circuit);
        let (symbols, comment) = (draft.symbols.clone(), draft.comment.clone());
        let draft = Draft {
            symbols,
            comment,
            ..other
        };
        draft.layout().file
    };
    let files = [file(&plan), file(&other)];
    let missed = missed(&mut Random::new(!seed, APART | number), other);
    let miss = missed.map(|circuit| file(&circuit));
    Renamed { files, miss }
}

/// One literal with the other sign, or a latch that starts otherwise: conversion gives the same numbers, so its bytes differ.
fn missed(random: &mut Random, mut circuit: Circuit) -> Option<Circuit> {
    if random.once_in(4) && !circuit.resets.is_empty() {
        let k = random.below(circuit.resets.len());
        circuit.resets[k] = u32::from(circuit.resets[k] == 0);
        return Some(circuit);
    }
    let next = circuit.latches.iter_mut().map(|latch| &mut latch[1]);
    let sides = circuit.gates.iter_mut().flat_map(|[_, rhs0, rhs1]| [rhs0, rhs1]);
    let asked = [&mut circuit.outputs, &mut circuit.bads, &mut circuit.constraints];
    let asked = asked.into_iter().flatten();
    let mut used: Vec<&mut u32> = next.chain(sides).chain(asked).collect();
    let k = (!used.is_empty()).then(|| random.below(used.len()))?;
    *used[k] = negation(*used[k]);
    Some(circuit)
}
