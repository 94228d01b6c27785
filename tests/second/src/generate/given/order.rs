//! Accepted tables that are not in binary order (15), made from tables that are.

use super::{refusal, Damage};
use crate::aiger::tables::Given;
use crate::aiger::{Circuit, Refusal, MOST};
use crate::random::Random;

pub const ALL: &[Damage] = &[
    unused,
    inputs_exchanged,
    sources_exchanged,
    gates_exchanged,
    gates_renamed,
    sides_exchanged,
    sides_exchanged,
];

/// M above I + L + A.
fn unused(random: &mut Random, circuit: &Circuit, given: &mut Given, _: u64) -> Option<Refusal> {
    let more = random.between(1, 3) as u64;
    if circuit.m + more > MOST {
        return None;
    }
    given.counts.m = circuit.m + more;
    given.scratch += 4 * more;
    refusal(15, 0)
}

/// Two different positions below `count`.
fn two(random: &mut Random, count: usize) -> Option<[usize; 2]> {
    if count < 2 {
        return None;
    }
    let first = random.below(count - 1);
    Some([first, random.between(first + 1, count - 1)])
}

fn inputs_exchanged(random: &mut Random, circuit: &Circuit, given: &mut Given, _: u64) -> Option<Refusal> {
    let [one, other] = two(random, circuit.inputs.len())?;
    given.tables[0].swap(one, other);
    refusal(15, 0)
}

/// An input and a latch, or two latches.
fn sources_exchanged(random: &mut Random, circuit: &Circuit, given: &mut Given, _: u64) -> Option<Refusal> {
    let [inputs, latches, .., resets, _, _] = &mut given.tables;
    if !circuit.inputs.is_empty() && random.once_in(2) {
        let input = random.below(circuit.inputs.len());
        let latch = latches.get_mut(2 * random.below(circuit.latches.len().max(1)))?;
        std::mem::swap(&mut inputs[input], latch);
    } else {
        let [one, other] = two(random, circuit.latches.len())?;
        latches.swap(2 * one, 2 * other);
    }
    // A latch that starts as x stays one.
    for (latch, reset) in latches.as_chunks::<2>().0.iter().zip(resets) {
        *reset = if *reset > 1 { latch[0] } else { *reset };
    }
    refusal(15, 0)
}

fn gates_exchanged(random: &mut Random, circuit: &Circuit, given: &mut Given, _: u64) -> Option<Refusal> {
    let [one, other] = two(random, circuit.gates.len())?;
    given.tables[3].as_chunks_mut::<3>().0.swap(one, other);
    refusal(15, 0)
}

/// The last gate and an input bear each other's names, in all tables.
fn gates_renamed(random: &mut Random, circuit: &Circuit, given: &mut Given, _: u64) -> Option<Refusal> {
    let gate = circuit.gates.last()?[0];
    let input = *circuit.inputs.get(random.below(circuit.inputs.len().max(1)))?;
    for word in given.tables.iter_mut().flatten() {
        if *word / 2 == gate / 2 {
            *word = input + *word % 2;
        } else if *word / 2 == input / 2 {
            *word = gate + *word % 2;
        }
    }
    refusal(15, 0)
}

/// rhs0 below rhs1.
fn sides_exchanged(random: &mut Random, circuit: &Circuit, given: &mut Given, _: u64) -> Option<Refusal> {
    let gates = circuit.gates.iter().enumerate();
    let unequal: Vec<usize> = gates.filter(|(_, gate)| gate[1] != gate[2]).map(|(k, _)| k).collect();
    if unequal.is_empty() {
        return None;
    }
    let gate = *random.pick(&unequal);
    given.tables[3].swap(3 * gate + 1, 3 * gate + 2);
    refusal(15, 0)
}
