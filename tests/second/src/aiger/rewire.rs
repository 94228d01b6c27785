//! One gate gets other right sides while a step's values are at hand.

use super::step::{self, and, value};
use super::Circuit;

/// The circuit with a gate's right sides replaced, larger first.
pub fn rewired(circuit: &Circuit, gate: usize, [one, other]: [u32; 2]) -> Circuit {
    let mut edited = circuit.clone();
    let [lhs, ..] = edited.gates[gate];
    edited.gates[gate] = [lhs, one.max(other), one.min(other)];
    edited
}

/// The least variable whose value is wrong, given those before it. The circuit is in binary order.
pub fn wrong(circuit: &Circuit, values: &[u8]) -> Option<usize> {
    let sources = circuit.inputs.len() + circuit.latches.len();
    let right = |v: usize| match v {
        0 => values[0] == b'0',
        v if v <= sources => b"01x".contains(&values[v]),
        v => {
            let [_, rhs0, rhs1] = circuit.gates[v - sources - 1];
            values[v] == and(value(values, rhs0), value(values, rhs1))
        }
    };
    (0..values.len()).find(|&v| !right(v))
}

/// The values of a fresh step on the inputs and the state that these values have.
pub fn fresh(circuit: &Circuit, values: &[u8]) -> Vec<u8> {
    let (input, rest) = values[1..].split_at(circuit.inputs.len());
    step::values(circuit, &rest[..circuit.latches.len()], input)
}
