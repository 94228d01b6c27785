//! The plain engine: the value of a literal asks for its variable, and the value of a gate's variable for two literals.

use super::step::{and, not, Step};
use super::{negated, variable, Circuit};

/// The most gates.
pub const MOST_GATES: u64 = 24;

/// What the rules ask: a circuit in binary order, its state and its inputs.
struct Asked<'a> {
    circuit: &'a Circuit,
    state: &'a [u8],
    input: &'a [u8],
}

impl Asked<'_> {
    fn literal(&self, literal: u32) -> u8 {
        let value = self.variable(variable(literal));
        if negated(literal) {
            not(value)
        } else {
            value
        }
    }

    fn variable(&self, v: usize) -> u8 {
        let (i, l) = (self.input.len(), self.state.len());
        if v == 0 {
            b'0'
        } else if v <= i {
            self.input[v - 1]
        } else if v <= i + l {
            self.state[v - i - 1]
        } else {
            let [_, rhs0, rhs1] = self.circuit.gates[v - i - l - 1];
            and(self.literal(rhs0), self.literal(rhs1))
        }
    }

    fn literals(&self, literals: &[u32]) -> Vec<u8> {
        literals.iter().map(|&literal| self.literal(literal)).collect()
    }
}

pub fn step(circuit: &Circuit, state: &[u8], input: &[u8]) -> Step {
    let asked = Asked { circuit, state, input };
    let next: Vec<u32> = circuit.latches.iter().map(|latch| latch[1]).collect();
    Step {
        output: asked.literals(&circuit.outputs),
        bad: asked.literals(&circuit.bads),
        constraint: asked.literals(&circuit.constraints),
        next: asked.literals(&next),
    }
}
